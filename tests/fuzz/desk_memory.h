#ifndef SLOVDRIM_FUZZ_DESK_MEMORY_H
#define SLOVDRIM_FUZZ_DESK_MEMORY_H

/* From now on, the nth request for memory is refused, or none if it is 0; nothing is held yet. */
void refuse_memory(unsigned nth);
int was_refused(void);
/* How many pieces of memory were given and not taken back. */
long memory_held(void);

#endif
