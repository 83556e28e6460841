/* Memory to lend: a room between two stretches of addresses that nobody may touch. The driver of the comparison and the fuzzers lend from such rooms. */
#ifndef SLOVDRIM_ROOMS_H
#define SLOVDRIM_ROOMS_H

#include <stddef.h>
#include <stdint.h>

/* A unit that is whole pages on every machine, also under an emulator. */
enum { PAGE = 65536 };

/* How many addresses before and after a room are forbidden: more than any number of 32 bits reaches, so that an offset that was lent and believed leads there
   and not into another room. */
#define FORBIDDEN (((size_t)1 << 32) + PAGE)

/* The library is lent `lent`; `own` is the same memory seen a second time, through which it is filled. `lent` of a read-only room can't be written to at all. */
struct room {
    uint8_t *own;
    uint8_t *lent;
    size_t size;
};

/* `size` is in whole units. Ends the program if there is no memory. */
struct room room_of(size_t size, int writable);

/* Where `length` bytes stand in a room: at its very end, so that one byte too far is a crash, or at its very beginning, for one byte before. */
enum placing { AT_END, AT_START, NOWHERE, PLACINGS };
size_t placed(const struct room *room, enum placing where, size_t length);

#endif
