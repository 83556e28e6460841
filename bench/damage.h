/* Damaged batches: see damage.c. */
#ifndef BENCH_DAMAGE_H
#define BENCH_DAMAGE_H

#include "batch.h"

/* One damage, the number with which the batch is refused then, and how it is done. */
struct damage {
    const char *what;
    unsigned number, file;
    unsigned field;           /* of the file's last record, which gets the text, and the next fields the next ones; 0 for the whole */
    const char *texts[3];     /* or a record that is added, with the last trip's line and number for L and T */
    enum { SET, ADD, AGAIN, BYTE, SHORTER, LONG } how;
};

extern const struct damage damages[];
extern const unsigned damage_count;

/* Does a damage, makes the hint again, and undoes it. The hint that the batch had is put back too. */
void damage_do(struct batch *batch, const struct damage *damage);
void damage_undo(struct batch *batch);

#endif
