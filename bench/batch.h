/* Batches made by seed, the same batches in another order, and their hints: see batch.c. */
#ifndef BENCH_BATCH_H
#define BENCH_BATCH_H

#include <stddef.h>
#include <stdint.h>

enum { BATCH_FILES = 13, BATCH_LONGEST = 16777215 };

/* Files by their numbers; place 0 is not used. Each has room for a few records more. */
struct batch {
    uint8_t *bytes[BATCH_FILES + 1];
    size_t length[BATCH_FILES + 1];
    uint32_t *order;
    size_t count;
};

/* A batch that stands, of about `length` bytes in all, 64 MB at most; keys rise in every file that has one. The seed isn't 0. */
void batch_make(struct batch *batch, uint64_t seed, size_t length);

/* The same records, in each file in another order; with its hint. */
void batch_shuffle(struct batch *shuffled, const struct batch *batch, uint64_t seed);

/* Sets the right hint: for each of the files 2 to 10 whose keys don't strictly rise, the starts of its records by key and place. */
void batch_order(struct batch *batch);

/* All files together, in bytes. */
size_t batch_length(const struct batch *batch);

/* The start of a file's last record. */
size_t batch_last(const struct batch *batch, unsigned file);

/* The value of a field of digits; `record` is the start of a record. */
uint64_t batch_number(const uint8_t *record, unsigned field);

void batch_free(struct batch *batch);

#endif
