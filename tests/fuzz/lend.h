/* Lends the parts of an input: each stands in two rooms, at the end of one and at the start of the other, and all that isn't lent is poisoned besides, so that
   code compiled with AddressSanitizer may touch neither the byte before it nor the one after it. */
#ifndef SLOVDRIM_FUZZ_LEND_H
#define SLOVDRIM_FUZZ_LEND_H

#include "../rooms.h"
#include "input.h"

/* Takes back what was lent for the input before. */
void lend_input(const struct input *in);

/* NOWHERE is at the end, or NULL for a part that is empty. */
const uint8_t *lent_part(int part, enum placing where);
size_t lent_length(int part);

/* One of the thirteen files is now zero bytes, one more than the library reads. */
void lend_too_long(int file);

/* Memory to be written to, of `length` bytes, at most LONGEST_PART. There are two: the answer, and the buffer or list. They are filled before. */
enum { ANSWER, BUFFER, WRITABLE };
uint8_t *lend_writable(int which, enum placing where, size_t length, const uint8_t *filling);

#endif
