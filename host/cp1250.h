/* CP1250, in which a batch is written, for the programs that show its texts. */
#ifndef CP1250_H
#define CP1250_H

#include <stddef.h>
#include <stdint.h>
#include <stdio.h>

/* A text in UTF-8. A byte that no text of a legal file has is shown by its number, so that no file can steer a terminal. */
void show_cp1250(FILE *to, const uint8_t *bytes, size_t length);

/* The byte of a code point, or -1 if CP1250 has none. */
int cp1250_byte(uint32_t code);

#endif
