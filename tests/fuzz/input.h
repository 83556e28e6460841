/* What the bytes of the fuzzer stand for: one question, with all that may be lent for it. Any bytes at all stand for some question. */
#ifndef SLOVDRIM_FUZZ_INPUT_H
#define SLOVDRIM_FUZZ_INPUT_H

#include <stddef.h>
#include <stdint.h>

/* The parts of an input: the thirteen files, the three parts of a name, a text for the writer, the holidays, the hint and the questions of many sales.
   The last three are lists of numbers of 64, 32 and 64 bits. */
enum { FILES = 13, NAME = FILES, TEXT = NAME + 3, HOLIDAYS, ORDER, ASKED, PARTS };

enum { LONGEST_PART = 16384 };

/* The numbers of an input, by what they are for. A call takes those that it has. */
enum { LINE, TRIP, DAY, MONTH, YEAR, FROM, TO, FILE_NUMBER, RECORD, FIELD, PLACE, DAY_NUMBER, NUMBERS };

struct part {
    size_t length;
    uint8_t bytes[LONGEST_PART];
};

struct input {
    uint8_t call;    /* which call, or which command of the desk */
    uint8_t choices; /* bits: what is asked besides, and how */
    uint16_t room;   /* how many bytes, or numbers, are lent to be written to */
    uint64_t numbers[NUMBERS];
    struct part parts[PARTS];
};

/* Bytes that are missing count as 0, and a length beyond the end goes to the end. */
void decode(const uint8_t *bytes, size_t length, struct input *in);

/* The bytes that stand for an input; how many, or 0 if there are more than `room`. */
size_t encode(const struct input *in, uint8_t *bytes, size_t room);

/* mutate.c: changes an input a little, as a person who knows the format would; `seed` decides how. */
void change(struct input *in, unsigned seed);
/* Takes some parts and numbers from another. */
void cross(struct input *in, const struct input *other, unsigned seed);
/* The harness says that the batch of this input stands; later changes begin from it now and then. */
void keep_standing(const struct input *in);

/* records.c: the records and fields of a part, whatever its bytes are. Both count from 0. */
struct span {
    size_t at, length;
};
size_t count_records(const struct part *part);
struct span record_span(const struct part *part, size_t record);
struct span field_span(const struct part *part, size_t record, size_t field);
/* The value of a field's digits; 0 if it has others or none. */
uint64_t field_value(const struct part *part, size_t record, size_t field);
/* Puts `added` bytes in the place of `cut` others; changes nothing if the part would be too long. */
void splice(struct part *part, size_t at, size_t cut, const uint8_t *bytes, size_t added);

/* order.c: the list that slovdrim.h describes at slovdrim_check_hinted, as far as the files have keys at all. */
void right_order(const struct input *in, struct part *order);

extern const unsigned fields_of_file[FILES];
extern const unsigned keys_of_file[FILES];

#endif
