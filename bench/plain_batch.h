/* What plain.c and its parts know of a batch. */
#ifndef BENCH_PLAIN_BATCH_H
#define BENCH_PLAIN_BATCH_H

#include "plain.h"

enum { VERZEJDF = 1, ZASTAVKY, PEVNYKOD, DOPRAVCI, LINKY, SPOJE, ZASLINKY, ZASSPOJE, UDAJE, CASKODY, ALTDOP, ALTLINKY, MISTENKY, FILES = 13 };

/* The values of empty fields and of time fields that hold no time. */
#define NONE UINT32_MAX
#define BAR (UINT32_MAX - 1)
#define ANGLE (UINT32_MAX - 2)

/* Where a field's text begins, and its value: a number's own, a date's as YYYYMMDD, a time's minute of the day, of one byte out of a few that byte, of another
   text its length. */
struct field {
    uint32_t start;
    uint32_t value;
};

/* The fields of a file's records, one after the other from place 1 on, and one more that begins where the next record would. */
struct table {
    const uint8_t *bytes;
    struct field *fields;
    size_t room;
    size_t records;
    unsigned width;
};

struct entry {
    uint64_t pair; /* the key's first two numbers; 0 in a free entry */
    uint32_t third;
    uint32_t record; /* from 0 on */
};

/* Records by their keys, open addressing. */
struct index {
    struct entry *entries;
    size_t mask;
    unsigned shift;
    size_t twice; /* the first record whose key an earlier one has; SIZE_MAX if there is none */
};

/* The records of one file by trips: those of trip t are rows[begins[t]] to before rows[begins[t + 1]]. */
struct groups {
    uint32_t *trip_of; /* each record's trip */
    uint32_t *begins;
    uint32_t *rows;
};

struct plain_batch {
    struct table tables[FILES + 1];
    struct index indexes[FILES + 1];
    struct groups stops, codes; /* Zasspoje's records in travel order, Caskody's */
};

extern const unsigned plain_width[FILES + 1];

void *plain_space(size_t n);

/* The fields of a record, from 1 on. */
static inline const struct field *fields_of(const struct table *table, size_t record)
{
    return table->fields + record * table->width;
}

static inline struct plain_text text_of(const struct table *table, const struct field *fields, unsigned f)
{
    /* A quote, a comma and a quote stand between two texts of a record; a semicolon, CR and LF instead of the comma between records. */
    unsigned between = f == table->width ? 5 : 3;
    return (struct plain_text){table->bytes + fields[f].start, fields[f + 1].start - between - fields[f].start};
}

/* Of a time field's value. */
static inline int is_time(uint32_t value)
{
    return value < 1440;
}

static inline struct plain_answer refused(unsigned number, unsigned file, size_t record, unsigned field)
{
    return (struct plain_answer){.number = number, .file = file, .record = record, .field = field};
}

/* The record with this key, or NULL. */
const struct field *plain_find(const struct plain_batch *batch, unsigned file, uint64_t a, uint64_t b);

/* The sign of a code that isn't empty; 0 if there is no such code. */
uint8_t plain_sign(const struct plain_batch *batch, uint32_t code);

#endif
