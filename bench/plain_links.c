/* Keys, links and signs: document 01, "The batch" and the permitted signs under "Fields"; refusals 7 to 9. A hash table for each file with a key is filled
   first; then the files are gone through. */
#include <stdlib.h>
#include <string.h>

#include "plain_batch.h"

static const unsigned key_count[FILES + 1] = {[ZASTAVKY] = 1, [PEVNYKOD] = 1, [DOPRAVCI] = 1, [LINKY] = 1, [SPOJE] = 2,
                                              [ZASLINKY] = 2, [ZASSPOJE] = 3, [UDAJE] = 2, [CASKODY] = 3};
static const char *const permitted_signs[FILES + 1] = {[ZASTAVKY] = "@%Wwx~}v", [SPOJE] = "X+1234567R#@%I{[Os", [ZASLINKY] = "()x\xA7$",
                                                       [ZASSPOJE] = "()x\xA7", [ALTDOP] = "X+1234567"};

/* Numbers have 9 digits at most: two of them and the mark of a used entry fill 64 bits. */
static uint64_t pair(uint64_t a, uint64_t b)
{
    return (uint64_t)1 << 63 | a << 30 | b;
}

static struct entry *slot(const struct index *index, uint64_t pair, uint32_t third)
{
    size_t i = ((pair + third * 0xD6E8FEB86659FD93u) * 0x9E3779B97F4A7C15u) >> index->shift;
    while (index->entries[i].pair != 0 && (index->entries[i].pair != pair || index->entries[i].third != third))
        i = (i + 1) & index->mask;
    return &index->entries[i];
}

/* Room for all records, at most two thirds of it used. */
static void open_index(struct index *index, size_t records)
{
    size_t size = 2;
    index->shift = 63;
    for (; size * 2 < records * 3; size *= 2)
        index->shift--;
    index->mask = size - 1;
    index->entries = plain_space(size * sizeof *index->entries);
    memset(index->entries, 0, size * sizeof *index->entries);
    index->twice = SIZE_MAX;
}

static void fill_index(struct index *index, const struct table *table, unsigned keys)
{
    size_t r;
    open_index(index, table->records);
    for (r = 0; r < table->records; r++) {
        const struct field *fields = fields_of(table, r);
        uint64_t first = keys > 1 ? pair(fields[1].value, fields[2].value) : pair(0, fields[1].value);
        uint32_t third = keys > 2 ? fields[3].value : 0;
        struct entry *entry = slot(index, first, third);
        if (entry->pair == 0)
            *entry = (struct entry){first, third, (uint32_t)r};
        else if (index->twice == SIZE_MAX)
            index->twice = r;
    }
}

static const struct entry *find(const struct plain_batch *batch, unsigned file, uint64_t a, uint64_t b)
{
    const struct entry *entry = slot(&batch->indexes[file], pair(a, b), 0);
    return entry->pair != 0 ? entry : NULL;
}

const struct field *plain_find(const struct plain_batch *batch, unsigned file, uint64_t a, uint64_t b)
{
    const struct entry *entry = find(batch, file, a, b);
    return entry != NULL ? fields_of(&batch->tables[file], entry->record) : NULL;
}

uint8_t plain_sign(const struct plain_batch *batch, uint32_t code)
{
    const struct field *fields = plain_find(batch, PEVNYKOD, 0, code);
    return fields != NULL ? (uint8_t)fields[2].value : 0;
}

/* A refusal and its field; number 0 if there is none. */
struct fault {
    unsigned number, field;
};

static struct fault codes(const struct plain_batch *batch, unsigned file, const struct field *fields, unsigned from, unsigned to)
{
    unsigned f;
    uint8_t sign, other = 0;
    for (f = from; f <= to; f++) {
        if (fields[f].value == NONE)
            continue;
        sign = plain_sign(batch, fields[f].value);
        if (sign == 0)
            return (struct fault){8, f};
        if (strchr(permitted_signs[file], sign) == NULL || (file == ZASSPOJE && other != 0 && other != sign))
            return (struct fault){9, f};
        other = sign;
    }
    return (struct fault){0, 0};
}

/* The field if nothing of this file has the number; otherwise 0. */
static unsigned dangling(const struct plain_batch *batch, unsigned file, const struct field *fields, unsigned f)
{
    return find(batch, file, 0, fields[f].value) == NULL ? f : 0;
}

/* The same of the line and trip in fields 1 and 2; a trip that is found is remembered. */
static unsigned dangling_trip(const struct plain_batch *batch, const struct field *fields, uint32_t *trip)
{
    const struct entry *entry = find(batch, SPOJE, fields[1].value, fields[2].value);
    if (entry != NULL && trip != NULL)
        *trip = entry->record;
    return entry == NULL ? 2 : 0;
}

/* The first field whose link goes to nothing, codes apart; 0 if there is none. Codes stand behind all other links. */
static unsigned first_dangling(struct plain_batch *batch, unsigned file, size_t record, const struct field *fields)
{
    unsigned f = 0;
    switch (file) {
    case LINKY:
        return dangling(batch, DOPRAVCI, fields, 3);
    case SPOJE:
    case UDAJE:
    case ALTLINKY:
        return dangling(batch, LINKY, fields, 1);
    case ZASLINKY:
        f = dangling(batch, LINKY, fields, 1);
        return f != 0 ? f : dangling(batch, ZASTAVKY, fields, 4);
    case ZASSPOJE:
        f = dangling_trip(batch, fields, &batch->stops.trip_of[record]);
        if (f == 0 && find(batch, ZASLINKY, fields[1].value, fields[3].value) == NULL)
            f = 3;
        return f != 0 ? f : dangling(batch, ZASTAVKY, fields, 4);
    case CASKODY:
        return dangling_trip(batch, fields, &batch->codes.trip_of[record]);
    case ALTDOP:
        f = dangling_trip(batch, fields, NULL);
        return f != 0 ? f : dangling(batch, DOPRAVCI, fields, 3);
    case MISTENKY:
        f = dangling(batch, LINKY, fields, 1);
        return f != 0 || fields[2].value == 0 ? f : dangling_trip(batch, fields, NULL);
    default:
        return 0;
    }
}

static struct fault links_of(struct plain_batch *batch, unsigned file, size_t record, const struct field *fields)
{
    static const unsigned from[FILES + 1] = {[ZASTAVKY] = 7, [SPOJE] = 3, [ZASLINKY] = 5, [ZASSPOJE] = 6, [ALTDOP] = 4};
    static const unsigned to[FILES + 1] = {[ZASTAVKY] = 12, [SPOJE] = 12, [ZASLINKY] = 7, [ZASSPOJE] = 7, [ALTDOP] = 9};
    unsigned f = first_dangling(batch, file, record, fields);
    if (f != 0)
        return (struct fault){8, f};
    return from[file] != 0 ? codes(batch, file, fields, from[file], to[file]) : (struct fault){0, 0};
}

static struct plain_answer links_of_file(struct plain_batch *batch, unsigned file)
{
    const struct table *table = &batch->tables[file];
    size_t r;
    for (r = 0; r < table->records; r++) {
        struct fault found;
        if (key_count[file] != 0 && r == batch->indexes[file].twice)
            return refused(7, file, r + 1, 0);
        found = links_of(batch, file, r, fields_of(table, r));
        if (found.number != 0)
            return refused(found.number, file, r + 1, found.field);
    }
    return (struct plain_answer){.number = 0};
}

struct plain_answer plain_links(struct plain_batch *batch)
{
    struct plain_answer answer = {.number = 0};
    unsigned file;
    for (file = ZASTAVKY; file <= FILES; file++)
        if (key_count[file] != 0)
            fill_index(&batch->indexes[file], &batch->tables[file], key_count[file]);
    batch->stops.trip_of = plain_space((batch->tables[ZASSPOJE].records + 1) * sizeof(uint32_t));
    batch->codes.trip_of = plain_space((batch->tables[CASKODY].records + 1) * sizeof(uint32_t));
    for (file = ZASTAVKY; file <= FILES && answer.number == 0; file++)
        answer = links_of_file(batch, file);
    return answer;
}
