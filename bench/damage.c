/* Damages that a batch of batch.c is refused for: one at least for each of the refusals 1 to 11, most of them at the end of a file. */
#include "damage.h"

#include <stdio.h>
#include <stdlib.h>
#include <string.h>

#include "library.h"

enum { VERZEJDF = 1, ZASTAVKY, PEVNYKOD, DOPRAVCI, LINKY, SPOJE, ZASLINKY, ZASSPOJE, UDAJE, CASKODY, ALTDOP, ALTLINKY, MISTENKY };

const struct damage damages[] = {
    {"no such stop", 8, ZASSPOJE, 4, {"999999999"}, SET},
    {"times fall", 11, ZASSPOJE, 8, {"0", "0000", ""}, SET},
    {"two parities", 10, CASKODY, 0, {"\"L\",\"T\",\"900001\",\"10\",\"5\",\"\",\"\",\"\"", "\"L\",\"T\",\"900002\",\"10\",\"6\",\"\",\"\",\"\""}, ADD},
    {"too long", 1, UDAJE, 0, {NULL}, LONG},
    {"a byte that isn't permitted", 2, ZASSPOJE, 0, {NULL}, BYTE},
    {"no LF at the end", 3, MISTENKY, 0, {NULL}, SHORTER},
    {"another version", 4, VERZEJDF, 1, {"1.7"}, SET},
    {"two versions", 4, VERZEJDF, 0, {NULL}, AGAIN},
    {"no number of a stop", 5, ZASTAVKY, 1, {""}, SET},
    {"a town too long", 5, ZASTAVKY, 2, {"1234567890123456789012345678901234567890123456789"}, SET},
    {"no such sign", 5, PEVNYKOD, 2, {"Z"}, SET},
    {"seven digits", 5, DOPRAVCI, 1, {"1234567"}, SET},
    {"no such kind of line", 5, LINKY, 4, {"C"}, SET},
    {"29 February", 5, LINKY, 9, {"29022001"}, SET},
    {"24 hours", 5, ZASSPOJE, 10, {"2400"}, SET},
    {"six digits of a code", 5, ALTDOP, 4, {"000001"}, SET},
    {"no text", 5, MISTENKY, 3, {""}, SET},
    {"no district", 6, ZASTAVKY, 5, {"", "CZ"}, SET},
    {"no name of a person", 6, DOPRAVCI, 4, {"2", ""}, SET},
    {"valid backwards", 6, LINKY, 9, {"14122002", "10062001"}, SET},
    {"kilometres without a time", 6, ZASSPOJE, 8, {"7", "", ""}, SET},
    {"a bar to a time", 6, ZASSPOJE, 8, {"7", "|", "0900"}, SET},
    {"a mark below 10", 6, CASKODY, 4, {"09", "1"}, SET},
    {"a to-date alone", 6, CASKODY, 6, {"", "01012002"}, SET},
    {"a to-date before its from-date", 6, ALTDOP, 12, {"02012002", "01012002"}, SET},
    {"a stop twice", 7, ZASTAVKY, 0, {NULL}, AGAIN},
    {"a code twice", 7, PEVNYKOD, 0, {NULL}, AGAIN},
    {"a carrier twice", 7, DOPRAVCI, 0, {NULL}, AGAIN},
    {"a line twice", 7, LINKY, 0, {NULL}, AGAIN},
    {"a trip twice", 7, SPOJE, 0, {NULL}, AGAIN},
    {"a line's stop twice", 7, ZASLINKY, 0, {NULL}, AGAIN},
    {"a trip's stop twice", 7, ZASSPOJE, 0, {NULL}, AGAIN},
    {"a text twice", 7, UDAJE, 0, {NULL}, AGAIN},
    {"a time code twice", 7, CASKODY, 0, {NULL}, AGAIN},
    {"no such code of a stop", 8, ZASTAVKY, 7, {"99999"}, SET},
    {"no such carrier", 8, LINKY, 3, {"99999999"}, SET},
    {"no such line of a trip", 8, SPOJE, 1, {"000000"}, SET},
    {"no such stop of a line", 8, ZASLINKY, 4, {"999999999"}, SET},
    {"no such trip", 8, ZASSPOJE, 2, {"999999999"}, SET},
    {"no such tariff number", 8, ZASSPOJE, 3, {"999999999"}, SET},
    {"no such code", 8, ZASSPOJE, 6, {"99999"}, SET},
    {"no such line of a text", 8, UDAJE, 1, {"000000"}, SET},
    {"no such trip of a time code", 8, CASKODY, 2, {"999999999"}, SET},
    {"no such trip of a carrier", 8, ALTDOP, 2, {"999999999"}, SET},
    {"no such other carrier", 8, ALTDOP, 3, {"00000000"}, SET},
    {"no such line of another number", 8, ALTLINKY, 1, {"000000"}, SET},
    {"no such trip of a seat", 8, MISTENKY, 2, {"999999999"}, SET},
    {"a day sign of a stop", 9, ZASTAVKY, 7, {"1"}, SET},
    {"a bar of a trip", 9, SPOJE, 3, {"12"}, SET},
    {"a day sign of a line's stop", 9, ZASLINKY, 5, {"1"}, SET},
    {"a border of a trip's stop", 9, ZASSPOJE, 6, {"23"}, SET},
    {"two signs", 9, ZASSPOJE, 6, {"21", "22"}, SET},
    {"no day sign of a carrier", 9, ALTDOP, 4, {"14"}, SET},
    {"two marks", 10, CASKODY, 0, {"\"L\",\"T\",\"900001\",\"10\",\"4\",\"01012002\",\"\",\"\"", "\"L\",\"T\",\"900002\",\"11\",\"4\",\"01012002\",\"\",\"\""}, ADD},
    {"types 1 and 7", 10, CASKODY, 0, {"\"L\",\"T\",\"900001\",\"10\",\"1\",\"01012002\",\"\",\"\"", "\"L\",\"T\",\"900002\",\"10\",\"7\",\"01012002\",\"02012002\",\"\""}, ADD},
    {"types 3 and 2", 10, CASKODY, 0, {"\"L\",\"T\",\"900001\",\"10\",\"3\",\"01012002\",\"\",\"\"", "\"L\",\"T\",\"900002\",\"10\",\"2\",\"01012002\",\"\",\"\""}, ADD},
    {"kilometres fall", 11, ZASSPOJE, 8, {"0", "2359", "2359"}, SET},
};
const unsigned damage_count = sizeof damages / sizeof *damages;

/* What the batch was. */
static struct {
    unsigned file;
    size_t length, at;
    uint8_t *end; /* the file's bytes from `at` on */
    uint32_t *order;
    size_t count;
} was;

/* The last record with the texts in the place of those from a field on. */
static void set(struct batch *b, const struct damage *d)
{
    static const unsigned width[BATCH_FILES + 1] = {0, 1, 12, 3, 11, 10, 12, 7, 10, 3, 8, 13, 3, 3};
    const uint8_t *old = was.end, *end;
    uint8_t *p = b->bytes[d->file] + was.at;
    unsigned f;
    for (f = 1; f <= width[d->file]; f++) {
        unsigned i = f - d->field;
        const char *given = f >= d->field && i < 3 ? d->texts[i] : NULL;
        for (end = old + 1; end[0] != '"' || (end[1] != ',' && end[1] != ';'); end++)
            ;
        if (given != NULL)
            p += sprintf((char *)p, "\"%s", given);
        else {
            memcpy(p, old, (size_t)(end - old));
            p += end - old;
        }
        memcpy(p, end, 2);
        p += 2;
        old = end + 2;
    }
    memcpy(p, "\r\n", 2);
    b->length[d->file] = (size_t)(p + 2 - b->bytes[d->file]);
}

/* Records of the last trip. */
static void add(struct batch *b, const struct damage *d)
{
    const uint8_t *trip = b->bytes[SPOJE] + batch_last(b, SPOJE);
    char *p = (char *)b->bytes[d->file] + b->length[d->file];
    unsigned i;
    const char *c;
    for (i = 0; i < 3 && d->texts[i] != NULL; i++) {
        for (c = d->texts[i]; *c != 0; c++) {
            if (*c == 'L')
                p += sprintf(p, "%06llu", (unsigned long long)batch_number(trip, 1));
            else if (*c == 'T')
                p += sprintf(p, "%llu", (unsigned long long)batch_number(trip, 2));
            else
                *p++ = *c;
        }
        p += sprintf(p, ";\r\n");
    }
    b->length[d->file] = (size_t)((uint8_t *)p - b->bytes[d->file]);
}

/* The first record once more at the end. */
static void again(struct batch *b, unsigned file)
{
    uint8_t *bytes = b->bytes[file];
    size_t length = (size_t)((uint8_t *)memchr(bytes, '\n', b->length[file]) - bytes) + 1;
    memcpy(bytes + b->length[file], bytes, length);
    b->length[file] += length;
}

static void keep(struct batch *b, unsigned file)
{
    was.file = file;
    was.length = b->length[file];
    was.at = batch_last(b, file);
    was.end = malloc(was.length - was.at + 1);
    was.order = b->order;
    was.count = b->count;
    if (was.end == NULL)
        exit(2);
    memcpy(was.end, b->bytes[file] + was.at, was.length - was.at);
    b->order = NULL;
    b->count = 0;
}

void damage_do(struct batch *b, const struct damage *d)
{
    keep(b, d->file);
    switch (d->how) {
    case SET:
        set(b, d);
        break;
    case ADD:
        add(b, d);
        break;
    case AGAIN:
        again(b, d->file);
        break;
    case BYTE:
        b->bytes[d->file][was.at + 1] = 0x81;
        break;
    case SHORTER:
        b->length[d->file]--;
        break;
    case LONG:
        b->length[d->file] = BATCH_LONGEST + 1;
        break;
    }
    if (d->number >= 7)
        library_order(b);
}

void damage_undo(struct batch *b)
{
    memcpy(b->bytes[was.file] + was.at, was.end, was.length - was.at);
    b->length[was.file] = was.length;
    free(was.end);
    free(b->order);
    b->order = was.order;
    b->count = was.count;
}
