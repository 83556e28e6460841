/* The bytes of the files, and the version: document 01, "Bytes of a file"; refusals 1 to 4. One pass over each file finds where its fields begin. */
#include <stdlib.h>
#include <string.h>

#include "plain_batch.h"

enum { LONGEST = 16777215 };

const unsigned plain_width[FILES + 1] = {0, 1, 12, 3, 11, 10, 12, 7, 10, 3, 8, 13, 3, 3};

/* Bytes of a text, but for the quote. */
static uint8_t plain_byte[256];

static void know_bytes(void)
{
    static const uint8_t undefined[] = {0x81, 0x83, 0x88, 0x90, 0x98};
    size_t i;
    if (plain_byte[' '])
        return;
    for (i = 32; i < 256; i++)
        plain_byte[i] = i != 127 && i != '"';
    for (i = 0; i < sizeof undefined; i++)
        plain_byte[undefined[i]] = 0;
}

/* One record more fits. */
static void make_room(struct table *table)
{
    if ((table->records + 1) * table->width + 1 < table->room)
        return;
    table->room = table->room * 2 + 64;
    table->fields = realloc(table->fields, table->room * sizeof *table->fields);
    if (table->fields == NULL)
        abort();
}

/* The place after the field that begins at `p`, which stands before its end; or where it goes wrong, and `*number` says how. */
static const uint8_t *read_field(const uint8_t *p, const uint8_t *end, uint8_t closing, unsigned *number)
{
    *number = 2;
    if (*p != '"')
        return p;
    for (p++;; p++) {
        while (p < end && plain_byte[*p])
            p++;
        if (end - p < 2) {
            *number = p < end && *p != '"' ? 2 : 3;
            return *number == 2 ? p : end;
        }
        if (*p != '"')
            return p;
        if (p[1] == ',' || p[1] == ';')
            break;
    }
    if (p[1] != closing)
        return p + 1;
    *number = 0;
    return p + 2;
}

/* CR and LF. */
static const uint8_t *read_end(const uint8_t *p, const uint8_t *end, unsigned *number)
{
    unsigned i;
    for (i = 0; i < 2; i++, p++) {
        *number = p == end ? 3 : *p != "\r\n"[i] ? 2 : 0;
        if (*number != 0)
            break;
    }
    return p;
}

static struct plain_answer read_file(struct table *table, unsigned file, const uint8_t *bytes, size_t length)
{
    const uint8_t *p = bytes, *end = bytes + length;
    unsigned number = 0, f;
    make_room(table);
    while (p < end && number == 0) {
        struct field *fields = table->fields + table->records * table->width;
        for (f = 1; f <= table->width && number == 0; f++) {
            fields[f].start = (uint32_t)(p - bytes) + 1;
            if (p == end)
                number = 3;
            else
                p = read_field(p, end, f == table->width ? ';' : ',', &number);
        }
        if (number == 0)
            p = read_end(p, end, &number);
        table->records++;
        make_room(table);
    }
    if (number != 0)
        return (struct plain_answer){.number = number, .file = file, .offset = (uint64_t)(p - bytes)};
    table->fields[table->records * table->width + 1].start = (uint32_t)length + 1;
    return (struct plain_answer){.number = 0};
}

static struct plain_answer version(const struct table *table)
{
    struct plain_text text;
    if (table->records != 1)
        return refused(4, VERZEJDF, 0, 0);
    text = text_of(table, fields_of(table, 0), 1);
    if (text.length != 3 || memcmp(text.at, "1.8", 3) != 0)
        return refused(4, VERZEJDF, 1, 1);
    return (struct plain_answer){.number = 0};
}

struct plain_batch *plain_read(uint8_t *const *bytes, const size_t *lengths, struct plain_answer *answer)
{
    struct plain_batch *batch = plain_space(sizeof *batch);
    unsigned file;
    memset(batch, 0, sizeof *batch);
    memset(answer, 0, sizeof *answer);
    know_bytes();
    for (file = 1; file <= FILES; file++)
        if (lengths[file] > LONGEST) {
            *answer = refused(1, file, 0, 0);
            return batch;
        }
    for (file = 1; file <= FILES; file++) {
        batch->tables[file].bytes = bytes[file];
        batch->tables[file].width = plain_width[file];
        *answer = read_file(&batch->tables[file], file, bytes[file], lengths[file]);
        if (answer->number != 0)
            return batch;
    }
    *answer = version(&batch->tables[VERZEJDF]);
    return batch;
}
