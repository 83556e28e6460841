/* The records of a file, for showing what the library judged: names of stops and lines, times, the record that a refusal names. A record is a line, and a
   field ends at its first quote that a comma or a semicolon follows, which is so in every legal file. Bytes of other files give some text or an empty one. */
#include "desk.h"

#include <string.h>

static struct text line_from(const struct file *file, size_t at)
{
    struct text line = {NULL, 0};
    if (at < file->length) {
        const uint8_t *end = memchr(file->bytes + at, '\n', file->length - at);
        line.bytes = file->bytes + at;
        line.length = end == NULL ? file->length - at : (size_t)(end + 1 - line.bytes);
    }
    return line;
}

/* A record with its CR LF. After the last comes one without bytes. */
struct text first_record(const struct file *file)
{
    return line_from(file, 0);
}

struct text next_record(const struct file *file, struct text record)
{
    return line_from(file, (size_t)(record.bytes - file->bytes) + record.length);
}

/* Records count from 1. */
struct text record_at(const struct file *file, uint64_t number)
{
    struct text record = first_record(file);
    for (; number > 1 && record.length > 0; number--)
        record = next_record(file, record);
    return record;
}

/* How many bytes there are before the quote that ends a text; all of them if none does. */
static size_t length_of_text(const uint8_t *bytes, size_t length)
{
    size_t i;
    for (i = 0; i + 1 < length; i++)
        if (bytes[i] == '"' && (bytes[i + 1] == ',' || bytes[i + 1] == ';'))
            return i;
    return length;
}

/* A field's text without its quotes; fields count from 1. */
struct text field_of(struct text record, uint64_t field)
{
    struct text text = {NULL, 0};
    size_t at = 0;
    for (; field > 0 && at < record.length; field--) {
        text.bytes = record.bytes + at + 1;
        text.length = length_of_text(text.bytes, record.length - at - 1);
        at += text.length + 3;
    }
    if (field > 0)
        text.length = 0;
    return text;
}

/* The value of digits; NO_NUMBER for what is no number of a batch. */
uint64_t number_of(struct text text)
{
    uint64_t number;
    return text.length <= 9 && typed_number((const char *)text.bytes, text.length, &number) ? number : NO_NUMBER;
}

uint64_t number_at(struct text record, uint64_t field)
{
    return number_of(field_of(record, field));
}

/* The first record whose first `keys` fields have these values. */
struct text find(const struct file *file, unsigned keys, uint64_t first, uint64_t second, uint64_t third)
{
    struct text record;
    for (record = first_record(file); record.length > 0; record = next_record(file, record))
        if (number_at(record, 1) == first && (keys < 2 || number_at(record, 2) == second) && (keys < 3 || number_at(record, 3) == third))
            break;
    return record;
}

/* A stop's full name: town, part and place with commas between them, as they are printed; empty ones at the end are left out. */
void show_stop(FILE *to, const struct batch *batch, uint64_t stop)
{
    struct text record = find(&batch->files[SLOVDRIM_ZASTAVKY], 1, stop, 0, 0);
    struct text part = field_of(record, 3), place = field_of(record, 4);
    show(to, field_of(record, 2));
    if (part.length + place.length > 0) {
        putc(',', to);
        show(to, part);
    }
    if (place.length > 0) {
        putc(',', to);
        show(to, place);
    }
}

void show_line_name(FILE *to, const struct batch *batch, uint64_t line)
{
    show(to, field_of(find(&batch->files[SLOVDRIM_LINKY], 1, line, 0, 0), 2));
}
