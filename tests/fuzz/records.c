/* The records and fields of a file's bytes. A record ends behind a LF, a field at its first quote that a comma or a semicolon follows; so it is in a legal file,
   and other files are cut somehow. */
#include "input.h"

#include <string.h>

const unsigned fields_of_file[FILES] = {1, 12, 3, 11, 10, 12, 7, 10, 3, 8, 13, 3, 3};
const unsigned keys_of_file[FILES] = {0, 1, 1, 1, 1, 2, 2, 3, 2, 3, 0, 0, 0};

static size_t line_end(const struct part *part, size_t at)
{
    const uint8_t *end = at < part->length ? memchr(part->bytes + at, '\n', part->length - at) : NULL;
    return end == NULL ? part->length : (size_t)(end + 1 - part->bytes);
}

size_t count_records(const struct part *part)
{
    size_t at, count = 0;
    for (at = 0; at < part->length; at = line_end(part, at))
        count++;
    return count;
}

struct span record_span(const struct part *part, size_t record)
{
    struct span s = {0, 0};
    for (; record > 0; record--)
        s.at = line_end(part, s.at);
    s.length = line_end(part, s.at) - s.at;
    return s;
}

struct span field_span(const struct part *part, size_t record, size_t field)
{
    struct span line = record_span(part, record), s = {line.at, 0};
    size_t end = line.at + line.length, at = line.at;
    for (;; field--) {
        s.at = at + 1 < end ? at + 1 : end;
        for (at = s.at; at + 1 < end; at++)
            if (part->bytes[at] == '"' && (part->bytes[at + 1] == ',' || part->bytes[at + 1] == ';'))
                break;
        s.length = at + 1 < end ? at - s.at : end - s.at;
        if (field == 0 || at + 1 >= end)
            break;
        at += 2;
    }
    return s;
}

uint64_t field_value(const struct part *part, size_t record, size_t field)
{
    struct span s = field_span(part, record, field);
    uint64_t value = 0;
    size_t i;
    for (i = 0; i < s.length && i < 18; i++) {
        unsigned digit = (unsigned)part->bytes[s.at + i] - '0';
        if (digit > 9)
            return 0;
        value = value * 10 + digit;
    }
    return value;
}

void splice(struct part *part, size_t at, size_t cut, const uint8_t *bytes, size_t added)
{
    static uint8_t tail[LONGEST_PART];
    size_t rest;
    if (at > part->length || cut > part->length - at || part->length - cut + added > LONGEST_PART)
        return;
    rest = part->length - at - cut;
    memcpy(tail, part->bytes + at + cut, rest);
    if (added > 0)
        memmove(part->bytes + at, bytes, added);
    memcpy(part->bytes + at + added, tail, rest);
    part->length = at + added + rest;
}
