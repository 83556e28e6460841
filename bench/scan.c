/* A scanner of the shape that the proved one has, as one would write it in C: plain text bytes are skipped with a table of 256 classes, and the rest is
   decided at the byte. It keeps every check that the answer depends on, and no other. */
#include "scan.h"

enum { REFUSED, PLAIN, QUOTE };

/* Runs of one class as document 01 has them: 32-126 and 128-255 are plain but for the quote and five bytes that CP1250 leaves undefined. */
static const uint8_t class_of[256] = {
    [32] = PLAIN, PLAIN, [34] = QUOTE, [35 ... 126] = PLAIN, [128] = PLAIN, [130] = PLAIN, [132 ... 135] = PLAIN, [137 ... 143] = PLAIN,
    [145 ... 151] = PLAIN, [153 ... 255] = PLAIN,
};

static struct scanned refused(uint64_t number, size_t offset)
{
    struct scanned s = {number, offset, 0};
    return s;
}

struct scanned scan(uint64_t fields, const uint8_t *bytes, size_t length)
{
    size_t at = 0;
    uint64_t records = 0, field;
    struct scanned s = {0, 0, 0};
    while (at < length) {
        for (field = 1;; field++) {
            if (at >= length)
                return refused(3, length);
            if (bytes[at] != '"')
                return refused(2, at);
            at++;
            for (;;) {
                while (at < length && class_of[bytes[at]] == PLAIN)
                    at++;
                if (at >= length)
                    return refused(3, length);
                if (class_of[bytes[at]] != QUOTE)
                    return refused(2, at);
                at++;
                if (at >= length)
                    return refused(3, length);
                if (bytes[at] == ',' || bytes[at] == ';')
                    break;
            }
            if (field == fields)
                break;
            if (bytes[at] != ',')
                return refused(2, at);
            at++;
        }
        if (bytes[at] != ';')
            return refused(2, at);
        at++;
        if (at >= length)
            return refused(3, length);
        if (bytes[at] != '\r')
            return refused(2, at);
        at++;
        if (at >= length)
            return refused(3, length);
        if (bytes[at] != '\n')
            return refused(2, at);
        at++;
        records++;
    }
    s.records = records;
    return s;
}
