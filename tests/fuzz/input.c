/* An input and its bytes: 4 bytes, the numbers, and each part with its length before it. */
#include "input.h"

#include <string.h>

struct reader {
    const uint8_t *bytes;
    size_t left;
};

static void take(struct reader *r, void *to, size_t length)
{
    size_t n = length < r->left ? length : r->left;
    memset(to, 0, length);
    if (n > 0)
        memcpy(to, r->bytes, n);
    r->bytes += n;
    r->left -= n;
}

/* A list has whole numbers only. */
static size_t width_of(int part)
{
    return part == HOLIDAYS || part == ASKED ? 8 : part == ORDER ? 4 : 1;
}

void decode(const uint8_t *bytes, size_t length, struct input *in)
{
    struct reader r = {bytes, length};
    int i;
    take(&r, &in->call, 1);
    take(&r, &in->choices, 1);
    take(&r, &in->room, sizeof in->room);
    take(&r, in->numbers, sizeof in->numbers);
    for (i = 0; i < PARTS; i++) {
        struct part *part = &in->parts[i];
        uint16_t wanted;
        take(&r, &wanted, sizeof wanted);
        part->length = wanted < r.left ? wanted : r.left;
        if (part->length > LONGEST_PART)
            part->length = LONGEST_PART;
        take(&r, part->bytes, part->length);
        part->length -= part->length % width_of(i);
    }
}

size_t encode(const struct input *in, uint8_t *bytes, size_t room)
{
    size_t at = 4 + sizeof in->numbers, length = at;
    int i;
    for (i = 0; i < PARTS; i++)
        length += 2 + in->parts[i].length;
    if (length > room)
        return 0;
    bytes[0] = in->call;
    bytes[1] = in->choices;
    memcpy(bytes + 2, &in->room, sizeof in->room);
    memcpy(bytes + 4, in->numbers, sizeof in->numbers);
    for (i = 0; i < PARTS; i++) {
        uint16_t own = (uint16_t)in->parts[i].length;
        memcpy(bytes + at, &own, 2);
        memcpy(bytes + at + 2, in->parts[i].bytes, own);
        at += 2 + (size_t)own;
    }
    return length;
}
