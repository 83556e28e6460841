/* Lends the parts of an input. */
#define _GNU_SOURCE
#include "lend.h"

#include <sanitizer/asan_interface.h>
#include <stdio.h>
#include <stdlib.h>
#include <string.h>
#include <sys/mman.h>

enum { ROOM = PAGE };
_Static_assert(LONGEST_PART <= ROOM, "a part fits into a room");

struct lent {
    struct room rooms[2];
    size_t length;
    const uint8_t *instead; /* a file that no room holds */
};

static struct lent parts[PARTS];
static struct room writable[WRITABLE][2];
static size_t writable_length[WRITABLE][2];

/* AddressSanitizer marks memory in units of 8 bytes and can leave only the first few of a unit open: what stands at the end of a room may have up to 7 bytes
   open before it, and what stands at its start has none, on either side. */
static void close_bytes(const struct room *room, enum placing where, size_t length)
{
    size_t at = placed(room, where, length) & ~(size_t)7, end = (placed(room, where, length) + length + 7) & ~(size_t)7;
    ASAN_POISON_MEMORY_REGION(room->lent + at, end - at);
}

static void open_bytes(const struct room *room, enum placing where, size_t length)
{
    ASAN_UNPOISON_MEMORY_REGION(room->lent + placed(room, where, length), length);
}

static void open_rooms(void)
{
    int i, where;
    for (where = AT_END; where <= AT_START; where++) {
        for (i = 0; i < PARTS; i++) {
            parts[i].rooms[where] = room_of(ROOM, 0);
            ASAN_POISON_MEMORY_REGION(parts[i].rooms[where].lent, ROOM);
        }
        for (i = 0; i < WRITABLE; i++) {
            writable[i][where] = room_of(ROOM, 1);
            ASAN_POISON_MEMORY_REGION(writable[i][where].lent, ROOM);
        }
    }
}

void lend_input(const struct input *in)
{
    int i, where;
    if (parts[0].rooms[0].own == NULL)
        open_rooms();
    for (i = 0; i < PARTS; i++) {
        for (where = AT_END; where <= AT_START; where++) {
            const struct room *room = &parts[i].rooms[where];
            close_bytes(room, where, parts[i].length);
            memcpy(room->own + placed(room, where, in->parts[i].length), in->parts[i].bytes, in->parts[i].length);
            open_bytes(room, where, in->parts[i].length);
        }
        parts[i].length = in->parts[i].length;
        parts[i].instead = NULL;
    }
}

const uint8_t *lent_part(int part, enum placing where)
{
    const struct lent *l = &parts[part];
    const struct room *room = &l->rooms[where == AT_START ? AT_START : AT_END];
    if (l->instead != NULL)
        return l->instead;
    if (where == NOWHERE && l->length == 0)
        return NULL;
    return room->lent + placed(room, where == AT_START ? AT_START : AT_END, l->length);
}

size_t lent_length(int part)
{
    return parts[part].instead != NULL ? (size_t)1 << 24 : parts[part].length;
}

void lend_too_long(int file)
{
    static const uint8_t *zeros;
    if (zeros == NULL)
        zeros = mmap(NULL, (size_t)1 << 24, PROT_READ, MAP_PRIVATE | MAP_ANONYMOUS | MAP_NORESERVE, -1, 0);
    if (zeros == MAP_FAILED) {
        fprintf(stderr, "no memory for a long file\n");
        exit(3);
    }
    parts[file].instead = zeros;
}

uint8_t *lend_writable(int which, enum placing where, size_t length, const uint8_t *filling)
{
    enum placing at = where == AT_START ? AT_START : AT_END;
    const struct room *room = &writable[which][at];
    close_bytes(room, at, writable_length[which][at]);
    memcpy(room->own + placed(room, at, length), filling, length);
    open_bytes(room, at, length);
    writable_length[which][at] = length;
    return length == 0 && where == NOWHERE ? NULL : room->lent + placed(room, at, length);
}
