/* Memory to lend. */
#define _GNU_SOURCE
#include "rooms.h"

#include <stdio.h>
#include <stdlib.h>
#include <sys/mman.h>
#include <unistd.h>

struct room room_of(size_t size, int writable)
{
    struct room r;
    int fd = memfd_create("room", 0);
    uint8_t *base = mmap(NULL, size + 2 * FORBIDDEN, PROT_NONE, MAP_PRIVATE | MAP_ANONYMOUS | MAP_NORESERVE, -1, 0);
    r.size = size;
    r.own = r.lent = MAP_FAILED;
    if (fd >= 0 && ftruncate(fd, (off_t)size) == 0 && base != MAP_FAILED) {
        r.lent = mmap(base + FORBIDDEN, size, writable ? PROT_READ | PROT_WRITE : PROT_READ, MAP_SHARED | MAP_FIXED, fd, 0);
        r.own = mmap(NULL, size, PROT_READ | PROT_WRITE, MAP_SHARED, fd, 0);
    }
    if (r.lent == MAP_FAILED || r.own == MAP_FAILED) {
        fprintf(stderr, "no memory for a room\n");
        exit(3);
    }
    close(fd);
    return r;
}

size_t placed(const struct room *room, enum placing where, size_t length)
{
    return where == AT_END ? room->size - length : 0;
}
