/* The scanner in C that the proved one is timed beside. */
#ifndef SLOVDRIM_BENCH_SCAN_H
#define SLOVDRIM_BENCH_SCAN_H

#include <stddef.h>
#include <stdint.h>

struct scanned {
    uint64_t number; /* 0, or 2 or 3 as the library's */
    uint64_t offset;
    uint64_t records;
};

struct scanned scan(uint64_t fields, const uint8_t *bytes, size_t length);

#endif
