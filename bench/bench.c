/* Times slovdrim_records beside the C scanners, interleaved, over one file of 16 MB, and compares their answers; and slovdrim_fields beside slovdrim_records.
   bench SEED ROUNDS; prints the median speed of each, the proved one's part of each C scanner's, and how many times the scan the fields take. */
#define _GNU_SOURCE
#ifdef BENCH_NATIVE
#define SLOVDRIM_OTHER_MACHINE
#endif
#include <stdio.h>
#include <stdlib.h>
#include <string.h>
#include <time.h>

#include "../host/slovdrim.h"
#include "draws.h"
#include "scan.h"

enum { FILE_NUMBER = SLOVDRIM_ZASSPOJE, FIELDS = 10, LENGTH = 16000000, MOST_ROUNDS = 1001 };

/* Compiled from scan.c by two compilers, under two names. */
struct scanned scan_gcc(uint64_t fields, const uint8_t *bytes, size_t length);
struct scanned scan_clang(uint64_t fields, const uint8_t *bytes, size_t length);

static char *put_field(char *p, const char *text, int last)
{
    return p + sprintf(p, last ? "\"%s\";\r\n" : "\"%s\",", text);
}

static char *put_number(char *p, uint64_t n, int last)
{
    char text[24];
    sprintf(text, "%llu", (unsigned long long)n);
    return put_field(p, text, last);
}

/* Trips of a dozen stops, with the short texts that timetables have. */
static size_t make(uint8_t *bytes)
{
    char *p = (char *)bytes, time[8];
    uint64_t line = 790000, trip = 1, stop, stops, minute;
    while ((size_t)(p - (char *)bytes) + 4096 < LENGTH) {
        stops = 4 + below(20);
        minute = 240 + below(900);
        for (stop = 1; stop <= stops; stop++) {
            minute += below(9);
            sprintf(time, "%02d%02d", (int)(minute / 60 % 24), (int)(minute % 60));
            p = put_number(p, line, 0);
            p = put_number(p, trip, 0);
            p = put_number(p, stop, 0);
            p = put_number(p, 1 + below(99999), 0);
            p = put_field(p, below(9) == 0 ? "st. \"B\" 2" : "", 0);
            p = put_field(p, below(6) == 0 ? "12" : "", 0);
            p = put_field(p, "", 0);
            p = put_number(p, stop * 3, 0);
            p = put_field(p, stop == stops ? time : "", 0);
            p = put_field(p, stop == stops ? "" : below(12) == 0 ? "|" : time, 1);
        }
        trip += 2;
        if (below(30) == 0) {
            line++;
            trip = 1;
        }
    }
    return (size_t)(p - (char *)bytes);
}

static double now(void)
{
    struct timespec t;
    clock_gettime(CLOCK_MONOTONIC, &t);
    return (double)t.tv_sec + (double)t.tv_nsec * 1e-9;
}

static int rising(const void *a, const void *b)
{
    double x = *(const double *)a, y = *(const double *)b;
    return (x > y) - (x < y);
}

static double median(double *times, int n)
{
    qsort(times, (size_t)n, sizeof *times, rising);
    return times[n / 2];
}

/* On x86-64 the struct comes back by value; the library's own code compiled for another machine fills the place that it is given. */
#ifdef BENCH_NATIVE
slovdrim_records_answer *fill_records(slovdrim_records_answer *out, uint64_t file, const uint8_t *bytes, size_t length) __asm__("slovdrim_records");
#endif

static slovdrim_records_answer proved_scan(const uint8_t *bytes, size_t length)
{
#ifdef BENCH_NATIVE
    slovdrim_records_answer a;
    fill_records(&a, FILE_NUMBER, bytes, length);
    return a;
#else
    return slovdrim_records(FILE_NUMBER, bytes, length);
#endif
}

#ifdef BENCH_FIELDS
#ifdef BENCH_NATIVE
slovdrim_fields_answer *fill_fields(slovdrim_fields_answer *out, uint64_t file, const uint8_t *bytes, size_t length) __asm__("slovdrim_fields");
#endif

static slovdrim_fields_answer proved_fields(const uint8_t *bytes, size_t length)
{
#ifdef BENCH_NATIVE
    slovdrim_fields_answer a;
    fill_fields(&a, FILE_NUMBER, bytes, length);
    return a;
#else
    return slovdrim_fields(FILE_NUMBER, bytes, length);
#endif
}

/* The file stands, so that all of it is looked at; and a fault in its last record is found there. */
static void try_fields(uint8_t *bytes, size_t length)
{
    uint64_t records = proved_scan(bytes, length).records;
    uint8_t *last = bytes + length - 2, was;
    slovdrim_fields_answer a = proved_fields(bytes, length), b;
    while (last[-1] != '\n')
        last--;
    was = last[1];
    last[1] = 'x';
    b = proved_fields(bytes, length);
    last[1] = was;
    if (a.number != 0 || b.number != SLOVDRIM_NOT_OF_ITS_KIND || b.record != records || b.field != 1) {
        fprintf(stderr, "bench: slovdrim_fields answers %llu for the file, and %llu at record %llu, field %llu for a fault in the last of %llu\n",
                (unsigned long long)a.number, (unsigned long long)b.number, (unsigned long long)b.record, (unsigned long long)b.field,
                (unsigned long long)records);
        exit(1);
    }
}
#endif

static void compare(const char *what, const uint8_t *bytes, size_t length)
{
    slovdrim_records_answer a = proved_scan(bytes, length);
    struct scanned g = scan_gcc(FIELDS, bytes, length), c = scan_clang(FIELDS, bytes, length);
    if (a.number != g.number || a.offset != g.offset || a.records != g.records || memcmp(&g, &c, sizeof g) != 0) {
        fprintf(stderr, "bench: the answers differ on %s\n", what);
        exit(1);
    }
}

int main(int argc, char **argv)
{
    static double proved[MOST_ROUNDS], gcc[MOST_ROUNDS], clang[MOST_ROUNDS];
#ifdef BENCH_FIELDS
    static double fields[MOST_ROUNDS];
    double f;
#endif
    uint8_t *bytes = malloc(LENGTH + 4096);
    int round, rounds = argc > 2 ? atoi(argv[2]) : 15;
    size_t length, i;
    double t, mb, p, g, c;
    state = argc > 1 ? strtoull(argv[1], NULL, 10) : 1;
    if (bytes == NULL || state == 0 || rounds < 1 || rounds > MOST_ROUNDS)
        return 2;
    length = make(bytes);
    compare("the file", bytes, length);
    for (i = 0; i < 40; i++) {
        size_t at = below(length);
        uint8_t was = bytes[at];
        bytes[at] = (uint8_t) "\",;\r\n\x81"[below(6)];
        compare("a changed file", bytes, length);
        bytes[at] = was;
        compare("a part of the file", bytes, below(length));
    }
#ifdef BENCH_FIELDS
    try_fields(bytes, length);
#endif
    for (round = 0; round < rounds; round++) {
        volatile uint64_t sink;
        t = now();
        sink = proved_scan(bytes, length).records;
        proved[round] = now() - t;
        t = now();
        sink = scan_gcc(FIELDS, bytes, length).records;
        gcc[round] = now() - t;
        t = now();
        sink = scan_clang(FIELDS, bytes, length).records;
        clang[round] = now() - t;
#ifdef BENCH_FIELDS
        t = now();
        sink = proved_fields(bytes, length).number;
        fields[round] = now() - t;
#endif
        (void)sink;
    }
    mb = (double)length / 1e6;
    p = mb / median(proved, rounds);
    g = mb / median(gcc, rounds);
    c = mb / median(clang, rounds);
    printf("Zasspoje of %.1f MB, medians of %d rounds\n", mb, rounds);
    printf("slovdrim_records %6.0f MB/s\n", p);
    printf("C, gcc -O2       %6.0f MB/s   ratio %.2f\n", g, p / g);
    printf("C, clang -O3     %6.0f MB/s   ratio %.2f\n", c, p / c);
#ifdef BENCH_FIELDS
    f = mb / median(fields, rounds);
    printf("slovdrim_fields  %6.0f MB/s   %.2f times the time of slovdrim_records (at most 4 is the aim)\n", f, p / f);
#endif
    free(bytes);
    return 0;
}
