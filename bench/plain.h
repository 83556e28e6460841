/* The rules of document 01 in plain C, to compare the library with: see plain.c. */
#ifndef BENCH_PLAIN_H
#define BENCH_PLAIN_H

#include <stddef.h>
#include <stdint.h>

/* Number 0 for an answer, or the refusal and its place; the counts of an accepted batch. Laid out as slovdrim_check_answer is. */
struct plain_answer {
    uint64_t number, file, record, field, offset;
    uint64_t stops, lines, trips, trip_stops;
};

/* A batch that was read; what is in it stands in plain_batch.h. */
struct plain_batch;

/* The whole check. Files by their numbers, place 0 not used. */
struct plain_answer plain_check(uint8_t *const *bytes, const size_t *lengths);

/* The check's stages, each of a batch that the stages before it accepted: bytes of files and the version (1 to 4), fields (5, 6), keys, links and signs
   (7 to 9), trips (10, 11). The batch that plain_read answers is to be freed, whatever the answer is. */
struct plain_batch *plain_read(uint8_t *const *bytes, const size_t *lengths, struct plain_answer *answer);
struct plain_answer plain_fields(struct plain_batch *batch);
struct plain_answer plain_links(struct plain_batch *batch);
struct plain_answer plain_trips(struct plain_batch *batch);
void plain_free(struct plain_batch *batch);

/* The stages one after the other. */
struct plain_batch *plain_open(uint8_t *const *bytes, const size_t *lengths, struct plain_answer *answer);

struct plain_question {
    uint64_t line, trip, day, month, year, from, to;
};

/* Laid out as the library's list of answers is. */
struct plain_sold {
    uint64_t number, departure, arrival;
};

/* A sale, and a stop by its three names, of a batch that was accepted. `value` is the stop's number, or with 24 how many there are. */
struct plain_sold plain_sale(const struct plain_batch *batch, const uint64_t *holidays, size_t holiday_count, const struct plain_question *question);

struct plain_text {
    const uint8_t *at;
    size_t length;
};

uint64_t plain_stop(const struct plain_batch *batch, const struct plain_text name[3], uint64_t *value);

#endif
