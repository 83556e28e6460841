/* Questions by seed about a batch: see questions.c. */
#ifndef BENCH_QUESTIONS_H
#define BENCH_QUESTIONS_H

#include "batch.h"
#include "plain.h"

enum { QUESTIONS = 1000, HOLIDAYS = 26 };

struct questions {
    struct plain_question asked[QUESTIONS];
    uint64_t holidays[HOLIDAYS];
    struct plain_text names[3]; /* of a stop of Zastavky, inside its bytes */
};

/* Sales on trips of the batch, most of them on stops that it has and in the order of travel, and a few about what isn't there. The seed isn't 0. */
void questions_make(struct questions *questions, const struct batch *batch, uint64_t seed);

#endif
