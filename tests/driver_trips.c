/* The requests on a trip of a batch: the files are those of request B, the holidays those of request l. A file of its own, so that the driver can be built before
   the archive has these calls. */
#include "driver.h"

#include <string.h>

#include "../host/slovdrim.h"

/* How many placings tell something apart. */
static int batch_placings(int with_holidays)
{
    return place_batch(AT_END) || (with_holidays && holidays.length == 0) ? PLACINGS : PLACINGS - 1;
}

static void call_runs(uint64_t answer[WORDS], uint64_t line, uint64_t trip, uint64_t day, enum placing where)
{
    const uint8_t *list = placed_at(&holidays, where);
    slovdrim_runs_answer a;
    place_batch(where);
    about_to("slovdrim_runs", line, trip, day, where, list, holidays.length);
    a = slovdrim_runs(EACH_FILE, line, trip, day, (const uint64_t *)(const void *)list, holidays.length / 8);
    memcpy(answer, &a, sizeof a);
}

static void runs(void)
{
    uint64_t line = take_word(), trip = take_word(), day = take_word(), answers[PLACINGS][WORDS];
    int i, n = batch_placings(1);
    for (i = 0; i < n; i++)
        call_runs(answers[i], line, trip, day, i);
    give_answers(answers, n, sizeof(slovdrim_runs_answer) / 8);
}

/* Many days: one call for each, the placings by turns. */
static void runs_on_days(void)
{
    uint64_t line = take_word(), trip = take_word(), count = take_word(), i, answers[PLACINGS][WORDS];
    int n = batch_placings(1);
    for (i = 0; i < count; i++) {
        call_runs(answers[0], line, trip, take_word(), (enum placing)(i % (uint64_t)n));
        give_answers(answers, 1, sizeof(slovdrim_runs_answer) / 8);
    }
}

static void trip_stop(void)
{
    uint64_t line = take_word(), trip = take_word(), nth = take_word(), answers[PLACINGS][WORDS];
    int i, n = batch_placings(0);
    for (i = 0; i < n; i++) {
        slovdrim_trip_stop_answer a;
        place_batch(i);
        about_to("slovdrim_trip_stop", line, trip, nth, i, NULL, 0);
        a = slovdrim_trip_stop(EACH_FILE, line, trip, nth);
        memcpy(answers[i], &a, sizeof a);
    }
    give_answers(answers, n, sizeof(slovdrim_trip_stop_answer) / 8);
}

int trips_request(uint8_t letter)
{
    switch (letter) {
    case 'r':
        runs();
        return 1;
    case 'y':
        runs_on_days();
        return 1;
    case 's':
        trip_stop();
        return 1;
    }
    return 0;
}
