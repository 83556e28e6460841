/* The C interface under libFuzzer: one input is one call. It is made three times, with what is lent at the end of its rooms, at their starts, and with NULL for
   what is empty; the answers must be the same, and what the header says of them (judge_file.c, judge_batch.c). At the end the run says how often each call came
   back with each number. */
#include <stdio.h>
#include <stdlib.h>
#include <string.h>

#include "judge.h"
#include "lend.h"
#include "proved.h"

int LLVMFuzzerTestOneInput(const uint8_t *bytes, size_t length);

static struct input in;
static const char *call_under_way = "no call";

void must(int holds, const char *what)
{
    if (holds)
        return;
    fprintf(stderr, "fuzz: in %s this does not hold: %s\n", call_under_way, what);
    abort();
}

/* The calls, each with what it takes of the input. `w` is the placing, `a` the place of the answer, `b` that of the buffer or the list. */

#define N(i) in.numbers[i]
#define SALE_OF N(LINE), N(TRIP), N(DAY), N(MONTH), N(YEAR), N(FROM), N(TO)
#define NAME_AT(w) LENT(NAME, w), LENT(NAME + 1, w), LENT(NAME + 2, w)
#define HINT_AT(w) LIST(uint32_t, ORDER, w)
#define HOLIDAYS_AT(w) LIST(uint64_t, HOLIDAYS, w)
#define ONE_FILE(w) N(FILE_NUMBER), LENT(asked_file(&in), w)
#define CALL(name) static void call_##name(enum placing w, void *a, uint8_t *b)
#define UNUSED (void)w, (void)a, (void)b

CALL(records) { UNUSED; proved_records(a, ONE_FILE(w)); }
CALL(stretch) { UNUSED; proved_stretch(a, ONE_FILE(w), N(RECORD), N(FIELD)); }
CALL(fields) { UNUSED; proved_fields(a, ONE_FILE(w)); }
CALL(check) { UNUSED; proved_check(a, EACH_FILE(w)); }
CALL(check_hinted) { UNUSED; proved_check_hinted(a, EACH_FILE(w), HINT_AT(w)); }
CALL(runs) { UNUSED; proved_runs(a, EACH_FILE(w), N(LINE), N(TRIP), N(DAY_NUMBER), HOLIDAYS_AT(w)); }
CALL(trip_stop) { UNUSED; proved_trip_stop(a, EACH_FILE(w), N(LINE), N(TRIP), N(RECORD)); }
CALL(sale) { UNUSED; proved_sale(a, EACH_FILE(w), HOLIDAYS_AT(w), SALE_OF); }
CALL(sale_hinted) { UNUSED; proved_sale_hinted(a, EACH_FILE(w), HINT_AT(w), HOLIDAYS_AT(w), SALE_OF); }
CALL(sales) { proved_sales(a, EACH_FILE(w), HINT_AT(w), HOLIDAYS_AT(w), LIST(uint64_t, ASKED, w), (uint64_t *)(void *)b, list_room(&in)); }
CALL(stop) { UNUSED; proved_stop(a, EACH_FILE(w), NAME_AT(w)); }
CALL(stop_hinted) { UNUSED; proved_stop_hinted(a, EACH_FILE(w), HINT_AT(w), NAME_AT(w)); }
#if SLOVDRIM_VERSION >= 4
CALL(order) { proved_order(a, EACH_FILE(w), (uint32_t *)(void *)b, order_room(&in)); }
#endif
CALL(date) { UNUSED; proved_date(a, N(DAY_NUMBER)); }
CALL(week) { UNUSED; proved_week(a, N(DAY_NUMBER)); }

/* Two numbers, or one, come back in registers. */
#define KEEP(type, ...)                                                                                                                                      \
    type kept = __VA_ARGS__;                                                                                                                                 \
    memcpy(a, &kept, sizeof kept)
CALL(write) { KEEP(slovdrim_write_answer, proved_write(N(FILE_NUMBER), N(FIELD), LENT(TEXT, w), b, buffer_room(&in), N(PLACE))); }
CALL(day) { UNUSED; KEEP(slovdrim_day_answer, proved_day(N(DAY), N(MONTH), N(YEAR))); }
CALL(weekday) { UNUSED; KEEP(slovdrim_weekday_answer, proved_weekday(N(DAY_NUMBER))); }
CALL(holiday) { UNUSED; KEEP(slovdrim_holiday_answer, proved_holiday(N(DAY_NUMBER), HOLIDAYS_AT(w))); }
CALL(fits) { UNUSED; KEEP(slovdrim_fits_answer, proved_fits(in.choices, N(DAY_NUMBER), HOLIDAYS_AT(w))); }
CALL(version) { UNUSED; KEEP(uint64_t, proved_version()); }

/* Every call of slovdrim.h: its name, the words of its answer, how many bytes of a buffer it is lent. A call that the header gets has its line here, its function
   above and its judge beside the others. */
enum { WORDS = 16, NUMBERS_MET = 25 };
static size_t no_buffer(const struct input *of)
{
    (void)of;
    return 0;
}
static size_t list_bytes(const struct input *of)
{
    return 8 * list_room(of);
}
#if SLOVDRIM_VERSION >= 4
static size_t order_bytes(const struct input *of)
{
    return 4 * order_room(of);
}
#endif
#define ROW(name, words, buffer) {"slovdrim_" #name, words, 0, buffer, call_##name, judge_##name}
#define BATCH_ROW(name, words, buffer) {"slovdrim_" #name, words, 1, buffer, call_##name, judge_##name}
static const struct {
    const char *name;
    size_t words;
    int on_a_batch;
    size_t (*buffer)(const struct input *of);
    void (*make)(enum placing w, void *a, uint8_t *b);
    judge *judge;
} calls[] = {
    ROW(records, 6, no_buffer),
    ROW(stretch, 7, no_buffer),
    ROW(write, 2, buffer_room),
    ROW(fields, 5, no_buffer),
    BATCH_ROW(check, 9, no_buffer),
    BATCH_ROW(check_hinted, 9, no_buffer),
    BATCH_ROW(runs, 6, no_buffer),
    BATCH_ROW(trip_stop, 14, no_buffer),
    BATCH_ROW(sale, 7, no_buffer),
    BATCH_ROW(sale_hinted, 7, no_buffer),
    BATCH_ROW(sales, 6, list_bytes),
    BATCH_ROW(stop, 6, no_buffer),
    BATCH_ROW(stop_hinted, 6, no_buffer),
#if SLOVDRIM_VERSION >= 4
    ROW(order, 6, order_bytes),
#endif
    ROW(version, 1, no_buffer),
    ROW(day, 2, no_buffer),
    ROW(date, 4, no_buffer),
    ROW(weekday, 2, no_buffer),
    ROW(week, 3, no_buffer),
    ROW(holiday, 2, no_buffer),
    ROW(fits, 2, no_buffer),
};
enum { CALLS = sizeof calls / sizeof *calls };

/* What was met */

static uint64_t met[CALLS][NUMBERS_MET], inputs;

static void tell_met(void)
{
    size_t i, n;
    printf("fuzz: %llu inputs, three calls each; how often each call came back with each number:\n", (unsigned long long)inputs);
    for (i = 0; i < CALLS; i++) {
        printf("  %-22s", calls[i].name);
        for (n = 0; n < NUMBERS_MET; n++)
            if (met[i][n] > 0)
                printf(" %zu: %llu", n, (unsigned long long)met[i][n]);
        putchar('\n');
    }
    fflush(stdout);
}

/* One placing; the buffer as it was left goes to `after`. */
static void make_call(size_t which, enum placing where, const uint8_t *before, uint64_t *answer, uint8_t *after)
{
    static uint8_t unset[8 * WORDS];
    size_t room = calls[which].buffer(&in);
    uint8_t *a, *b;
    memset(unset, 0xa5, sizeof unset);
    a = lend_writable(ANSWER, where, 8 * calls[which].words, unset);
    b = lend_writable(BUFFER, where, room, before);
    calls[which].make(where, a, b);
    memcpy(answer, a, 8 * calls[which].words);
    if (room > 0)
        memcpy(after, b, room);
}

static void try_call(size_t which)
{
    static uint8_t before[LONGEST_PART], after[LONGEST_PART], again[LONGEST_PART];
    uint64_t answer[WORDS], other[WORDS];
    size_t i, room = calls[which].buffer(&in);
    enum placing where;
    call_under_way = calls[which].name;
    for (i = 0; i < room; i++)
        before[i] = (uint8_t)(i * 7 + in.choices);
    make_call(which, AT_END, before, answer, after);
    for (where = AT_START; where < PLACINGS; where++) {
        make_call(which, where, before, other, again);
        must(memcmp(answer, other, 8 * calls[which].words) == 0, "the same answer wherever the memory is");
        must(memcmp(after, again, room) == 0, "the same bytes in the buffer wherever it is");
    }
    calls[which].judge(&in, answer, before, after);
    if (calls[which].on_a_batch && (answer[0] == 0 || answer[0] > SLOVDRIM_STOPS_WRONG))
        keep_standing(&in);
    met[which][strcmp(calls[which].name, "slovdrim_version") == 0 ? 0 : answer[0] < NUMBERS_MET ? answer[0] : NUMBERS_MET - 1]++;
}

int LLVMFuzzerTestOneInput(const uint8_t *bytes, size_t length)
{
    if (inputs++ == 0)
        atexit(tell_met);
    decode(bytes, length, &in);
    lend_input(&in);
    /* Few inputs: a file that is too long hides everything else. */
    if (in.choices == 0xff)
        lend_too_long(asked_file(&in));
    try_call(in.call % CALLS);
    return 0;
}
