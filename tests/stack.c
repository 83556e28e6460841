/* stack FOLDER..: how much of the stack the calls take, on the batches in these folders. Each call is made on a stack that was painted before; what lies
   between this program's own frame and the last byte that lost its paint, the arguments among it, was taken. It writes the most of each call, then the most
   of all beside SLOVDRIM_STACK, what host/slovdrim.h asks a caller for. Exit status: 0 if that is enough, 1 if it isn't. */
#define _GNU_SOURCE
#include <pthread.h>
#include <stdint.h>
#include <stdio.h>
#include <stdlib.h>
#include <string.h>
#include <sys/mman.h>

#include "../host/slovdrim.h"

enum {
    FILES = 13,
    STACK = 1 << 20,
    UNPAINTED = 1024, /* what is left for the painter itself; a call that takes less is said to take so much */
    PAINT = 0xa5,
    NUMBERS = 7, /* of a question of slovdrim_sales */
    QUESTIONS = 64,
};

static const char *const names[FILES + 1] = {"",         "VerzeJDF", "Zastavky", "Pevnykod", "Dopravci", "Linky",    "Spoje",
                                             "Zaslinky", "Zasspoje", "Udaje",    "Caskody",  "Altdop",   "Altlinky", "Mistenky"};

/* What the calls are made with. */
static uint8_t *bytes[FILES + 1];
static size_t lengths[FILES + 1];
static uint32_t *list;
static size_t list_count, order_count;
static uint64_t asked[QUESTIONS * NUMBERS], answers[QUESTIONS * 3];
static size_t questions;
static const uint64_t *q;
static const uint64_t holidays[] = {37075, 37076, 37190};
static uint64_t one;

#define ONE(n) bytes[n], lengths[n]
#define ALL ONE(1), ONE(2), ONE(3), ONE(4), ONE(5), ONE(6), ONE(7), ONE(8), ONE(9), ONE(10), ONE(11), ONE(12), ONE(13)
#define HOLIDAYS holidays, sizeof holidays / sizeof *holidays

/* The calls. */
static void ask_records(void) { slovdrim_records(one, ONE(one)); }
static void ask_stretch(void) { slovdrim_stretch(one, ONE(one), 1, 1); }
static void ask_fields(void) { slovdrim_fields(one, ONE(one)); }
static void ask_check(void) { slovdrim_check(ALL); }
static void ask_check_hinted(void) { slovdrim_check_hinted(ALL, list, order_count); }
static void ask_order(void) { order_count = (size_t)slovdrim_order(ALL, list, list_count).written; }
static void ask_runs(void) { slovdrim_runs(ALL, q[0], q[1], slovdrim_day(q[2], q[3], q[4]).day, HOLIDAYS); }
static void ask_trip_stop(void) { slovdrim_trip_stop(ALL, q[0], q[1], 2); }
static void ask_sale(void) { slovdrim_sale(ALL, HOLIDAYS, q[0], q[1], q[2], q[3], q[4], q[5], q[6]); }
static void ask_sale_hinted(void) { slovdrim_sale_hinted(ALL, list, order_count, HOLIDAYS, q[0], q[1], q[2], q[3], q[4], q[5], q[6]); }
static void ask_sales(void) { slovdrim_sales(ALL, list, order_count, HOLIDAYS, asked, questions * NUMBERS, answers, questions * 3); }
static void ask_stop(void) { slovdrim_stop(ALL, (const uint8_t *)"Telc", 4, NULL, 0, NULL, 0); }
static void ask_stop_hinted(void) { slovdrim_stop_hinted(ALL, list, order_count, (const uint8_t *)"Telc", 4, NULL, 0, NULL, 0); }

struct call {
    const char *name;
    void (*ask)(void);
    enum { OF_A_FILE, OF_A_BATCH, OF_A_TRIP } of;
    size_t most;
};

/* slovdrim_order first: the list that it makes is the hint of the others. */
static struct call calls[] = {
    {"order", ask_order, OF_A_BATCH, 0},
    {"records", ask_records, OF_A_FILE, 0},
    {"stretch", ask_stretch, OF_A_FILE, 0},
    {"fields", ask_fields, OF_A_FILE, 0},
    {"check", ask_check, OF_A_BATCH, 0},
    {"check_hinted", ask_check_hinted, OF_A_BATCH, 0},
    {"runs", ask_runs, OF_A_TRIP, 0},
    {"trip_stop", ask_trip_stop, OF_A_TRIP, 0},
    {"sale", ask_sale, OF_A_TRIP, 0},
    {"sale_hinted", ask_sale_hinted, OF_A_TRIP, 0},
    {"sales", ask_sales, OF_A_BATCH, 0},
    {"stop", ask_stop, OF_A_BATCH, 0},
    {"stop_hinted", ask_stop_hinted, OF_A_BATCH, 0},
};
enum { CALLS = sizeof calls / sizeof *calls };

static uint8_t *stack;

/* One call, on the painted stack. */
static void measure(struct call *call)
{
    uint8_t *volatile here = (uint8_t *)__builtin_frame_address(0);
    size_t painted = (size_t)(here - stack) - UNPAINTED, kept = 0;
    memset(stack, PAINT, painted);
    call->ask();
    while (kept < painted && stack[kept] == PAINT)
        kept++;
    if ((size_t)(here - stack) - kept > call->most)
        call->most = (size_t)(here - stack) - kept;
}

static void *measure_all(void *unused)
{
    size_t i, n;
    for (i = 0; i < CALLS; i++)
        if (calls[i].of == OF_A_FILE)
            for (one = 1; one <= FILES; one++)
                measure(&calls[i]);
        else if (calls[i].of == OF_A_BATCH)
            measure(&calls[i]);
        else
            for (n = 0; n < questions; n++) {
                q = asked + n * NUMBERS;
                measure(&calls[i]);
            }
    return unused;
}

static void give_up(const char *why)
{
    fprintf(stderr, "stack: %s\n", why);
    exit(2);
}

static void on_painted_stack(void)
{
    pthread_t thread;
    pthread_attr_t attributes;
    if (pthread_attr_init(&attributes) != 0 || pthread_attr_setstack(&attributes, stack, STACK) != 0 ||
        pthread_create(&thread, &attributes, measure_all, NULL) != 0 || pthread_join(thread, NULL) != 0)
        give_up("no thread");
    pthread_attr_destroy(&attributes);
}

/* A missing file counts as empty. */
static void read_batch(const char *folder)
{
    char path[4096];
    unsigned n;
    list_count = 0;
    for (n = 1; n <= FILES; n++) {
        FILE *from;
        snprintf(path, sizeof path, "%s/%s.txt", folder, names[n]);
        from = fopen(path, "rb");
        bytes[n] = realloc(bytes[n], SLOVDRIM_LONGEST + 1);
        if (bytes[n] == NULL)
            give_up("not enough memory");
        lengths[n] = from == NULL ? 0 : fread(bytes[n], 1, SLOVDRIM_LONGEST + 1, from);
        if (from != NULL)
            fclose(from);
        list_count += lengths[n] / 11;
    }
    list = realloc(list, (list_count + 1) * sizeof *list);
    if (list == NULL)
        give_up("not enough memory");
    order_count = 0;
}

static uint64_t number_at(uint64_t record, uint64_t field)
{
    slovdrim_stretch_answer s = slovdrim_stretch(SLOVDRIM_ZASSPOJE, ONE(SLOVDRIM_ZASSPOJE), record, field);
    return s.number != SLOVDRIM_ANSWER ? 0 : strtoull((const char *)bytes[SLOVDRIM_ZASSPOJE] + s.start, NULL, 10);
}

/* From each of the first records of Zasspoje to the next, both ways, on a day of the samples. */
static void make_questions(void)
{
    uint64_t record, records = slovdrim_records(SLOVDRIM_ZASSPOJE, ONE(SLOVDRIM_ZASSPOJE)).records;
    questions = 0;
    for (record = 1; questions + 2 <= QUESTIONS && (record < records || record == 1); record++) {
        const uint64_t line = number_at(record, 1), trip = number_at(record, 2), from = number_at(record, 3), to = number_at(record + 1, 3);
        const uint64_t forth[NUMBERS] = {line, trip, 11, 6, 2001, from, to}, back[NUMBERS] = {line, trip, 11, 6, 2001, to, from};
        memcpy(asked + questions++ * NUMBERS, forth, sizeof forth);
        memcpy(asked + questions++ * NUMBERS, back, sizeof back);
    }
}

int main(int argc, char **argv)
{
    size_t i, most = 0;
    int n;
    stack = mmap(NULL, STACK, PROT_READ | PROT_WRITE, MAP_PRIVATE | MAP_ANONYMOUS, -1, 0);
    if (stack == MAP_FAILED)
        give_up("not enough memory");
    for (n = 1; n < argc; n++) {
        read_batch(argv[n]);
        make_questions();
        on_painted_stack();
    }
    for (i = 0; i < CALLS; i++) {
        printf("slovdrim_%s %zu\n", calls[i].name, calls[i].most);
        if (calls[i].most > most)
            most = calls[i].most;
    }
    printf("stack: %zu bytes at most, and a caller is asked for %d\n", most, SLOVDRIM_STACK);
    return most > SLOVDRIM_STACK;
}
