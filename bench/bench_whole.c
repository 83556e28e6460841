/* Times the whole: the scan, the check, a sale, a thousand sales in one call and a stop by its name, over batches of about 1, 10 and 60 MB, with rising keys and
   shuffled with the hint, beside the plain C of plain.c and beside SQLite's import; all of it in turns, so that a busy moment of the machine falls on all.
   Times are those of the processor. Before that the answers of the library and of the plain C are compared, on the batches, on damaged ones and on a thousand
   sales: a difference ends the run with status 1. A missed target doesn't.

     bench_whole SEED ROUNDS [MB..]     prints tables in Markdown
     bench_whole folder DIRECTORY..     prints the plain C's verdict on each, and its answers to the questions there */
#include <stdio.h>
#include <stdlib.h>
#include <string.h>
#include <time.h>

#include "damage.h"
#include "folder.h"
#include "library.h"
#include "questions.h"
#include "sqlite_import.h"

enum { MOST_SIZES = 8, SPOJE = 6, ZASSPOJE = 8, SMALL = 2000000, FEW_DAMAGES = 3 };

/* What is timed, on the sorted batch and on the shuffled one. ALONE is each file by itself, 1 to 6, and whether keys rise; LINKS is the check up to the first
   trip, whose kilometre is wrong then. */
enum what {
    SCAN, ALONE, LINKS, CHECK, SALE, SALES, STOP, ORDER, PLAIN_READ, PLAIN_FIELDS, PLAIN_LINKS, PLAIN_TRIPS, PLAIN_CHECK, PLAIN_SALE, PLAIN_SALES, PLAIN_STOP,
    SQLITE, WHATS
};

struct side {
    struct batch batch;
    uint8_t *kilometre; /* 0, with which the first trip of Spoje sets out */
    double *times[WHATS];
    double median[WHATS];
};

struct size {
    size_t length;
    int repeats; /* in each round; a small batch is soon read */
    int count;
    struct side sides[2];
    struct questions questions;
    size_t sold; /* the first question that a ticket is sold for */
};

static struct plain_sold list[QUESTIONS], plain_list[QUESTIONS];
static volatile uint64_t sink;

static double now(void)
{
    struct timespec t;
    clock_gettime(CLOCK_PROCESS_CPUTIME_ID, &t);
    return (double)t.tv_sec * 1e3 + (double)t.tv_nsec * 1e-6;
}

static void differs(const char *what, const struct batch *b, const slovdrim_check_answer *a, const struct plain_answer *p)
{
    fprintf(stderr, "bench: %s, batch of %.1f MB: the library answers %llu for file %llu, record %llu, field %llu, offset %llu, the plain C %llu for %llu, %llu, %llu, %llu\n",
            what, (double)batch_length(b) / 1e6, (unsigned long long)a->number, (unsigned long long)a->file, (unsigned long long)a->record,
            (unsigned long long)a->field, (unsigned long long)a->offset, (unsigned long long)p->number, (unsigned long long)p->file,
            (unsigned long long)p->record, (unsigned long long)p->field, (unsigned long long)p->offset);
    exit(1);
}

/* Both answer the same, and with this number. */
static void compare(const char *what, const struct batch *b, unsigned number)
{
    struct plain_answer p = plain_check(b->bytes, b->length);
    slovdrim_check_answer a = library_check(b);
    if (memcmp(&a, &p, sizeof a) != 0 || p.number != number)
        differs(what, b, &a, &p);
}

/* SQLite refuses what has a key twice or a link to nothing. */
static void compare_damaged(struct batch *b, unsigned count)
{
    unsigned i;
    for (i = 0; i < count; i++) {
        const struct damage *d = &damages[i];
        damage_do(b, d);
        compare(d->what, b, d->number);
        if (d->number >= 7 && count > FEW_DAMAGES && sqlite_import(b->bytes, b->length) == (d->number < 9)) {
            fprintf(stderr, "bench: %s: SQLite's import %s\n", d->what, d->number < 9 ? "doesn't see it" : "is refused");
            exit(1);
        }
        damage_undo(b);
    }
}

/* A thousand sales in one call and a name, by both; and each sale by itself, where that is soon done. */
static void compare_answers(const struct size *size, const struct batch *b)
{
    const struct questions *q = &size->questions;
    struct plain_answer answer;
    struct plain_batch *batch = plain_open(b->bytes, b->length, &answer);
    slovdrim_sales_answer sales = library_sales(b, q->holidays, HOLIDAYS, q->asked, QUESTIONS, list);
    slovdrim_stop_answer stop = library_stop(b, q->names);
    uint64_t value, number = plain_stop(batch, q->names, &value);
    int same = sales.number == 0 && sales.answered == QUESTIONS && stop.number == number && stop.value == value;
    size_t i;
    for (i = 0; i < QUESTIONS && same; i++) {
        struct plain_sold sold = plain_sale(batch, q->holidays, HOLIDAYS, &q->asked[i]);
        same = memcmp(&sold, &list[i], sizeof sold) == 0;
        if (size->length < SMALL && i < 100) {
            slovdrim_sale_answer one = library_sale(b, q->holidays, HOLIDAYS, &q->asked[i]);
            same = same && one.number == sold.number && one.departure == sold.departure && one.arrival == sold.arrival;
        }
    }
    plain_free(batch);
    if (!same) {
        fprintf(stderr, "bench: the answers on a sale or on a stop differ, batch of %.1f MB\n", (double)batch_length(b) / 1e6);
        exit(1);
    }
}

/* The library's hint beside the one that the batch was made with. */
static void compare_order(struct batch *b)
{
    uint32_t *own = b->order;
    size_t count = b->count;
    b->order = NULL;
    library_order(b);
    if (b->count != count || memcmp(b->order, own, count * sizeof *own) != 0) {
        fprintf(stderr, "bench: the hint is another, batch of %.1f MB\n", (double)batch_length(b) / 1e6);
        exit(1);
    }
    free(own);
}

/* The kilometre of the first trip's first stop. */
static uint8_t *first_kilometre(const struct batch *b)
{
    uint64_t line = batch_number(b->bytes[SPOJE], 1), trip = batch_number(b->bytes[SPOJE], 2);
    uint8_t *at = b->bytes[ZASSPOJE], *end = at + b->length[ZASSPOJE];
    for (; at < end; at = (uint8_t *)memchr(at, '\n', (size_t)(end - at)) + 1) {
        uint8_t *text = at;
        unsigned f;
        if (batch_number(at, 1) != line || batch_number(at, 2) != trip)
            continue;
        for (f = 1; f < 8; f++) {
            while (text[0] != '"' || text[1] != ',' || text[2] != '"')
                text++;
            text += 2;
        }
        if (text[1] == '0' && text[2] == '"')
            return text + 1;
    }
    fprintf(stderr, "bench: the first trip doesn't set out\n");
    exit(1);
}

static void open_side(struct size *size, struct side *side, int rounds)
{
    struct batch *b = &side->batch;
    int i;
    compare("the batch", b, 0);
    compare_order(b);
    compare_answers(size, b);
    compare_damaged(b, size->length < SMALL ? damage_count : FEW_DAMAGES);
    side->kilometre = first_kilometre(b);
    *side->kilometre = '1';
    compare("the first trip's kilometre", b, 11);
    *side->kilometre = '0';
    if (!sqlite_import(b->bytes, b->length)) {
        fprintf(stderr, "bench: SQLite doesn't take the batch\n");
        exit(1);
    }
    for (i = 0; i < WHATS; i++) {
        side->times[i] = malloc((size_t)(rounds * size->repeats) * sizeof(double));
        if (side->times[i] == NULL)
            exit(2);
    }
}

static void open_size(struct size *size, uint64_t seed, int rounds)
{
    batch_make(&size->sides[0].batch, seed, size->length);
    batch_shuffle(&size->sides[1].batch, &size->sides[0].batch, seed + 1);
    questions_make(&size->questions, &size->sides[0].batch, seed + 2);
    size->count = 0;
    open_side(size, &size->sides[0], rounds);
    for (size->sold = 0; size->sold < QUESTIONS && list[size->sold].number != 0; size->sold++)
        ;
    if (size->sold == QUESTIONS) {
        fprintf(stderr, "bench: no ticket is sold\n");
        exit(1);
    }
    open_side(size, &size->sides[1], rounds);
}

#define TIME(what, ...)                                                                                                                                      \
    do {                                                                                                                                                     \
        double began = now();                                                                                                                                \
        __VA_ARGS__;                                                                                                                                         \
        times[what][n] = now() - began;                                                                                                                      \
    } while (0)

static void time_library(const struct size *size, struct side *side, int n)
{
    double **times = side->times;
    struct batch *b = &side->batch;
    const struct questions *q = &size->questions;
    unsigned file;
    TIME(SCAN, for (file = 1; file <= BATCH_FILES; file++) sink = library_records(b, file).records);
    TIME(ALONE, sink = library_order_bare(b));
    *side->kilometre = '1';
    TIME(LINKS, sink = library_check(b).number);
    *side->kilometre = '0';
    TIME(CHECK, sink = library_check(b).number);
    TIME(SALE, sink = library_sale(b, q->holidays, HOLIDAYS, &q->asked[size->sold]).number);
    TIME(SALES, sink = library_sales(b, q->holidays, HOLIDAYS, q->asked, QUESTIONS, list).number);
    TIME(STOP, sink = library_stop(b, q->names).number);
    TIME(ORDER, library_order(b));
}

static void time_plain(const struct size *size, struct side *side, int n)
{
    double **times = side->times;
    uint8_t *const *bytes = side->batch.bytes;
    const size_t *lengths = side->batch.length;
    const struct questions *q = &size->questions;
    struct plain_answer answer;
    struct plain_batch *batch;
    uint64_t value;
    size_t i;
    TIME(PLAIN_READ, batch = plain_read(bytes, lengths, &answer));
    TIME(PLAIN_FIELDS, answer = plain_fields(batch));
    TIME(PLAIN_LINKS, answer = plain_links(batch));
    TIME(PLAIN_TRIPS, answer = plain_trips(batch));
    plain_free(batch);
    TIME(PLAIN_CHECK, sink = plain_check(bytes, lengths).number);
    TIME(PLAIN_SALE, batch = plain_open(bytes, lengths, &answer); sink = plain_sale(batch, q->holidays, HOLIDAYS, &q->asked[size->sold]).number;
         plain_free(batch));
    TIME(PLAIN_SALES, batch = plain_open(bytes, lengths, &answer);
         for (i = 0; i < QUESTIONS; i++) plain_list[i] = plain_sale(batch, q->holidays, HOLIDAYS, &q->asked[i]);
         plain_free(batch));
    TIME(PLAIN_STOP, batch = plain_open(bytes, lengths, &answer); sink = plain_stop(batch, q->names, &value); plain_free(batch));
    TIME(SQLITE, sink = (uint64_t)sqlite_import(bytes, lengths));
}

static void round_of(struct size *size)
{
    int i, side;
    for (i = 0; i < size->repeats; i++, size->count++)
        for (side = 0; side < 2; side++) {
            time_library(size, &size->sides[side], size->count);
            time_plain(size, &size->sides[side], size->count);
        }
}

static int rising(const void *a, const void *b)
{
    double x = *(const double *)a, y = *(const double *)b;
    return (x > y) - (x < y);
}

static void close_size(struct size *size)
{
    int side, i;
    for (side = 0; side < 2; side++)
        for (i = 0; i < WHATS; i++) {
            double *times = size->sides[side].times[i];
            qsort(times, (size_t)size->count, sizeof *times, rising);
            size->sides[side].median[i] = times[size->count / 2];
        }
}

static void print_times(const struct size *sizes, int count)
{
    int i, side;
    printf("\n| batch | scan | whole check | a sale | 1000 sales | a stop by name | making the hint | plain C: check | a sale | 1000 sales | a stop | SQLite's import |\n");
    printf("|---|---|---|---|---|---|---|---|---|---|---|---|\n");
    for (i = 0; i < count; i++)
        for (side = 0; side < 2; side++) {
            const double *m = sizes[i].sides[side].median;
            printf("| %.1f MB, %s | %.2f | %.2f | %.2f | %.2f | %.2f | %.2f | %.2f | %.2f | %.2f | %.2f | %.0f |\n",
                   (double)batch_length(&sizes[i].sides[side].batch) / 1e6, side == 0 ? "sorted" : "shuffled", m[SCAN], m[CHECK], m[SALE], m[SALES], m[STOP],
                   m[ORDER], m[PLAIN_CHECK], m[PLAIN_SALE], m[PLAIN_SALES], m[PLAIN_STOP], m[SQLITE]);
        }
}

/* A ratio beside its target; `most` is negative where the ratio is to be at least that. */
static void print_ratio(double ratio, double most)
{
    int met = most > 0 ? ratio <= most : ratio >= -most;
    printf(" %.2f, %s |", ratio, met ? "met" : "missed");
}

static void print_ratios(const struct size *sizes, int count)
{
    int i, side;
    printf("\n| batch | check to plain C, at most 1.5 | SQLite to check, at least 5 | shuffled to sorted, at most 2 | a sale to a check, at most 1.05 | 1000 sales to one, at most 1.2 |\n");
    printf("|---|---|---|---|---|---|\n");
    for (i = 0; i < count; i++)
        for (side = 0; side < 2; side++) {
            const double *m = sizes[i].sides[side].median;
            printf("| %.1f MB, %s |", (double)batch_length(&sizes[i].sides[side].batch) / 1e6, side == 0 ? "sorted" : "shuffled");
            print_ratio(m[CHECK] / m[PLAIN_CHECK], 1.5);
            print_ratio(m[SQLITE] / m[CHECK], -5);
            if (side == 0)
                printf(" |");
            else
                print_ratio(m[CHECK] / sizes[i].sides[0].median[CHECK], 2);
            print_ratio(m[SALE] / m[CHECK], 1.05);
            print_ratio(m[SALES] / m[SALE], 1.2);
            printf("\n");
        }
}

static void print_stages(const struct size *sizes, int count)
{
    int i, side;
    printf("\n| batch, ns for each byte | the scan by itself | bytes, fields, rules, rising keys | hint, keys, links, signs | trips, counts | plain C: scan | fields and rules | keys, links, signs | trips |\n");
    printf("|---|---|---|---|---|---|---|---|---|\n");
    for (i = 0; i < count; i++)
        for (side = 0; side < 2; side++) {
            const double *m = sizes[i].sides[side].median;
            double each = (double)batch_length(&sizes[i].sides[side].batch) / 1e6;
            printf("| %.1f MB, %s | %.2f | %.2f | %.2f | %.2f | %.2f | %.2f | %.2f | %.2f |\n", each, side == 0 ? "sorted" : "shuffled", m[SCAN] / each,
                   m[ALONE] / each, (m[LINKS] - m[ALONE]) / each, (m[CHECK] - m[LINKS]) / each, m[PLAIN_READ] / each, m[PLAIN_FIELDS] / each,
                   m[PLAIN_LINKS] / each, m[PLAIN_TRIPS] / each);
        }
}

static int bench(uint64_t seed, int rounds, struct size *sizes, int count)
{
    int i, round;
    for (i = 0; i < count; i++)
        open_size(&sizes[i], seed, rounds);
    for (round = 0; round < rounds; round++)
        for (i = 0; i < count; i++)
            round_of(&sizes[i]);
    for (i = 0; i < count; i++)
        close_size(&sizes[i]);
    printf("Medians of %d rounds, milliseconds of the processor; shuffled with the hint. Answers are the same on all batches and on %u damaged ones.\n", rounds,
           damage_count);
    print_times(sizes, count);
    print_ratios(sizes, count);
    print_stages(sizes, count);
    return 0;
}

int main(int argc, char **argv)
{
    static struct size sizes[MOST_SIZES] = {{.length = 1000000}, {.length = 10000000}, {.length = 60000000}};
    uint64_t seed = argc > 1 ? strtoull(argv[1], NULL, 10) : 1;
    int rounds = argc > 2 ? atoi(argv[2]) : 3, count = 3, i;
    if (argc > 2 && strcmp(argv[1], "folder") == 0) {
        for (i = 2; i < argc; i++)
            folder_show(argv[i]);
        return 0;
    }
    if (argc > 3)
        for (count = 0; count < MOST_SIZES && count + 3 < argc; count++)
            sizes[count].length = (size_t)(atof(argv[count + 3]) * 1e6);
    for (i = 0; i < count; i++)
        sizes[i].repeats = sizes[i].length < SMALL ? 7 : sizes[i].length < 20000000 ? 3 : 1;
    if (seed == 0 || seed > UINT64_MAX - 2 || rounds < 1 || rounds > 1000)
        return 2;
    return bench(seed, rounds, sizes, count);
}
