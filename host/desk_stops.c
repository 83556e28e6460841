/* desk stops: a trip's stops as it travels. desk stop: the number of a stop by its name. */
#include "desk.h"

#include <stdlib.h>
#include <string.h>

struct call {
    uint64_t tariff;
    struct text record;
};

static int by_rising_tariff(const void *a, const void *b)
{
    const struct call *x = a, *y = b;
    return (x->tariff > y->tariff) - (x->tariff < y->tariff);
}

static int by_falling_tariff(const void *a, const void *b)
{
    return by_rising_tariff(b, a);
}

/* The trip's records of Zasspoje, as many as `calls` has room for; how many there are. */
static size_t find_calls(const struct file *file, uint64_t line, uint64_t trip, struct call *calls, size_t room)
{
    struct text record;
    size_t count = 0;
    for (record = first_record(file); record.length > 0; record = next_record(file, record))
        if (number_at(record, 1) == line && number_at(record, 2) == trip) {
            if (count < room)
                calls[count] = (struct call){number_at(record, 3), record};
            count++;
        }
    return count;
}

/* A time field: HHMM is shown as HH:MM, a bar or an angle as it stands. */
static void show_time(struct text time)
{
    if (time.length == 4)
        printf("   %.2s:%.2s", (const char *)time.bytes, (const char *)time.bytes + 2);
    else
        printf("%8.*s", (int)time.length, (const char *)time.bytes);
}

static void show_calls(const struct batch *batch, const struct call *calls, size_t count)
{
    size_t i;
    tell(stdout, "   tariff      stop arrives departs  name\n", "tarif. č.  zastávka příjezd  odjezd  název\n");
    for (i = 0; i < count; i++) {
        uint64_t stop = number_at(calls[i].record, 4);
        printf("%9" PRIu64 " %9" PRIu64, calls[i].tariff, stop);
        show_time(field_of(calls[i].record, 9));
        show_time(field_of(calls[i].record, 10));
        fputs("  ", stdout);
        show_stop(stdout, batch, stop);
        putchar('\n');
    }
}

/* An odd trip travels by rising tariff number, an even one by falling. */
static enum status show_trip(const struct batch *batch, uint64_t line, uint64_t trip)
{
    const struct file *file = &batch->files[SLOVDRIM_ZASSPOJE];
    size_t count = find_calls(file, line, trip, NULL, 0);
    struct call *calls = malloc((count + 1) * sizeof *calls);
    if (calls == NULL)
        return no_memory();
    find_calls(file, line, trip, calls, count);
    qsort(calls, count, sizeof *calls, trip % 2 == 1 ? by_rising_tariff : by_falling_tariff);
    TELL(stdout, "line %" PRIu64 ", trip %" PRIu64 ": ", "linka %" PRIu64 ", spoj %" PRIu64 ": ", line, trip);
    show_line_name(stdout, batch, line);
    putchar('\n');
    show_calls(batch, calls, count);
    free(calls);
    return ANSWERED;
}

/* The library is asked for a sale on the trip: any other answer than the batch's refusals and 13 says that the batch stands and has this trip. */
static enum status answer_stops(const struct batch *batch, uint64_t line, uint64_t trip)
{
    slovdrim_sale_answer a;
    a = slovdrim_sale_hinted(EACH_FILE(batch), batch->order, batch->order_count, NULL, 0, line, trip, 1, 1, 1900, 0, 0);
    end_waiting();
    if (of_the_batch(a.number))
        return refuse_batch(batch, REFUSAL_OF(a));
    if (a.number != SLOVDRIM_NO_SUCH_TRIP)
        return show_trip(batch, line, trip);
    return refuse_trip(line, trip);
}

enum status run_stops(const struct arguments *arguments)
{
    struct batch batch;
    uint64_t line, trip;
    enum status status = argument_number(arguments->given[1], &line);
    if (status == ANSWERED)
        status = argument_number(arguments->given[2], &trip);
    if (status == ANSWERED)
        status = read_batch(arguments->given[0], &batch);
    if (status == ANSWERED) {
        status = answer_stops(&batch, line, trip);
        free_batch(&batch);
    }
    return status;
}

/* The three parts of a name in CP1250; those that were not typed are empty. */
struct name {
    uint8_t *part[3];
    size_t length[3];
};

static enum status read_name(const struct arguments *arguments, struct name *name)
{
    int i;
    for (i = 0; i < 3; i++) {
        const char *typed = i + 1 < arguments->count ? arguments->given[i + 1] : "";
        name->part[i] = malloc(strlen(typed) + 1);
        if (name->part[i] == NULL)
            return no_memory();
        if (to_cp1250(typed, name->part[i], &name->length[i]) != ANSWERED)
            return WRONG_USE;
    }
    return ANSWERED;
}

static enum status answer_stop(const struct batch *batch, const struct name *name)
{
    slovdrim_stop_answer a;
    a = slovdrim_stop_hinted(EACH_FILE(batch), batch->order, batch->order_count, name->part[0], name->length[0], name->part[1], name->length[1],
                             name->part[2], name->length[2]);
    end_waiting();
    if (of_the_batch(a.number))
        return refuse_batch(batch, REFUSAL_OF(a));
    if (a.number == SLOVDRIM_ANSWER) {
        printf("%" PRIu64 " ", a.value);
        show_stop(stdout, batch, a.value);
        putchar('\n');
        return ANSWERED;
    }
    printf("REFUSED %" PRIu64 "\n", a.number);
    if (a.number == SLOVDRIM_SEVERAL_NAMED)
        TELL(stdout, "%" PRIu64 " stops have this very name. The name alone doesn't say which one is meant.\n",
             "Přesně tento název má více zastávek: %" PRIu64 ". Která z nich je míněna, nelze z názvu poznat.\n", a.value);
    else
        tell(stdout,
             "No stop has this very name. Town, part of the town and place are compared letter by letter, with blanks and capitals as the carrier "
             "wrote them.\n",
             "Přesně tento název nemá žádná zastávka. Obec, část obce a bližší místo se porovnávají znak po znaku, včetně mezer a velkých písmen, "
             "jak je zapsal dopravce.\n");
    return REFUSED;
}

enum status run_stop(const struct arguments *arguments)
{
    struct batch batch;
    struct name name = {{NULL, NULL, NULL}, {0, 0, 0}};
    enum status status = read_name(arguments, &name);
    int i;
    if (status == ANSWERED)
        status = read_batch(arguments->given[0], &batch);
    if (status == ANSWERED) {
        status = answer_stop(&batch, &name);
        free_batch(&batch);
    }
    for (i = 0; i < 3; i++)
        free(name.part[i]);
    return status;
}
