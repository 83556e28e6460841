/* desk trips: all trips that may be sold between two stops on a day. The host gathers the questions, one for each pair of tariff numbers that a trip has for
   the two stops, and asks the library in portions, of which a timetable fills no second one. */
#include "desk.h"

#include <stdlib.h>

/* How many questions one call of slovdrim_sales takes. Each call checks the batch again. tests/desk builds a second host with few at once. */
#ifndef QUESTIONS_AT_ONCE
#define QUESTIONS_AT_ONCE 16384
#endif

enum {
    ASKED = 7, /* numbers of a question of slovdrim_sales: line, trip, day, month, year, from, to */
    GIVEN = 3, /* and of an answer: number, departure, arrival */
    FIRST_OFFERS = 64,
};

struct search {
    uint64_t from, to;
    struct date date;
};

/* A record of Zasspoje at one of the two stops. */
struct call {
    uint64_t line, trip, tariff;
    int at_from, at_to;
};

struct calls {
    struct call *list;
    size_t count;
};

/* What may be sold. */
struct offer {
    uint64_t line, trip, from, to, departure, arrival;
};

/* The questions of one portion, and the offers that came of all portions so far. What is refused isn't kept. */
struct asking {
    const struct batch *batch;
    const struct search *search;
    const struct holidays *holidays;
    uint64_t *asked, *given;
    size_t count;
    struct offer *offers;
    size_t offer_count, offer_room;
};

static int compare(uint64_t a, uint64_t b)
{
    return (a > b) - (a < b);
}

static int by_trip(const void *a, const void *b)
{
    const struct call *x = a, *y = b;
    int line = compare(x->line, y->line), trip = compare(x->trip, y->trip);
    return line != 0 ? line : trip != 0 ? trip : compare(x->tariff, y->tariff);
}

/* The calls at the two stops, as many as `list` has room for; how many there are. */
static size_t find_calls(const struct file *file, const struct search *s, struct call *list, size_t room)
{
    struct text record;
    size_t count = 0;
    for (record = first_record(file); record.length > 0; record = next_record(file, record)) {
        uint64_t stop = number_at(record, 4);
        if (stop == NO_NUMBER || (stop != s->from && stop != s->to))
            continue;
        if (count < room)
            list[count] = (struct call){number_at(record, 1), number_at(record, 2), number_at(record, 3), stop == s->from, stop == s->to};
        count++;
    }
    return count;
}

/* Those of a trip one after another, whatever the order of the file. */
static enum status read_calls(const struct file *file, const struct search *s, struct calls *calls)
{
    calls->count = find_calls(file, s, NULL, 0);
    calls->list = malloc((calls->count + 1) * sizeof *calls->list);
    if (calls->list == NULL)
        return no_memory();
    find_calls(file, s, calls->list, calls->count);
    qsort(calls->list, calls->count, sizeof *calls->list, by_trip);
    return ANSWERED;
}

/* How many calls from `start` on are of one trip. */
static size_t length_of_trip(const struct calls *calls, size_t start)
{
    const struct call *first = &calls->list[start];
    size_t end = start + 1;
    while (end < calls->count && calls->list[end].line == first->line && calls->list[end].trip == first->trip)
        end++;
    return end - start;
}

static int keep_offer(struct asking *a, struct offer offer)
{
    if (a->offer_count == a->offer_room) {
        size_t room = a->offer_room == 0 ? FIRST_OFFERS : a->offer_room * 2;
        struct offer *offers = realloc(a->offers, room * sizeof *offers);
        if (offers == NULL)
            return 0;
        a->offers = offers;
        a->offer_room = room;
    }
    a->offers[a->offer_count++] = offer;
    return 1;
}

/* Asks the library what the portion holds, and empties it. The batch's own refusal and that of the day end the search, at the first portion. */
static enum status ask_library(struct asking *a)
{
    const struct date *date = &a->search->date;
    size_t i;
    slovdrim_sales_answer answer = slovdrim_sales(EACH_FILE(a->batch), a->batch->order, a->batch->order_count, a->holidays->days, a->holidays->count, a->asked,
                                                  a->count * ASKED, a->given, a->count * GIVEN);
    if (of_the_batch(answer.number)) {
        end_waiting();
        return refuse_batch(a->batch, REFUSAL_OF(answer));
    }
    if (slovdrim_day(date->day, date->month, date->year).number != SLOVDRIM_ANSWER) {
        end_waiting();
        return refuse_day(date);
    }
    for (i = 0; i < a->count; i++) {
        const uint64_t *asked = a->asked + i * ASKED, *given = a->given + i * GIVEN;
        if (given[0] == SLOVDRIM_ANSWER && !keep_offer(a, (struct offer){asked[0], asked[1], asked[5], asked[6], given[1], given[2]}))
            return no_memory();
    }
    a->count = 0;
    return ANSWERED;
}

/* A full portion is asked when there is one more question, so that the last one never is empty where there are questions. */
static enum status ask(struct asking *a, const struct call *from, const struct call *to)
{
    const struct date *date = &a->search->date;
    uint64_t *asked;
    if (a->count == QUESTIONS_AT_ONCE) {
        enum status status = ask_library(a);
        if (status != ANSWERED)
            return status;
    }
    asked = a->asked + a->count * ASKED;
    asked[0] = from->line;
    asked[1] = from->trip;
    asked[2] = date->day;
    asked[3] = date->month;
    asked[4] = date->year;
    asked[5] = from->tariff;
    asked[6] = to->tariff;
    a->count++;
    return ANSWERED;
}

/* Every pair of one trip's calls, the first at the first stop and the second at the second. Which of them may be sold is the library's to say. */
static enum status ask_of_trip(struct asking *a, const struct call *calls, size_t count)
{
    enum status status = ANSWERED;
    size_t i, j;
    for (i = 0; i < count; i++)
        for (j = 0; calls[i].at_from && j < count && status == ANSWERED; j++)
            if (calls[j].at_to)
                status = ask(a, &calls[i], &calls[j]);
    return status;
}

/* The library is asked once even where there is no question, since it has to judge the batch. */
static enum status ask_of_all(struct asking *a, const struct calls *calls)
{
    enum status status = ANSWERED;
    size_t start, length;
    a->asked = malloc(QUESTIONS_AT_ONCE * ASKED * sizeof *a->asked);
    a->given = malloc(QUESTIONS_AT_ONCE * GIVEN * sizeof *a->given);
    if (a->asked == NULL || a->given == NULL)
        return no_memory();
    for (start = 0; start < calls->count && status == ANSWERED; start += length) {
        length = length_of_trip(calls, start);
        status = ask_of_trip(a, calls->list + start, length);
    }
    return status == ANSWERED ? ask_library(a) : status;
}

static int by_departure(const void *a, const void *b)
{
    const struct offer *x = a, *y = b;
    const uint64_t left[] = {x->departure, x->arrival, x->line, x->trip, x->from, x->to};
    const uint64_t right[] = {y->departure, y->arrival, y->line, y->trip, y->from, y->to};
    size_t i;
    for (i = 0; i < sizeof left / sizeof left[0]; i++)
        if (left[i] != right[i])
            return compare(left[i], right[i]);
    return 0;
}

static void show_offer(const struct batch *batch, const struct offer *o)
{
    printf("  %02" PRIu64 ":%02" PRIu64 "   %02" PRIu64 ":%02" PRIu64, o->departure / 60, o->departure % 60, o->arrival / 60, o->arrival % 60);
    printf(" %6" PRIu64 " %5" PRIu64 " %5" PRIu64 " %5" PRIu64 "  ", o->line, o->trip, o->from, o->to);
    show_line_name(stdout, batch, o->line);
    putchar('\n');
}

static void show_search(const struct batch *batch, const struct search *s, const struct holidays *holidays)
{
    show_date(stdout, &s->date, holidays);
    TELL(stdout, "\nfrom %" PRIu64 " ", "\nz  %" PRIu64 " ", s->from);
    show_stop(stdout, batch, s->from);
    TELL(stdout, "\nto   %" PRIu64 " ", "\ndo %" PRIu64 " ", s->to);
    show_stop(stdout, batch, s->to);
    putchar('\n');
}

/* In order of departure. */
static void show_offers(struct asking *a)
{
    size_t i;
    if (a->offer_count == 0) {
        tell(stdout, "No trip may be sold between these stops on this day.\n", "Mezi těmito zastávkami nelze na tento den prodat jízdenku na žádný spoj.\n");
        return;
    }
    tell(stdout, "departs arrives   line  trip  from    to  name of the line; from and to are tariff numbers\n",
         " odjezd příjezd  linka  spoj     z    do  název linky; z a do jsou tarifní čísla\n");
    qsort(a->offers, a->offer_count, sizeof *a->offers, by_departure);
    for (i = 0; i < a->offer_count; i++)
        show_offer(a->batch, &a->offers[i]);
}

static int has_stop(const struct batch *batch, uint64_t stop)
{
    if (find(&batch->files[SLOVDRIM_ZASTAVKY], 1, stop, 0, 0).length > 0)
        return 1;
    TELL(stdout, "REFUSED %d\nThe batch has no stop %" PRIu64 ". desk stop finds a stop's number by its name.\n",
         "REFUSED %d\nV dávce není zastávka %" PRIu64 ". Číslo zastávky podle názvu najde desk stop.\n", SLOVDRIM_NO_SUCH, stop);
    return 0;
}

static enum status show_answer(struct asking *a)
{
    end_waiting();
    if (!has_stop(a->batch, a->search->from) || !has_stop(a->batch, a->search->to))
        return REFUSED;
    warn_of_year(a->holidays, &a->search->date);
    show_search(a->batch, a->search, a->holidays);
    show_offers(a);
    return ANSWERED;
}

/* The batch is read before it is judged, so that a usual search is one check; what was read counts only if it is accepted. */
static enum status search_batch(const struct batch *batch, const struct search *s, const struct holidays *holidays)
{
    struct asking a = {batch, s, holidays, NULL, NULL, 0, NULL, 0, 0};
    struct calls calls = {NULL, 0};
    enum status status = read_calls(&batch->files[SLOVDRIM_ZASSPOJE], s, &calls);
    if (status == ANSWERED)
        status = ask_of_all(&a, &calls);
    if (status == ANSWERED)
        status = show_answer(&a);
    free(calls.list);
    free(a.asked);
    free(a.given);
    free(a.offers);
    return status;
}

enum status run_trips(const struct arguments *arguments)
{
    const char *const *given = arguments->given;
    struct search s;
    struct holidays holidays = {NULL, NULL, 0};
    struct batch batch;
    enum status status = ANSWERED;
    if (argument_number(given[1], &s.from) || argument_number(given[2], &s.to) || argument_date(given[3], &s.date))
        return WRONG_USE;
    status = read_holidays(arguments->holidays, &holidays);
    if (status == ANSWERED)
        status = read_batch(given[0], &batch);
    if (status == ANSWERED) {
        status = search_batch(&batch, &s, &holidays);
        free_batch(&batch);
    }
    free(holidays.days);
    return status;
}
