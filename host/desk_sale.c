/* desk sale: may a ticket be sold from one stop of a trip to another on a day. */
#include "desk.h"

#include <stdlib.h>

struct question {
    uint64_t line, trip, from, to;
    struct date date;
};

static enum status read_question(const struct arguments *arguments, struct question *q)
{
    const char *const *given = arguments->given;
    if (argument_number(given[1], &q->line) || argument_number(given[2], &q->trip) || argument_date(given[3], &q->date) ||
        argument_number(given[4], &q->from) || argument_number(given[5], &q->to))
        return WRONG_USE;
    return ANSWERED;
}

/* The stop that a trip has at a tariff number. */
static uint64_t stop_at(const struct batch *batch, const struct question *q, uint64_t tariff)
{
    return number_at(find(&batch->files[SLOVDRIM_ZASSPOJE], 3, q->line, q->trip, tariff), 4);
}

static void show_call(const struct batch *batch, const struct question *q, uint64_t tariff)
{
    printf("%" PRIu64 " ", tariff);
    show_stop(stdout, batch, stop_at(batch, q, tariff));
}

static void show_trip_and_day(const struct batch *batch, const struct question *q, const struct holidays *holidays)
{
    TELL(stdout, "line %" PRIu64 ", trip %" PRIu64 ": ", "linka %" PRIu64 ", spoj %" PRIu64 ": ", q->line, q->trip);
    show_line_name(stdout, batch, q->line);
    putchar('\n');
    show_date(stdout, &q->date, holidays);
    putchar('\n');
}

static enum status show_sale(const struct batch *batch, const struct question *q, const struct holidays *holidays, slovdrim_sale_answer a)
{
    show_trip_and_day(batch, q, holidays);
    TELL(stdout, "departure %02" PRIu64 ":%02" PRIu64 "  ", "odjezd  %02" PRIu64 ":%02" PRIu64 "  ", a.departure / 60, a.departure % 60);
    show_call(batch, q, q->from);
    TELL(stdout, "\narrival   %02" PRIu64 ":%02" PRIu64 "  ", "\npříjezd %02" PRIu64 ":%02" PRIu64 "  ", a.arrival / 60, a.arrival % 60);
    show_call(batch, q, q->to);
    putchar('\n');
    return ANSWERED;
}

static enum status refuse_tariff(const struct question *q)
{
    TELL(stdout, "REFUSED %d\nTrip %" PRIu64 " doesn't have both tariff numbers %" PRIu64 " and %" PRIu64 ". desk stops shows those that it has.\n",
         "REFUSED %d\nSpoj %" PRIu64 " nemá obě tarifní čísla, %" PRIu64 " i %" PRIu64 ". Která má, ukáže desk stops.\n", SLOVDRIM_NO_SUCH_TARIFF, q->trip,
         q->from, q->to);
    return REFUSED;
}

/* 16 where the two stops are one: there is no other direction to offer. */
static void tell_one_stop(void)
{
    tell(stdout, "It is the same stop twice. Compare the two tariff numbers: desk stops shows those of the trip.\n",
         "Je to dvakrát tatáž zastávka. Porovnejte obě tarifní čísla: která spoj má, ukáže desk stops.\n");
}

/* Numbers 15 to 19: all that the question names is there, but no ticket may be sold. */
static void tell_not_sold(const struct question *q, uint64_t number)
{
    if (number == SLOVDRIM_NOT_BEFORE && q->from == q->to) {
        tell_one_stop();
        return;
    }
    switch (number) {
    case SLOVDRIM_DOES_NOT_RUN:
        tell(stdout, "The trip doesn't run on this day. Offer another day, or another trip: desk trips shows those of this day.\n",
             "Spoj tento den nejede. Nabídněte jiný den nebo jiný spoj: spoje toho dne ukáže desk trips.\n");
        break;
    case SLOVDRIM_NOT_BEFORE:
        tell(stdout, "The trip doesn't go from the first stop to the second. Offer a trip of the other direction: desk trips shows it.\n",
             "Spoj nejede z první zastávky do druhé. Nabídněte spoj opačného směru: ukáže jej desk trips.\n");
        break;
    case SLOVDRIM_NO_DEPARTURE:
        tell(stdout,
             "Nobody may board at the first stop: the trip has no departure there, or stops for alighting or the customs only. "
             "Offer another stop to board.\n",
             "Na první zastávce nelze nastoupit: spoj tam nemá odjezd, nebo zastavuje jen pro výstup či celní odbavení. "
             "Nabídněte jinou nástupní zastávku.\n");
        break;
    case SLOVDRIM_NO_ARRIVAL:
        tell(stdout,
             "Nobody may alight at the second stop: the trip has no time there, or stops for boarding or the customs only. "
             "Offer another stop to alight.\n",
             "Na druhé zastávce nelze vystoupit: spoj tam nemá uveden čas, nebo zastavuje jen pro nástup či celní odbavení. "
             "Nabídněte jinou výstupní zastávku.\n");
        break;
    default:
        tell(stdout, "The trip carries nobody between these two stops: both are marked § in the timetable. Offer another line.\n",
             "Mezi těmito dvěma zastávkami spoj cestující nepřepravuje: obě mají v jízdním řádu značku §. Nabídněte jinou linku.\n");
    }
}

static enum status refuse_sale(const struct batch *batch, const struct question *q, const struct holidays *holidays, uint64_t number)
{
    printf("REFUSED %" PRIu64 "\n", number);
    tell_not_sold(q, number);
    show_trip_and_day(batch, q, holidays);
    show_call(batch, q, q->from);
    putchar('\n');
    show_call(batch, q, q->to);
    putchar('\n');
    return REFUSED;
}

static enum status answer_sale(const struct batch *batch, const struct question *q, const struct holidays *holidays)
{
    slovdrim_sale_answer a;
    a = slovdrim_sale_hinted(EACH_FILE(batch), batch->order, batch->order_count, holidays->days, holidays->count, q->line, q->trip, q->date.day,
                             q->date.month, q->date.year, q->from, q->to);
    end_waiting();
    if (of_the_batch(a.number))
        return refuse_batch(batch, REFUSAL_OF(a));
    switch (a.number) {
    case SLOVDRIM_NO_SUCH_DAY:
        return refuse_day(&q->date);
    case SLOVDRIM_NO_SUCH_TRIP:
        return refuse_trip(q->line, q->trip);
    case SLOVDRIM_NO_SUCH_TARIFF:
        return refuse_tariff(q);
    }
    warn_of_year(holidays, &q->date);
    return a.number == SLOVDRIM_ANSWER ? show_sale(batch, q, holidays, a) : refuse_sale(batch, q, holidays, a.number);
}

enum status run_sale(const struct arguments *arguments)
{
    struct question q;
    struct holidays holidays = {NULL, NULL, 0};
    struct batch batch;
    enum status status = read_question(arguments, &q);
    if (status == ANSWERED)
        status = read_holidays(arguments->holidays, &holidays);
    if (status == ANSWERED)
        status = read_batch(arguments->given[0], &batch);
    if (status == ANSWERED) {
        status = answer_sale(&batch, &q, &holidays);
        free_batch(&batch);
    }
    free(holidays.days);
    return status;
}
