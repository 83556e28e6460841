/* The calls on a batch. Where a batch stands, its fields are of their kinds, so that trips, stops and tariff numbers can be looked for here by reading the records
   one after another; what the header says of the refusals of a question is then held against what the library says. */
#include <string.h>

#include "judge.h"
#include "lend.h"
#include "proved.h"

enum { STOPS_FILE = 1, TRIPS_FILE = 5, CALLS_FILE = 7, MOST_JUDGED = 6 };

/* The batch's own verdict. */

/* Whether file number `file` has a place like this: for 5 to 11. */
static int is_place(const struct input *in, const slovdrim_check_answer *a, uint64_t first, uint64_t last, int with_field)
{
    if (a->file < first || a->file > last || a->record < 1 || a->record > count_records(&in->parts[a->file - 1]) || a->offset != 0)
        return 0;
    return with_field ? a->field >= 1 && a->field <= fields_of_file[a->file - 1] : a->field == 0;
}

static int place_fits(const struct input *in, const slovdrim_check_answer *a)
{
    int no_record = a->record == 0 && a->field == 0;
    switch (a->number) {
    case 0:
        return a->file == 0 && no_record && a->offset == 0;
    case 1:
        return a->file >= 1 && a->file <= FILES && no_record && a->offset == 0 && lent_length((int)a->file - 1) > SLOVDRIM_LONGEST;
    case 2:
        return a->file >= 1 && a->file <= FILES && no_record && a->offset < in->parts[a->file - 1].length;
    case 3:
        return a->file >= 1 && a->file <= FILES && no_record && a->offset == in->parts[a->file - 1].length;
    case 4:
        return a->file == 1 && a->offset == 0 && a->field == a->record && a->record == (count_records(&in->parts[0]) == 1);
    case 5:
        return is_place(in, a, 2, 13, 1);
    case 6:
        return is_place(in, a, 2, 11, 0);
    case 7:
        return is_place(in, a, 2, 10, 0) && a->record >= 2;
    case 8:
    case 9:
        return is_place(in, a, 2, 13, 1);
    case 10:
    case 11:
        return is_place(in, a, 6, 6, 0);
    default:
        return 0;
    }
}

/* Each file alone: what it is refused with by itself is what the batch is refused with, for the first such file of a stage. */
static void judge_stages(const slovdrim_check_answer *a)
{
    slovdrim_records_answer r;
    slovdrim_fields_answer f;
    uint64_t file;
    for (file = 1; file <= FILES && a->number != 1; file++) {
        proved_records(&r, file, LENT((int)file - 1, AT_START));
        if (r.number != 0) {
            must(a->number == r.number && a->file == file && a->offset == r.offset, "check: the first file that isn't legal");
            return;
        }
    }
    must(a->number != 2 && a->number != 3, "check: 2 and 3 are of a file that isn't legal");
    for (file = 2; file <= FILES && a->number != 1 && a->number != 4; file++) {
        proved_fields(&f, file, LENT((int)file - 1, AT_START));
        if (f.number != 0) {
            must(a->number == f.number && a->file == file && a->record == f.record && a->field == f.field, "check: the first field or rule");
            return;
        }
    }
    must(a->number != 5 && a->number != 6, "check: 5 and 6 are of a file by itself");
}

static slovdrim_check_answer verdict(void)
{
    slovdrim_check_answer a;
    proved_check(&a, EACH_FILE(AT_START));
    return a;
}

void judge_check(const struct input *in, const uint64_t *answer, const uint8_t *before, const uint8_t *after)
{
    static const char version[] = "\"1.8\";\r\n";
    slovdrim_check_answer a;
    int right_version = in->parts[0].length == sizeof version - 1 && memcmp(in->parts[0].bytes, version, sizeof version - 1) == 0;
    (void)before, (void)after;
    memcpy(&a, answer, sizeof a);
    must(place_fits(in, &a), "check: the number and its place");
    must(a.number <= 3 || (a.number == 4) == !right_version, "check: 4 exactly if the version isn't 1.8");
    must(a.number != 0 || right_version, "check: no batch stands without its version");
    judge_stages(&a);
    if (a.number == 0)
        must(a.stops == count_records(&in->parts[1]) && a.lines == count_records(&in->parts[4]) && a.trips == count_records(&in->parts[5]) &&
                 a.trip_stops == count_records(&in->parts[7]),
             "check: how many records there are");
    else
        must(a.stops == 0 && a.lines == 0 && a.trips == 0 && a.trip_stops == 0, "check: no counts with a refusal");
}

void judge_check_hinted(const struct input *in, const uint64_t *a, const uint8_t *before, const uint8_t *after)
{
    slovdrim_check_answer plain = verdict();
    must(memcmp(&plain, a, sizeof plain) == 0, "check_hinted: the plain answer");
    judge_check(in, a, before, after);
}

/* A question: the batch's refusal, or none and then no place. 1 if the batch stands. */
static int judge_question(const uint64_t *a, size_t words)
{
    slovdrim_check_answer batch = verdict();
    size_t i;
    if (batch.number == 0) {
        must((a[0] == 0 || a[0] > 11) && a[1] == 0 && a[2] == 0 && a[3] == 0 && a[4] == 0, "a question: no place of its own refusals");
        return 1;
    }
    must(memcmp(&batch, a, 5 * 8) == 0, "a question: the batch's own refusal");
    for (i = 5; i < words; i++)
        must(a[i] == 0, "a question: nothing else with a batch's refusal");
    return 0;
}

/* Records of a batch that stands */

static int has_trip(const struct input *in, const uint64_t *q)
{
    const struct part *file = &in->parts[TRIPS_FILE];
    size_t i, records = count_records(file);
    for (i = 0; i < records; i++)
        if (field_value(file, i, 0) == q[LINE] && field_value(file, i, 1) == q[TRIP])
            return 1;
    return 0;
}

/* The trip's record with a tariff number, or with any; NONE if there is none. How many of the trip there are goes to `count`. */
#define NONE SIZE_MAX
static size_t call_of(const struct input *in, const uint64_t *q, uint64_t tariff, size_t *count)
{
    const struct part *file = &in->parts[CALLS_FILE];
    size_t i, records = count_records(file), found = NONE;
    *count = 0;
    for (i = 0; i < records; i++)
        if (field_value(file, i, 0) == q[LINE] && field_value(file, i, 1) == q[TRIP]) {
            ++*count;
            if (field_value(file, i, 2) == tariff)
                found = i;
        }
    return found;
}

/* Trips */

void judge_runs(const struct input *in, const uint64_t *a, const uint8_t *before, const uint8_t *after)
{
    (void)before, (void)after;
    if (!judge_question(a, 6))
        return;
    must(a[0] == (in->numbers[DAY_NUMBER] > SLOVDRIM_LAST_DAY ? 12 : has_trip(in, in->numbers) ? 0 : 13), "runs: 12, then 13");
    must(a[5] <= (a[0] == 0), "runs: yes or no");
}

void judge_trip_stop(const struct input *in, const uint64_t *answer, const uint8_t *before, const uint8_t *after)
{
    slovdrim_trip_stop_answer a;
    size_t count, call;
    uint64_t nth = in->numbers[RECORD];
    (void)before, (void)after;
    if (!judge_question(answer, 14))
        return;
    memcpy(&a, answer, sizeof a);
    call = call_of(in, in->numbers, a.tariff, &count);
    must(a.number == (!has_trip(in, in->numbers) ? 13 : nth < 1 || nth > count ? 20 : 0), "trip_stop: 13, then 20");
    if (a.number != 0) {
        must(a.tariff + a.stop + a.arrives + a.arrival + a.departs + a.departure + a.signs + a.last + a.stops == 0, "trip_stop: nothing with a refusal");
        return;
    }
    must(a.stops == count && call != NONE && field_value(&in->parts[CALLS_FILE], call, 3) == a.stop, "trip_stop: one of the trip's records");
    must(a.arrives <= 1 && a.departs <= 1 && a.last <= 1 && a.signs < 32, "trip_stop: flags and signs");
    must(a.arrival < (a.arrives ? 1440 : 1) && a.departure < (a.departs ? 1440 : 1), "trip_stop: minutes of a day");
}

/* Sales */

/* The stop of a trip that has this tariff number, as slovdrim_trip_stop tells it. */
static slovdrim_trip_stop_answer stop_with(const uint64_t *q, uint64_t tariff)
{
    slovdrim_trip_stop_answer a;
    uint64_t nth = 1;
    do
        proved_trip_stop(&a, EACH_FILE(AT_START), q[LINE], q[TRIP], nth++);
    while (a.number == 0 && a.tariff != tariff);
    return a;
}

/* Numbers 17 to 19 and the minutes, by the two stops. */
static void judge_stops_of_sale(const uint64_t *q, uint64_t number, uint64_t departure, uint64_t arrival)
{
    slovdrim_trip_stop_answer from = stop_with(q, q[FROM]), to = stop_with(q, q[TO]);
    uint64_t wanted = 0;
    must(from.number == 0 && to.number == 0, "sale: both stops are the trip's");
    if (!from.departs || (from.signs & (SLOVDRIM_NO_BOARDING | SLOVDRIM_NOT_FOR_PASSENGERS)) != 0)
        wanted = 17;
    else if ((!to.arrives && !to.departs) || (to.signs & (SLOVDRIM_NO_ALIGHTING | SLOVDRIM_NOT_FOR_PASSENGERS)) != 0)
        wanted = 18;
    else if ((from.signs & to.signs & SLOVDRIM_NO_LOCAL_TRAVEL) != 0)
        wanted = 19;
    must(number == wanted, "sale: 17 to 19 by the two stops");
    must(number != 0 || (departure == from.departure && arrival == (to.arrives ? to.arrival : to.departure)), "sale: the minutes of the two stops");
}

/* The refusals 12 to 16 of a question, or 0 if none of them applies. */
static uint64_t refusal_of(const struct input *in, const uint64_t *q)
{
    size_t count;
    slovdrim_day_answer day = proved_day(q[DAY], q[MONTH], q[YEAR]);
    slovdrim_runs_answer runs;
    if (day.number != 0)
        return 12;
    if (!has_trip(in, q))
        return 13;
    if (call_of(in, q, q[FROM], &count) == NONE || call_of(in, q, q[TO], &count) == NONE)
        return 14;
    proved_runs(&runs, EACH_FILE(AT_START), q[LINE], q[TRIP], day.day, LIST(uint64_t, HOLIDAYS, AT_START));
    must(runs.number == 0, "sale: the trip is there");
    if (runs.runs == 0)
        return 15;
    return (q[TRIP] % 2 == 1 ? q[FROM] < q[TO] : q[FROM] > q[TO]) ? 0 : 16;
}

/* One question on a batch that stands. */
static void judge_one_sale(const struct input *in, const uint64_t *q, uint64_t number, uint64_t departure, uint64_t arrival)
{
    uint64_t refusal = refusal_of(in, q);
    must(refusal == 0 ? number == 0 || (number >= 17 && number <= 19) : number == refusal, "sale: 12 to 16 in their order");
    must(number == 0 ? departure <= arrival && arrival < 1440 : departure == 0 && arrival == 0, "sale: minutes of a day, or none with a refusal");
    if (refusal == 0)
        judge_stops_of_sale(q, number, departure, arrival);
}

void judge_sale(const struct input *in, const uint64_t *a, const uint8_t *before, const uint8_t *after)
{
    (void)before, (void)after;
    if (judge_question(a, 7))
        judge_one_sale(in, in->numbers, a[0], a[5], a[6]);
}

void judge_sale_hinted(const struct input *in, const uint64_t *a, const uint8_t *before, const uint8_t *after)
{
    const uint64_t *q = in->numbers;
    slovdrim_sale_answer plain;
    proved_sale(&plain, EACH_FILE(AT_START), LIST(uint64_t, HOLIDAYS, AT_START), q[0], q[1], q[2], q[3], q[4], q[5], q[6]);
    must(memcmp(&plain, a, sizeof plain) == 0, "sale_hinted: the plain answer");
    judge_sale(in, a, before, after);
}

size_t list_room(const struct input *in)
{
    return in->room % (LONGEST_PART / 8 + 1);
}

/* One answer in the list beside the answer to the same question alone. */
static void judge_answer_in_list(const struct input *in, const uint64_t *q, const uint64_t *given)
{
    slovdrim_sale_answer alone;
    proved_sale(&alone, EACH_FILE(AT_START), LIST(uint64_t, HOLIDAYS, AT_START), q[0], q[1], q[2], q[3], q[4], q[5], q[6]);
    must(given[0] == alone.number && given[1] == alone.departure && given[2] == alone.arrival, "sales: each as slovdrim_sale answers it");
    judge_one_sale(in, q, given[0], given[1], given[2]);
}

void judge_sales(const struct input *in, const uint64_t *a, const uint8_t *before, const uint8_t *after)
{
    size_t questions = in->parts[ASKED].length / 56, room = list_room(in), i, written = 0;
    if (judge_question(a, 6)) {
        must(a[0] == (room < 3 * questions ? 22 : 0), "sales: 22 exactly if there is no room");
        must(a[5] == (a[0] == 0 ? questions : 0), "sales: how many were answered");
        written = a[0] == 0 ? 3 * questions : 0;
    }
    must(memcmp(before + 8 * written, after + 8 * written, 8 * (room - written)) == 0, "sales: the rest of the list is as it was");
    for (i = 0; i < written / 3 && i < MOST_JUDGED; i++) {
        uint64_t q[7], given[3];
        memcpy(q, in->parts[ASKED].bytes + 56 * i, sizeof q);
        memcpy(given, after + 24 * i, sizeof given);
        judge_answer_in_list(in, q, given);
    }
}

/* Names */

static int has_name(const struct input *in, size_t record)
{
    const struct part *stops = &in->parts[STOPS_FILE];
    size_t i;
    for (i = 0; i < 3; i++) {
        struct span s = field_span(stops, record, 1 + i);
        const struct part *part = &in->parts[NAME + i];
        if (s.length != part->length || memcmp(stops->bytes + s.at, part->bytes, s.length) != 0)
            return 0;
    }
    return 1;
}

void judge_stop(const struct input *in, const uint64_t *a, const uint8_t *before, const uint8_t *after)
{
    size_t i, records = count_records(&in->parts[STOPS_FILE]), named = 0;
    uint64_t stop = 0;
    (void)before, (void)after;
    if (!judge_question(a, 6))
        return;
    for (i = 0; i < records; i++)
        if (has_name(in, i)) {
            stop = field_value(&in->parts[STOPS_FILE], i, 0);
            named++;
        }
    must(a[0] == (named == 0 ? 23 : named == 1 ? 0 : 24), "stop: by how many have the name");
    must(a[5] == (named == 1 ? stop : named), "stop: its number, or how many they are");
}

void judge_stop_hinted(const struct input *in, const uint64_t *a, const uint8_t *before, const uint8_t *after)
{
    slovdrim_stop_answer plain;
    proved_stop(&plain, EACH_FILE(AT_START), LENT(NAME, AT_START), LENT(NAME + 1, AT_START), LENT(NAME + 2, AT_START));
    must(memcmp(&plain, a, sizeof plain) == 0, "stop_hinted: the plain answer");
    judge_stop(in, a, before, after);
}

/* The hint's maker, from version 4 of the interface on */

size_t order_room(const struct input *in)
{
    return in->room % (LONGEST_PART / 4 + 1);
}

#if SLOVDRIM_VERSION >= 4
/* The batch's refusals 1 to 6 and no others; then the list that this side makes, if there is room for it, and the rest as it was. */
void judge_order(const struct input *in, const uint64_t *answer, const uint8_t *before, const uint8_t *after)
{
    static struct part wanted;
    slovdrim_check_answer batch = verdict();
    slovdrim_order_answer a;
    size_t room = 4 * order_room(in), written = 0;
    memcpy(&a, answer, sizeof a);
    if (batch.number >= 1 && batch.number <= 6) {
        must(memcmp(&batch, answer, 5 * 8) == 0 && a.written == 0, "order: the batch's refusals 1 to 6");
    } else {
        right_order(in, &wanted);
        must(a.file == 0 && a.record == 0 && a.field == 0 && a.offset == 0, "order: no place of its own refusal");
        must(a.number == (room < wanted.length ? 22 : 0), "order: 22 exactly if there is no room");
        written = a.number == 0 ? wanted.length : 0;
        must(a.written == written / 4 && memcmp(wanted.bytes, after, written) == 0, "order: the starts of the records by key and place");
    }
    must(memcmp(before + written, after + written, room - written) == 0, "order: the rest of the list is as it was");
}
#endif
