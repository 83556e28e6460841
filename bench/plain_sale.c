/* The sale and the stop by its name: document 01, "Days", "A trip's stops" and the refusals 12 to 19, 23 and 24. */
#include <string.h>

#include "plain_batch.h"

/* Day 0 is 1 January 1900, a Monday. */
static uint32_t day_number(uint32_t day, uint32_t month, uint32_t year)
{
    static const uint16_t before[13] = {0, 0, 31, 59, 90, 120, 151, 181, 212, 243, 273, 304, 334};
    uint32_t years = year - 1900, leaps = years == 0 ? 0 : (years - 1) / 4; /* 1900 had no 29 February */
    return 365 * years + leaps + before[month] + (month > 2 && year % 4 == 0 && year != 1900) + day - 1;
}

static int is_date(const struct plain_question *q)
{
    static const uint8_t days[13] = {0, 31, 28, 31, 30, 31, 30, 31, 31, 30, 31, 30, 31};
    if (q->year < 1900 || q->year > 2099 || q->month < 1 || q->month > 12 || q->day < 1)
        return 0;
    return q->day <= days[q->month] + (uint64_t)(q->month == 2 && q->year % 4 == 0 && q->year != 1900);
}

/* Whether the ISO week of a day is odd. A week is its Thursday's. */
static int odd_week(uint32_t day, uint32_t year)
{
    uint32_t thursday = day - day % 7 + 3;
    if (thursday < day_number(1, 1, year))
        year--;
    else if (year < 2099 && thursday >= day_number(1, 1, year + 1))
        year++;
    if (year < 1900)
        return 1; /* no day of 1900 is in a week of 1899: day 0 is a Monday */
    return (thursday - day_number(1, 1, year)) / 7 % 2 == 0;
}

struct today {
    uint32_t date; /* YYYYMMDD */
    uint32_t weekday;
    int holiday, odd;
};

static struct today today_of(const struct plain_question *q, const uint64_t *holidays, size_t count)
{
    uint32_t day = day_number((uint32_t)q->day, (uint32_t)q->month, (uint32_t)q->year);
    struct today today = {(uint32_t)(q->year * 10000 + q->month * 100 + q->day), day % 7 + 1, 0, odd_week(day, (uint32_t)q->year)};
    size_t i;
    for (i = 0; i < count; i++)
        today.holiday |= holidays[i] == day;
    return today;
}

static int sign_fits(uint8_t sign, const struct today *today)
{
    if (sign == 'X')
        return today->weekday <= 5 && !today->holiday;
    if (sign == '+')
        return today->weekday == 7 || today->holiday;
    return sign - '0' == (int)today->weekday;
}

/* The trip has no day sign, or one that fits. */
static int signs_fit(const struct plain_batch *batch, const struct field *trip, const struct today *today)
{
    int any = 0;
    unsigned f;
    for (f = 3; f <= 12; f++) {
        uint8_t sign = trip[f].value == NONE ? 0 : plain_sign(batch, trip[f].value);
        if (sign == 0 || strchr("X+1234567", sign) == NULL)
            continue;
        if (sign_fits(sign, today))
            return 1;
        any = 1;
    }
    return !any;
}

static int runs(const struct plain_batch *batch, size_t t, const struct field *trip, const struct today *today)
{
    const struct field *line = plain_find(batch, LINKY, 0, trip[1].value);
    unsigned has = 0, holds = 0; /* a bit for each type: a record of it, and one whose period holds the day */
    uint32_t i;
    if (today->date < line[9].value || today->date > line[10].value)
        return 0;
    for (i = batch->codes.begins[t]; i < batch->codes.begins[t + 1]; i++) {
        const struct field *code = fields_of(&batch->tables[CASKODY], batch->codes.rows[i]);
        uint32_t from = code[6].value, to = code[7].value != NONE ? code[7].value : from;
        unsigned bit;
        if (code[5].value == NONE)
            continue;
        bit = 1u << (code[5].value - '0');
        has |= bit;
        if (from == NONE || (from <= today->date && today->date <= to))
            holds |= bit;
    }
    if ((has & 1u << 3) != 0)
        return (holds & 1u << 3) != 0;
    if ((holds & 1u << 4) != 0)
        return 0;
    if ((holds & 1u << 2) != 0)
        return 1;
    /* every other type that it has must hold the day, and the week must be as it says */
    if ((has & ~holds & (1u << 1 | 1u << 7 | 1u << 8)) != 0)
        return 0;
    if ((has & (1u << 5 | 1u << 7)) != 0 && !today->odd)
        return 0;
    if ((has & (1u << 6 | 1u << 8)) != 0 && today->odd)
        return 0;
    return signs_fit(batch, trip, today);
}

enum { ONLY_OUT = 1, ONLY_IN = 2, BORDER = 4, CLOSED = 8 };

static unsigned signs_of(const struct plain_batch *batch, const struct field *fields, unsigned from, unsigned to, int *any)
{
    unsigned signs = 0, f;
    for (f = from; f <= to; f++) {
        uint8_t sign = fields[f].value == NONE ? 0 : plain_sign(batch, fields[f].value);
        *any |= sign != 0;
        signs |= sign == '(' ? ONLY_OUT : sign == ')' ? ONLY_IN : sign == '$' ? BORDER : sign == 0xA7 ? CLOSED : 0;
    }
    return signs;
}

/* The signs of a trip's stop: its own, or else its line's; the line's $ in any case. */
static unsigned stop_signs(const struct plain_batch *batch, const struct field *stop)
{
    const struct field *of_line = plain_find(batch, ZASLINKY, stop[1].value, stop[3].value);
    int any = 0, unused = 0;
    unsigned own = signs_of(batch, stop, 6, 7, &any), others = signs_of(batch, of_line, 5, 7, &unused);
    return any ? own | (others & BORDER) : others;
}

/* Where in travel order the stop with a tariff number is; the end if it isn't. */
static uint32_t place_of(const struct plain_batch *batch, size_t t, uint64_t tariff)
{
    uint32_t i = batch->stops.begins[t], end = batch->stops.begins[t + 1];
    while (i < end && fields_of(&batch->tables[ZASSPOJE], batch->stops.rows[i])[3].value != tariff)
        i++;
    return i;
}

/* 16 to 19, or the sale. */
static struct plain_sold between(const struct plain_batch *batch, uint32_t here, uint32_t there)
{
    const struct table *stops = &batch->tables[ZASSPOJE];
    const struct field *first = fields_of(stops, batch->stops.rows[here]), *second = fields_of(stops, batch->stops.rows[there]);
    unsigned signs, others;
    if (here >= there)
        return (struct plain_sold){16, 0, 0};
    signs = stop_signs(batch, first);
    if (!is_time(first[10].value) || (signs & (ONLY_OUT | BORDER)) != 0)
        return (struct plain_sold){17, 0, 0};
    others = stop_signs(batch, second);
    if ((!is_time(second[9].value) && !is_time(second[10].value)) || (others & (ONLY_IN | BORDER)) != 0)
        return (struct plain_sold){18, 0, 0};
    if ((signs & others & CLOSED) != 0)
        return (struct plain_sold){19, 0, 0};
    return (struct plain_sold){0, first[10].value, is_time(second[9].value) ? second[9].value : second[10].value};
}

struct plain_sold plain_sale(const struct plain_batch *batch, const uint64_t *holidays, size_t holiday_count, const struct plain_question *q)
{
    const struct field *trip;
    struct today today;
    uint32_t here, there, end;
    size_t t;
    if (!is_date(q))
        return (struct plain_sold){12, 0, 0};
    trip = q->line > 999999 || q->trip > 999999999 ? NULL : plain_find(batch, SPOJE, q->line, q->trip);
    if (trip == NULL)
        return (struct plain_sold){13, 0, 0};
    t = (size_t)(trip - batch->tables[SPOJE].fields) / batch->tables[SPOJE].width;
    here = place_of(batch, t, q->from);
    there = place_of(batch, t, q->to);
    end = batch->stops.begins[t + 1];
    if (here == end || there == end)
        return (struct plain_sold){14, 0, 0};
    today = today_of(q, holidays, holiday_count);
    if (!runs(batch, t, trip, &today))
        return (struct plain_sold){15, 0, 0};
    return between(batch, here, there);
}

uint64_t plain_stop(const struct plain_batch *batch, const struct plain_text name[3], uint64_t *value)
{
    const struct table *stops = &batch->tables[ZASTAVKY];
    uint64_t found = 0, number = 0;
    size_t r;
    unsigned i;
    for (r = 0; r < stops->records; r++) {
        const struct field *fields = fields_of(stops, r);
        for (i = 0; i < 3; i++) {
            struct plain_text text = text_of(stops, fields, i + 2);
            if (text.length != name[i].length || (text.length != 0 && memcmp(text.at, name[i].at, text.length) != 0))
                break;
        }
        if (i == 3) {
            found++;
            number = fields[1].value;
        }
    }
    *value = found == 1 ? number : found;
    return found == 0 ? 23 : found == 1 ? 0 : 24;
}
