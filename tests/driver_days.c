/* The calendar's requests. A file of its own, so that the driver can be built before the archive has these calls. */
#include "driver.h"

#include <string.h>

#include "../host/slovdrim.h"

struct lent holidays;

static void day(void)
{
    uint64_t d = take_word(), m = take_word(), y = take_word(), answers[PLACINGS][WORDS];
    slovdrim_day_answer a;
    about_to("slovdrim_day", d, m, y, 0, NULL, 0);
    a = slovdrim_day(d, m, y);
    memcpy(answers[0], &a, sizeof a);
    give_answers(answers, 1, sizeof a / 8);
}

/* The three questions that take a day number alone, in one request. */
static void of_a_day(void)
{
    uint64_t d = take_word(), answers[PLACINGS][WORDS];
    slovdrim_date_answer date;
    slovdrim_weekday_answer weekday;
    slovdrim_week_answer week;
    about_to("slovdrim_date", d, 0, 0, 0, NULL, 0);
    date = slovdrim_date(d);
    memcpy(answers[0], &date, sizeof date);
    give_answers(answers, 1, sizeof date / 8);
    about_to("slovdrim_weekday", d, 0, 0, 0, NULL, 0);
    weekday = slovdrim_weekday(d);
    memcpy(answers[0], &weekday, sizeof weekday);
    give_answers(answers, 1, sizeof weekday / 8);
    about_to("slovdrim_week", d, 0, 0, 0, NULL, 0);
    week = slovdrim_week(d);
    memcpy(answers[0], &week, sizeof week);
    give_answers(answers, 1, sizeof week / 8);
}

static void holiday(void)
{
    uint64_t d = take_word(), answers[PLACINGS][WORDS];
    int i, n = placings(&holidays);
    for (i = 0; i < n; i++) {
        slovdrim_holiday_answer a;
        const uint8_t *list = lent_at(&holidays, i);
        about_to("slovdrim_holiday", d, 0, 0, i, list, holidays.length);
        a = slovdrim_holiday(d, (const uint64_t *)(const void *)list, holidays.length / 8);
        memcpy(answers[i], &a, sizeof a);
    }
    give_answers(answers, n, sizeof(slovdrim_holiday_answer) / 8);
}

static void fits(void)
{
    uint64_t sign = take_word(), d = take_word(), answers[PLACINGS][WORDS];
    int i, n = placings(&holidays);
    for (i = 0; i < n; i++) {
        slovdrim_fits_answer a;
        const uint8_t *list = lent_at(&holidays, i);
        about_to("slovdrim_fits", sign, d, 0, i, list, holidays.length);
        a = slovdrim_fits((uint8_t)sign, d, (const uint64_t *)(const void *)list, holidays.length / 8);
        memcpy(answers[i], &a, sizeof a);
    }
    give_answers(answers, n, sizeof(slovdrim_fits_answer) / 8);
}

int days_request(uint8_t letter)
{
    if (holidays.rooms[0].own == NULL)
        open_lent(&holidays, 0);
    switch (letter) {
    case 'd':
        day();
        return 1;
    case 't':
        of_a_day();
        return 1;
    case 'l':
        lend(&holidays, 8 * take_word());
        return 1;
    case 'h':
        holiday();
        return 1;
    case 'f':
        fits();
        return 1;
    }
    return 0;
}
