/* Kinds of fields and the rules inside a record: document 01, "Fields"; refusals 5 and 6. Each field's value is kept for what comes after. */
#include <string.h>

#include "plain_batch.h"

enum how { DIGITS, TEXT, CHOICE, DATE, TIME };

struct kind {
    enum how how;
    unsigned required, least, most;
    const char *choice;
};

#define NUMBER {DIGITS, 1, 1, 9, NULL}
#define CODE_NUMBER {DIGITS, 1, 1, 5, NULL}
#define LINE {DIGITS, 1, 6, 6, NULL}
#define ICO {DIGITS, 1, 8, 8, NULL}
#define NUMBER_OR_NONE {DIGITS, 0, 1, 9, NULL}
#define CODE {DIGITS, 0, 1, 5, NULL}
#define THREE_DIGITS {DIGITS, 0, 3, 3, NULL}
#define GIVEN(most) {TEXT, 1, 1, most, NULL}
#define TEXT_TO(most) {TEXT, 0, 1, most, NULL}
#define ONE_OF(bytes) {CHOICE, 1, 1, 1, bytes}
#define NONE_OR(bytes) {CHOICE, 0, 1, 1, bytes}
#define GIVEN_DATE {DATE, 1, 8, 8, NULL}
#define DATE_OR_NONE {DATE, 0, 8, 8, NULL}
#define TIME_FIELD {TIME, 0, 1, 4, NULL}

static const struct kind kinds[FILES + 1][13] = {
    [ZASTAVKY] = {NUMBER, GIVEN(48), TEXT_TO(48), TEXT_TO(48), TEXT_TO(3), GIVEN(3), CODE, CODE, CODE, CODE, CODE, CODE},
    [PEVNYKOD] = {CODE_NUMBER, ONE_OF("X+1234567R#|<@%Wwx~I()${}[Ovs\xA7"), TEXT_TO(254)},
    [DOPRAVCI] = {ICO, TEXT_TO(14), GIVEN(254), ONE_OF("12"), TEXT_TO(254), GIVEN(254), GIVEN(48), TEXT_TO(48), TEXT_TO(48), TEXT_TO(48), TEXT_TO(48)},
    [LINKY] = {LINE, GIVEN(254), ICO, ONE_OF("ABMNPVWZ"), THREE_DIGITS, TEXT_TO(48), DATE_OR_NONE, DATE_OR_NONE, GIVEN_DATE, GIVEN_DATE},
    [SPOJE] = {LINE, NUMBER, CODE, CODE, CODE, CODE, CODE, CODE, CODE, CODE, CODE, CODE},
    [ZASLINKY] = {LINE, NUMBER, TEXT_TO(254), NUMBER, CODE, CODE, CODE},
    [ZASSPOJE] = {LINE, NUMBER, NUMBER, NUMBER, TEXT_TO(48), CODE, CODE, NUMBER_OR_NONE, TIME_FIELD, TIME_FIELD},
    [UDAJE] = {LINE, NUMBER, GIVEN(254)},
    [CASKODY] = {LINE, NUMBER, NUMBER, GIVEN(2), NONE_OR("12345678"), DATE_OR_NONE, DATE_OR_NONE, TEXT_TO(254)},
    [ALTDOP] = {LINE, NUMBER, ICO, CODE, CODE, CODE, CODE, CODE, CODE, NONE_OR("56"), TEXT_TO(254), DATE_OR_NONE, DATE_OR_NONE},
    [ALTLINKY] = {LINE, GIVEN(20), GIVEN(3)},
    [MISTENKY] = {LINE, NUMBER, GIVEN(254)},
};

/* The value of digits; NONE if there are others. */
static uint32_t digits(const uint8_t *p, size_t length)
{
    uint32_t n = 0;
    size_t i;
    for (i = 0; i < length; i++) {
        unsigned digit = p[i] - (unsigned)'0';
        if (digit > 9)
            return NONE;
        n = 10 * n + digit;
    }
    return n;
}

static int is_date(uint32_t day, uint32_t month, uint32_t year)
{
    static const uint8_t days[13] = {0, 31, 29, 31, 30, 31, 30, 31, 31, 30, 31, 30, 31};
    int leap = year % 4 == 0 && year != 1900;
    return year >= 1900 && year <= 2099 && month >= 1 && month <= 12 && day >= 1 && day <= days[month] && (month != 2 || day < 29 || leap);
}

/* DDMMRRRR. */
static uint32_t date(const uint8_t *p)
{
    uint32_t n = digits(p, 8), day = n / 1000000, month = n / 10000 % 100, year = n % 10000;
    return n != NONE && is_date(day, month, year) ? year * 10000 + month * 100 + day : NONE;
}

static uint32_t time_of(const uint8_t *p, size_t length)
{
    uint32_t n;
    if (length == 1)
        return *p == '|' ? BAR : *p == '<' ? ANGLE : NONE;
    n = length == 4 ? digits(p, 4) : NONE;
    return n < 2400 && n % 100 < 60 ? n / 100 * 60 + n % 100 : NONE;
}

/* The value of a text that isn't empty; NONE if it isn't of the kind. */
static uint32_t value_of(const struct kind *kind, const uint8_t *p, size_t length)
{
    if (length < kind->least || length > kind->most)
        return NONE;
    switch (kind->how) {
    case DIGITS:
        return digits(p, length);
    case CHOICE:
        return strchr(kind->choice, *p) != NULL ? *p : NONE;
    case DATE:
        return date(p);
    case TIME:
        return time_of(p, length);
    default:
        return (uint32_t)length;
    }
}

/* The first field that isn't of its kind; 0 if there is none. */
static unsigned wrong_kind(const struct table *table, const struct kind *kind, struct field *fields)
{
    unsigned f;
    for (f = 1; f <= table->width; f++, kind++) {
        struct plain_text text = text_of(table, fields, f);
        fields[f].value = text.length == 0 ? NONE : value_of(kind, text.at, text.length);
        if (fields[f].value == NONE && (text.length != 0 || kind->required))
            return f;
    }
    return 0;
}

/* A to-date needs a from-date and isn't before it. */
static int is_period(uint32_t from, uint32_t to)
{
    return to == NONE || (from != NONE && from <= to);
}

static int is_time_code(const struct table *table, const struct field *fields)
{
    struct plain_text mark = text_of(table, fields, 4);
    uint32_t number, type = fields[5].value, from = fields[6].value, to = fields[7].value;
    if (!is_period(from, to))
        return 0;
    if (type == NONE)
        return mark.length == 1 && strchr("OmM[p", mark.at[0]) != NULL;
    number = mark.length == 2 ? digits(mark.at, 2) : NONE;
    if (number < 10 || number > 79)
        return 0;
    switch (type) {
    case '1':
    case '4':
        return from != NONE;
    case '2':
    case '3':
        return from != NONE && to == NONE;
    case '5':
    case '6':
        return from == NONE && to == NONE;
    default:
        return from != NONE && to != NONE;
    }
}

static int is_trip_stop(const struct field *fields)
{
    uint32_t kilometres = fields[8].value, arrival = fields[9].value, departure = fields[10].value;
    int given = kilometres != NONE;
    if (departure == BAR)
        return given && (arrival == NONE || arrival == BAR);
    if (departure == ANGLE)
        return !given && (arrival == NONE || arrival == ANGLE);
    if (arrival != NONE && !is_time(arrival))
        return 0;
    return given == (arrival != NONE || departure != NONE);
}

static int is_alternative(const struct field *fields)
{
    unsigned f;
    if (!is_period(fields[12].value, fields[13].value))
        return 0;
    for (f = 4; f <= 10; f++)
        if (fields[f].value != NONE)
            return 1;
    return fields[12].value != NONE;
}

static int keeps_rules(const struct table *table, unsigned file, const struct field *fields)
{
    struct plain_text state;
    switch (file) {
    case ZASTAVKY:
        state = text_of(table, fields, 6);
        return fields[5].value != NONE || state.length != 2 || memcmp(state.at, "CZ", 2) != 0;
    case DOPRAVCI:
        return fields[4].value != '2' || fields[5].value != NONE;
    case LINKY:
        return (fields[7].value == NONE || fields[8].value == NONE || fields[7].value <= fields[8].value) && fields[9].value <= fields[10].value;
    case ZASSPOJE:
        return is_trip_stop(fields);
    case CASKODY:
        return is_time_code(table, fields);
    case ALTDOP:
        return is_alternative(fields);
    default:
        return 1;
    }
}

struct plain_answer plain_fields(struct plain_batch *batch)
{
    unsigned file, f;
    size_t r;
    for (file = ZASTAVKY; file <= FILES; file++) {
        struct table *table = &batch->tables[file];
        for (r = 0; r < table->records; r++) {
            struct field *fields = table->fields + r * table->width;
            f = wrong_kind(table, kinds[file], fields);
            if (f != 0)
                return refused(5, file, r + 1, f);
            if (!keeps_rules(table, file, fields))
                return refused(6, file, r + 1, 0);
        }
    }
    return (struct plain_answer){.number = 0};
}
