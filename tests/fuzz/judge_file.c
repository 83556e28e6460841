/* The calls on one file, the writer, and the calendar. */
#include <string.h>

#include "judge.h"
#include "lend.h"
#include "proved.h"

int asked_file(const struct input *in)
{
    return (int)((in->numbers[FILE_NUMBER] + FILES - 1) % FILES);
}

static int is_file(const struct input *in)
{
    return in->numbers[FILE_NUMBER] >= 1 && in->numbers[FILE_NUMBER] <= FILES;
}

/* One file's own refusals 1 to 3, or that it names nothing; 1 if it is legal. */
static int judge_bytes(const struct input *in, uint64_t number, uint64_t file, uint64_t offset)
{
    size_t length = lent_length(asked_file(in));
    if (!is_file(in)) {
        must(number == 20 && file == 0 && offset == 0, "a file that there isn't is refused with 20");
        return 0;
    }
    must((number == 1) == (length > SLOVDRIM_LONGEST), "a file is too long exactly if it is");
    must(number != 2 || offset < length, "the byte that isn't legal is one of the file");
    must(number != 3 || offset == length, "a file that ends inside a record ends at its length");
    must(number == 2 || number == 3 || offset == 0, "no offset but with 2 and 3");
    must(number != 1 && number != 2 && number != 3 ? 1 : file == in->numbers[FILE_NUMBER], "the file that is refused is the one that was lent");
    return number != 1 && number != 2 && number != 3;
}

void judge_records(const struct input *in, const uint64_t *a, const uint8_t *before, const uint8_t *after)
{
    (void)before, (void)after;
    must(a[0] <= 3 || a[0] == 20, "records: 0 to 3 or 20");
    must(a[2] == 0 && a[3] == 0, "records: no record and no field");
    if (judge_bytes(in, a[0], a[1], a[4]))
        must(a[1] == 0 && a[5] == count_records(&in->parts[asked_file(in)]), "records: as many as LF");
    else
        must(a[5] == 0, "records: none with a refusal");
}

void judge_stretch(const struct input *in, const uint64_t *a, const uint8_t *before, const uint8_t *after)
{
    const struct part *file = &in->parts[asked_file(in)];
    uint64_t record = in->numbers[RECORD], field = in->numbers[FIELD];
    (void)before, (void)after;
    must(a[0] <= 3 || a[0] == 20, "stretch: 0 to 3 or 20");
    must(a[2] == 0 && a[3] == 0 && (a[0] == 0 || (a[5] == 0 && a[6] == 0)), "stretch: nothing with a refusal");
    if (judge_bytes(in, a[0], a[1], a[4])) {
        int there = record >= 1 && record <= count_records(file) && field >= 1 && field <= fields_of_file[asked_file(in)];
        must(a[1] == 0 && a[0] == (there ? 0 : 20), "stretch: answered if there is the field");
        if (there) {
            struct span s = field_span(file, record - 1, field - 1);
            must(a[5] == s.at && a[6] == s.length, "stretch: the text between its quotes");
        }
    }
}

void judge_fields(const struct input *in, const uint64_t *a, const uint8_t *before, const uint8_t *after)
{
    (void)before, (void)after;
    must(a[0] <= 3 || a[0] == 5 || a[0] == 6 || a[0] == 20, "fields: 0 to 3, 5, 6 or 20");
    if (!judge_bytes(in, a[0], a[1], a[4])) {
        must(a[2] == 0 && a[3] == 0, "fields: no record of a file that isn't legal");
        return;
    }
    must(a[0] == 0 || (a[1] == in->numbers[FILE_NUMBER] && a[1] != 1), "fields: the file that was lent, and not the first");
    must(a[0] == 0 ? a[2] == 0 : a[2] >= 1 && a[2] <= count_records(&in->parts[asked_file(in)]), "fields: a record of the file");
    must(a[0] == 5 ? a[3] >= 1 && a[3] <= fields_of_file[asked_file(in)] : a[3] == 0, "fields: a field of the record");
}

/* The writer */

static int permitted(const uint8_t *text, size_t length)
{
    size_t i;
    for (i = 0; i < length; i++) {
        uint8_t b = text[i];
        if (b < 32 || b == 127 || b == 0x81 || b == 0x83 || b == 0x88 || b == 0x90 || b == 0x98)
            return 0;
        if (b == '"' && i + 1 < length && (text[i + 1] == ',' || text[i + 1] == ';'))
            return 0;
    }
    return 1;
}

size_t buffer_room(const struct input *in)
{
    return in->room % (LONGEST_PART + 1);
}

void judge_write(const struct input *in, const uint64_t *a, const uint8_t *before, const uint8_t *after)
{
    static uint8_t wanted[LONGEST_PART];
    const struct part *text = &in->parts[TEXT];
    uint64_t field = in->numbers[FIELD], place = in->numbers[PLACE], room = buffer_room(in), number = 0;
    int last = is_file(in) && field == fields_of_file[asked_file(in)];
    size_t need = text->length + (last ? 5 : 3);
    if (!is_file(in) || field < 1 || field > fields_of_file[asked_file(in)])
        number = 20;
    else if (!permitted(text->bytes, text->length))
        number = 21;
    else if (place >= room || room - place < need)
        number = 22;
    memcpy(wanted, before, room);
    if (number == 0) {
        wanted[place] = '"';
        memcpy(wanted + place + 1, text->bytes, text->length);
        memcpy(wanted + place + 1 + text->length, last ? "\";\r\n" : "\",", need - text->length - 1);
    }
    must(a[0] == number && a[1] == (number == 0 ? place + need : 0), "write: the number and the place");
    must(memcmp(wanted, after, room) == 0, "write: every byte of the buffer");
}

/* Days */

static int is_holiday(const struct input *in, uint64_t day)
{
    const struct part *list = &in->parts[HOLIDAYS];
    size_t i;
    for (i = 0; i + 8 <= list->length; i += 8)
        if (memcmp(list->bytes + i, &day, 8) == 0)
            return 1;
    return 0;
}

/* Of a call on a day number: refused with 12 exactly past the last day. 1 if it is answered. */
static int judge_day_number(const struct input *in, const uint64_t *a, size_t words)
{
    size_t i;
    must(a[0] == (in->numbers[DAY_NUMBER] > SLOVDRIM_LAST_DAY ? 12 : 0), "days: 12 exactly past the last");
    for (i = 1; a[0] != 0 && i < words; i++)
        must(a[i] == 0, "days: nothing with a refusal");
    return a[0] == 0;
}

void judge_day(const struct input *in, const uint64_t *a, const uint8_t *before, const uint8_t *after)
{
    static const unsigned length[] = {31, 28, 31, 30, 31, 30, 31, 31, 30, 31, 30, 31};
    uint64_t d = in->numbers[DAY], m = in->numbers[MONTH], y = in->numbers[YEAR];
    int real = y >= 1900 && y <= 2099 && m >= 1 && m <= 12 && d >= 1 && d <= length[m - 1] + (m == 2 && y % 4 == 0 && y != 1900);
    slovdrim_date_answer date;
    (void)before, (void)after;
    must(a[0] == (real ? 0 : 12) && (real || a[1] == 0), "day: answered if the date is real");
    proved_date(&date, a[1]);
    must(!real || (date.number == 0 && date.day == d && date.month == m && date.year == y), "day: date is its inverse");
}

void judge_date(const struct input *in, const uint64_t *a, const uint8_t *before, const uint8_t *after)
{
    slovdrim_day_answer day = proved_day(a[1], a[2], a[3]);
    (void)before, (void)after;
    if (judge_day_number(in, a, 4))
        must(day.number == 0 && day.day == in->numbers[DAY_NUMBER], "date: day is its inverse");
}

void judge_weekday(const struct input *in, const uint64_t *a, const uint8_t *before, const uint8_t *after)
{
    (void)before, (void)after;
    if (judge_day_number(in, a, 2))
        must(a[1] == in->numbers[DAY_NUMBER] % 7 + 1, "weekday: day 0 is a Monday");
}

/* The week of a day is that of its Thursday, and the Thursdays of a year are numbered from 1. */
void judge_week(const struct input *in, const uint64_t *a, const uint8_t *before, const uint8_t *after)
{
    uint64_t day = in->numbers[DAY_NUMBER], thursday = day - day % 7 + 3;
    slovdrim_date_answer date;
    (void)before, (void)after;
    if (!judge_day_number(in, a, 3))
        return;
    must(a[1] >= 1 && a[1] <= 53 && a[2] == a[1] % 2, "week: 1 to 53, odd or even");
    proved_date(&date, thursday);
    if (date.number == 0)
        must(a[1] == (thursday - proved_day(1, 1, date.year).day) / 7 + 1, "week: by its Thursday");
}

void judge_holiday(const struct input *in, const uint64_t *a, const uint8_t *before, const uint8_t *after)
{
    (void)before, (void)after;
    if (judge_day_number(in, a, 2))
        must(a[1] == (uint64_t)is_holiday(in, in->numbers[DAY_NUMBER]), "holiday: in the list or not");
}

void judge_fits(const struct input *in, const uint64_t *a, const uint8_t *before, const uint8_t *after)
{
    uint64_t day = in->numbers[DAY_NUMBER], weekday = day % 7 + 1;
    int fits, sign = in->choices, holiday = is_holiday(in, day);
    (void)before, (void)after;
    fits = sign == 'X' ? weekday <= 5 && !holiday : sign == '+' ? weekday == 7 || holiday : sign >= '1' && sign <= '7' && weekday == (uint64_t)(sign - '0');
    if (judge_day_number(in, a, 2))
        must(a[1] == (uint64_t)fits, "fits: as the sign says");
}

void judge_version(const struct input *in, const uint64_t *a, const uint8_t *before, const uint8_t *after)
{
    (void)in, (void)before, (void)after;
    must(a[0] == SLOVDRIM_VERSION, "version: the header's");
}
