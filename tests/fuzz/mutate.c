/* Changes to an input by somebody who knows the format: most leave a file legal, and many leave a batch standing, so that what comes after the first test is
   reached. The fuzzer's own changes of bytes are among them. */
#include "input.h"

#include <string.h>

size_t LLVMFuzzerMutate(uint8_t *bytes, size_t length, size_t room);

/* Chance, from a seed alone. */
static uint64_t state;

static uint64_t next(void)
{
    state ^= state << 13;
    state ^= state >> 7;
    state ^= state << 17;
    return state * 0x2545f4914f6cdd1du;
}

static void begin(unsigned seed)
{
    state = (seed + 1) * 0x9e3779b97f4a7c15u | 1;
}

static size_t below(size_t n)
{
    return n == 0 ? 0 : (size_t)((next() >> 16) % n);
}

/* Texts of fields: numbers at the edges of their kinds, dates, times, signs, marks, states; and what stands between fields. */
static const char *const texts[] = {
    "", "0", "00", "1", "01", "2", "3", "4", "5", "6", "7", "8", "9", "10", "11", "19", "79", "80", "99999", "999999999", "1000000000", "790123", "790124", "101", "106",
    "01012001", "29022000", "29022001", "31121999", "10062001", "08062002", "01011900", "31122099", "01012100", "24122001", "31082001", "0000", "0609", "0610", "2359",
    "2400", "1260", "|", "<", "X", "+", "R", "#", "@", "%", "W", "w", "x", "~", "I", "(", ")", "$", "{", "}", "[", "O", "v", "s", "\xa7", "m", "M", "p", "CZ", "A", "Z", "N",
    "00012345", "00054321", "1.8", "1.9", "TR", "a\"b", "\"", "\xe8", "\x81", "\x7f", "\t", "\",\"", "\";\r\n", "\"\"", ";", ",", "\r\n", "\n",
};

/* Numbers that a careless comparison or sum gets wrong. */
static const uint64_t edges[] = {0, 1, 2, 12, 13, 14, 29, 31, 1439, 1900, 2001, 2099, 73048, 73049, 16777215, 16777216, 0xffffffff, 0x100000000, 0x7fffffffffffffff, 0x8000000000000000, UINT64_MAX - 4, UINT64_MAX};

static struct part *any_file(struct input *in)
{
    /* The larger files have more to change. */
    static const uint8_t often[] = {1, 2, 4, 5, 5, 6, 6, 7, 7, 7, 7, 8, 9, 9, 9, 10, 11, 12};
    return &in->parts[below(4) == 0 ? below(FILES) : often[below(sizeof often)]];
}

static void put_text(struct part *part, struct span s, const char *text)
{
    splice(part, s.at, s.length, (const uint8_t *)text, strlen(text));
}

static void put_number(struct part *part, struct span s, uint64_t number)
{
    char digits[21];
    size_t at = sizeof digits;
    do
        digits[--at] = (char)('0' + number % 10);
    while ((number /= 10) > 0);
    splice(part, s.at, s.length, (const uint8_t *)digits + at, sizeof digits - at);
}

/* Fields */

static void change_field(struct input *in)
{
    struct part *file = any_file(in), *other = any_file(in);
    size_t which = (size_t)(file - in->parts), record = below(count_records(file)), field = below(fields_of_file[which]);
    struct span s = field_span(file, record, field), t;
    switch (below(6)) {
    case 0:
        put_text(file, s, texts[below(sizeof texts / sizeof *texts)]);
        break;
    case 1: /* the same field of another record */
        t = field_span(file, below(count_records(file)), field);
        splice(file, s.at, s.length, file->bytes + t.at, t.length);
        break;
    case 2: /* a field of another file, as a link has it */
        t = field_span(other, below(count_records(other)), below(3));
        splice(file, s.at, s.length, other->bytes + t.at, t.length);
        break;
    case 3:
        put_number(file, s, field_value(file, record, field) + (below(2) == 0 ? 1 : UINT64_MAX));
        break;
    case 4:
        put_text(file, s, "");
        break;
    default:
        put_text(file, (struct span){s.at + below(s.length + 1), 0}, texts[below(sizeof texts / sizeof *texts)]);
    }
}

/* Records */

static void copy_record(struct part *file, size_t from, size_t to)
{
    static uint8_t copy[LONGEST_PART];
    struct span s = record_span(file, from);
    memcpy(copy, file->bytes + s.at, s.length);
    splice(file, record_span(file, to).at, 0, copy, s.length);
}

static void swap_records(struct part *file, size_t records)
{
    size_t one = below(records), two = below(records);
    struct span s;
    copy_record(file, one, two);
    s = record_span(file, one < two ? one : one + 1);
    splice(file, s.at, s.length, NULL, 0);
}

/* A record more whose key is one higher, as a file grows. */
static void add_record(struct input *in)
{
    struct part *file = any_file(in);
    size_t which = (size_t)(file - in->parts), records = count_records(file), from = below(records), key = keys_of_file[which];
    copy_record(file, from, below(2) == 0 ? from + 1 : records);
    if (key > 0)
        put_number(file, field_span(file, from + 1, key - 1), field_value(file, from, key - 1) + 1 + below(3));
}

static void change_records(struct input *in)
{
    struct part *file = any_file(in);
    size_t records = count_records(file), i;
    struct span s = record_span(file, below(records));
    switch (below(4)) {
    case 0:
        splice(file, s.at, s.length, NULL, 0);
        break;
    case 1:
        copy_record(file, below(records), below(records + 1));
        break;
    case 2:
        swap_records(file, records);
        break;
    default: /* an office that saves in another order */
        for (i = 0; i < records && i < 40; i++)
            swap_records(file, records);
    }
}

/* Bytes */

static void change_bytes(struct input *in)
{
    struct part *file = any_file(in);
    size_t at = below(file->length + 1);
    switch (below(4)) {
    case 0:
        file->length = LLVMFuzzerMutate(file->bytes, file->length, LONGEST_PART);
        break;
    case 1:
        put_text(file, (struct span){at, 0}, texts[below(sizeof texts / sizeof *texts)]);
        break;
    case 2:
        file->length = at;
        break;
    default:
        if (at < file->length)
            file->bytes[at] = (uint8_t)next();
    }
}

/* Questions */

/* Line, trip and tariff numbers that the batch has. */
static void aim(struct input *in)
{
    const struct part *calls = &in->parts[7];
    size_t records = count_records(calls), from = below(records), to = from + below(6);
    if (records == 0)
        return;
    in->numbers[LINE] = field_value(calls, from, 0);
    in->numbers[TRIP] = field_value(calls, from, 1);
    in->numbers[FROM] = field_value(calls, from, 2);
    in->numbers[TO] = field_value(calls, to < records ? to : records - 1, 2);
    if (in->numbers[TRIP] % 2 == 0 && below(2) == 0) {
        uint64_t swapped = in->numbers[FROM];
        in->numbers[FROM] = in->numbers[TO];
        in->numbers[TO] = swapped;
    }
}

/* A day near the time in which the lines of the samples run. */
static void aim_day(struct input *in)
{
    in->numbers[DAY] = 1 + below(31);
    in->numbers[MONTH] = 1 + below(12);
    in->numbers[YEAR] = 2001 + below(2);
    in->numbers[DAY_NUMBER] = 36889 + below(730);
}

static void change_number(struct input *in)
{
    uint64_t *number = &in->numbers[below(NUMBERS)];
    const struct part *file = any_file(in);
    switch (below(5)) {
    case 0:
        *number = edges[below(sizeof edges / sizeof *edges)];
        break;
    case 1:
        *number += below(2) == 0 ? 1 : UINT64_MAX;
        break;
    case 2:
        *number += edges[below(sizeof edges / sizeof *edges)];
        break;
    case 3:
        *number = below(16);
        break;
    default:
        *number = field_value(file, below(count_records(file)), below(4));
    }
}

/* The name of a stop, or a part of one changed. */
static void change_name(struct input *in)
{
    const struct part *stops = &in->parts[1];
    size_t record = below(count_records(stops)), i;
    struct part *part = &in->parts[NAME + below(3)];
    if (below(3) == 0) {
        part->length = LLVMFuzzerMutate(part->bytes, part->length, 64);
        return;
    }
    for (i = 0; i < 3; i++) {
        struct span s = field_span(stops, record, 1 + i);
        in->parts[NAME + i].length = 0;
        splice(&in->parts[NAME + i], 0, 0, stops->bytes + s.at, s.length);
    }
}

static void change_text(struct input *in)
{
    struct part *file = any_file(in), *text = &in->parts[TEXT];
    struct span s = field_span(file, below(count_records(file)), below(fields_of_file[file - in->parts]));
    if (below(2) == 0) {
        text->length = LLVMFuzzerMutate(text->bytes, text->length, 300);
    } else {
        text->length = 0;
        splice(text, 0, 0, file->bytes + s.at, s.length);
    }
}

/* Lists */

static void add_question(struct input *in)
{
    struct part *asked = &in->parts[ASKED];
    aim(in);
    if (below(2) == 0)
        aim_day(in);
    if (below(3) == 0)
        change_number(in);
    splice(asked, asked->length, 0, (const uint8_t *)in->numbers, 7 * 8);
    if (below(3) > 0)
        in->room = (uint16_t)(asked->length / 56 * 3 + below(3));
}

static void change_list(struct input *in)
{
    struct part *list = &in->parts[HOLIDAYS + below(3)];
    size_t width = list == &in->parts[ORDER] ? 4 : 8, at = below(list->length / width + 1) * width;
    uint64_t number = below(2) == 0 ? edges[below(sizeof edges / sizeof *edges)] : in->numbers[below(NUMBERS)];
    switch (below(5)) {
    case 0:
        splice(list, at, 0, (const uint8_t *)&number, width);
        break;
    case 1:
        splice(list, at, at < list->length ? width : 0, NULL, 0);
        break;
    case 2:
        list->length = at;
        break;
    case 3:
        if (at < list->length)
            splice(list, at, width, (const uint8_t *)&number, width);
        break;
    default:
        list->length = LLVMFuzzerMutate(list->bytes, list->length, 800);
    }
}

/* The right hint, or one that is right but for a number, or for its end. */
static void change_order(struct input *in)
{
    struct part *order = &in->parts[ORDER];
    size_t at;
    uint32_t number = below(2) == 0 ? (uint32_t)next() : (uint32_t)below(2000);
    right_order(in, order);
    at = below(order->length / 4) * 4;
    switch (below(6)) {
    case 0:
        splice(order, at, order->length > at ? 4 : 0, (const uint8_t *)&number, 4);
        break;
    case 1:
        order->length = at;
        break;
    case 2:
        splice(order, at, 0, order->bytes, order->length > at ? 4 : 0);
        break;
    }
}

/* As much room as is needed, or nearly. */
static void change_room(struct input *in)
{
    static struct part order;
    size_t room;
    switch (below(4)) {
    case 0:
        room = below(600);
        break;
    case 1: /* the writer */
        room = in->parts[TEXT].length + 5 + in->numbers[PLACE] % 300;
        break;
    case 2: /* the answers of many sales */
        room = in->parts[ASKED].length / 56 * 3;
        break;
    default:
        right_order(in, &order);
        room = order.length / 4;
    }
    room += below(4);
    in->room = (uint16_t)(room > 2 ? room - 2 : 0);
}

/* Batches that stood, to begin from: far more inputs fall at the first tests than come to the last. */
enum { KEPT = 64 };
static struct part kept[KEPT][FILES];
static size_t kept_count;

static void take_files(struct part *to, const struct part *from)
{
    size_t i;
    for (i = 0; i < FILES; i++) {
        to[i].length = from[i].length;
        memcpy(to[i].bytes, from[i].bytes, from[i].length);
    }
}

void keep_standing(const struct input *in)
{
    take_files(kept[kept_count++ % KEPT], in->parts);
}

static void begin_standing(struct input *in)
{
    if (kept_count > 0)
        take_files(in->parts, kept[below(kept_count < KEPT ? kept_count : KEPT)]);
}

/* Changes of the question leave the batch as it is. One that stands then stands, and the question is reached. */
typedef void change_of(struct input *in);
static change_of *const of_files[] = {change_field, change_field, change_field, change_field, add_record, add_record, change_records, change_bytes};
static change_of *const of_questions[] = {aim, aim, aim_day, aim_day, change_number, change_number, change_name, change_text, add_question, change_list, change_list, change_order, change_order, change_order, change_room};

void change(struct input *in, unsigned seed)
{
    size_t i, times;
    begin(seed);
    if (below(3) == 0)
        begin_standing(in);
    times = below(2) == 0 ? 0 : 1 + below(below(4) == 0 ? 6 : 2);
    for (i = 0; i < times; i++)
        of_files[below(sizeof of_files / sizeof *of_files)](in);
    times = times > 0 ? below(3) : 1 + below(4);
    for (i = 0; i < times; i++)
        of_questions[below(sizeof of_questions / sizeof *of_questions)](in);
    if (below(3) == 0)
        in->call = (uint8_t)next();
    if (below(5) == 0)
        in->choices = (uint8_t)next();
}

static void take_part(struct input *in, const struct input *other, size_t part)
{
    in->parts[part].length = other->parts[part].length;
    memcpy(in->parts[part].bytes, other->parts[part].bytes, other->parts[part].length);
}

/* Files of two batches seldom fit together: one file of the other, or none. */
void cross(struct input *in, const struct input *other, unsigned seed)
{
    size_t i;
    begin(seed);
    if (below(3) == 0)
        take_part(in, other, below(FILES));
    for (i = FILES; i < PARTS; i++)
        if (below(3) == 0)
            take_part(in, other, i);
    for (i = 0; i < NUMBERS; i++)
        if (below(4) == 0)
            in->numbers[i] = other->numbers[i];
}
