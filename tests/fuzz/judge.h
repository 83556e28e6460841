/* What slovdrim.h says of the answers of each call, held against what came out. The judges know the format by themselves, or ask other calls. */
#ifndef SLOVDRIM_FUZZ_JUDGE_H
#define SLOVDRIM_FUZZ_JUDGE_H

#include "input.h"

/* Says what is wrong and ends the run; libFuzzer keeps the input. */
void must(int holds, const char *what);

/* The words of the answer; for the two calls that write, what was lent before and what stands there after. */
typedef void judge(const struct input *in, const uint64_t *answer, const uint8_t *before, const uint8_t *after);

judge judge_records, judge_stretch, judge_write, judge_fields, judge_check, judge_check_hinted, judge_runs, judge_trip_stop, judge_sale, judge_sale_hinted, judge_sales,
    judge_stop, judge_stop_hinted, judge_order, judge_version, judge_day, judge_date, judge_weekday, judge_week, judge_holiday, judge_fits;

/* How many bytes the buffer of slovdrim_write has, and how many numbers the lists of slovdrim_sales and slovdrim_order. */
size_t buffer_room(const struct input *in);
size_t list_room(const struct input *in);
size_t order_room(const struct input *in);

/* The file that a call on one file is lent: that of its number, or another if there is none of that number. */
int asked_file(const struct input *in);

#define LENT(part, where) lent_part(part, where), lent_length(part)
#define EACH_FILE(w)                                                                                                                                         \
    LENT(0, w), LENT(1, w), LENT(2, w), LENT(3, w), LENT(4, w), LENT(5, w), LENT(6, w), LENT(7, w), LENT(8, w), LENT(9, w), LENT(10, w), LENT(11, w), LENT(12, w)
#define LIST(type, part, where) (const type *)(const void *)lent_part(part, where), lent_length(part) / sizeof(type)

#endif
