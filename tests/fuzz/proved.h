/* The library's calls in the proved code compiled for this machine (bench/native): a result that x86-64 returns through memory is filled in by the place that
   comes as the first argument. On x86-64 that is how a struct is returned, so it is the same there; and so the place of the answer can be lent like the rest. */
#ifndef SLOVDRIM_FUZZ_PROVED_H
#define SLOVDRIM_FUZZ_PROVED_H

#ifndef SLOVDRIM_OTHER_MACHINE
#define SLOVDRIM_OTHER_MACHINE
#endif
#include "../../host/slovdrim.h"

#define BYTES const uint8_t *, size_t
#define BATCH BYTES, BYTES, BYTES, BYTES, BYTES, BYTES, BYTES, BYTES, BYTES, BYTES, BYTES, BYTES, BYTES
#define HINT const uint32_t *, size_t
#define DAYS const uint64_t *, size_t
#define SEVEN uint64_t, uint64_t, uint64_t, uint64_t, uint64_t, uint64_t, uint64_t

void proved_records(slovdrim_records_answer *, uint64_t, BYTES) __asm__("slovdrim_records");
void proved_stretch(slovdrim_stretch_answer *, uint64_t, BYTES, uint64_t, uint64_t) __asm__("slovdrim_stretch");
void proved_fields(slovdrim_fields_answer *, uint64_t, BYTES) __asm__("slovdrim_fields");
void proved_check(slovdrim_check_answer *, BATCH) __asm__("slovdrim_check");
void proved_check_hinted(slovdrim_check_answer *, BATCH, HINT) __asm__("slovdrim_check_hinted");
void proved_runs(slovdrim_runs_answer *, BATCH, uint64_t, uint64_t, uint64_t, DAYS) __asm__("slovdrim_runs");
void proved_trip_stop(slovdrim_trip_stop_answer *, BATCH, uint64_t, uint64_t, uint64_t) __asm__("slovdrim_trip_stop");
void proved_sale(slovdrim_sale_answer *, BATCH, DAYS, SEVEN) __asm__("slovdrim_sale");
void proved_sale_hinted(slovdrim_sale_answer *, BATCH, HINT, DAYS, SEVEN) __asm__("slovdrim_sale_hinted");
void proved_sales(slovdrim_sales_answer *, BATCH, HINT, DAYS, DAYS, uint64_t *, size_t) __asm__("slovdrim_sales");
void proved_stop(slovdrim_stop_answer *, BATCH, BYTES, BYTES, BYTES) __asm__("slovdrim_stop");
void proved_stop_hinted(slovdrim_stop_answer *, BATCH, HINT, BYTES, BYTES, BYTES) __asm__("slovdrim_stop_hinted");
#if SLOVDRIM_VERSION >= 4
void proved_order(slovdrim_order_answer *, BATCH, uint32_t *, size_t) __asm__("slovdrim_order");
#endif
void proved_date(slovdrim_date_answer *, uint64_t) __asm__("slovdrim_date");
void proved_week(slovdrim_week_answer *, uint64_t) __asm__("slovdrim_week");

/* Two numbers come back in registers, on every machine. */
slovdrim_write_answer proved_write(uint64_t, uint64_t, BYTES, uint8_t *, size_t, uint64_t) __asm__("slovdrim_write");
slovdrim_day_answer proved_day(uint64_t, uint64_t, uint64_t) __asm__("slovdrim_day");
slovdrim_weekday_answer proved_weekday(uint64_t) __asm__("slovdrim_weekday");
slovdrim_holiday_answer proved_holiday(uint64_t, DAYS) __asm__("slovdrim_holiday");
slovdrim_fits_answer proved_fits(uint8_t, uint64_t, DAYS) __asm__("slovdrim_fits");
uint64_t proved_version(void) __asm__("slovdrim_version");

#endif
