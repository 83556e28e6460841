/* The calls as slovdrim.h declares them, on the proved code compiled for this machine. */
#include "desk_host.h"
#undef malloc
#undef realloc
#undef free

#include "proved.h"

#define FILES_NAMED                                                                                                                                          \
    const uint8_t *f1, size_t n1, const uint8_t *f2, size_t n2, const uint8_t *f3, size_t n3, const uint8_t *f4, size_t n4, const uint8_t *f5, size_t n5,     \
        const uint8_t *f6, size_t n6, const uint8_t *f7, size_t n7, const uint8_t *f8, size_t n8, const uint8_t *f9, size_t n9, const uint8_t *f10,           \
        size_t n10, const uint8_t *f11, size_t n11, const uint8_t *f12, size_t n12, const uint8_t *f13, size_t n13
#define FILES_GIVEN f1, n1, f2, n2, f3, n3, f4, n4, f5, n5, f6, n6, f7, n7, f8, n8, f9, n9, f10, n10, f11, n11, f12, n12, f13, n13
#define SALE_NAMED uint64_t line, uint64_t trip, uint64_t day, uint64_t month, uint64_t year, uint64_t from, uint64_t to
#define SALE_GIVEN line, trip, day, month, year, from, to
#define NAME_NAMED const uint8_t *t, size_t t_length, const uint8_t *p, size_t p_length, const uint8_t *l, size_t l_length
#define NAME_GIVEN t, t_length, p, p_length, l, l_length

#define FILL(type, ...)                                                                                                                                      \
    type a;                                                                                                                                                  \
    __VA_ARGS__;                                                                                                                                             \
    return a

slovdrim_records_answer slovdrim_records(uint64_t file, const uint8_t *bytes, size_t length)
{
    FILL(slovdrim_records_answer, proved_records(&a, file, bytes, length));
}

slovdrim_stretch_answer slovdrim_stretch(uint64_t file, const uint8_t *bytes, size_t length, uint64_t record, uint64_t field)
{
    FILL(slovdrim_stretch_answer, proved_stretch(&a, file, bytes, length, record, field));
}

slovdrim_fields_answer slovdrim_fields(uint64_t file, const uint8_t *bytes, size_t length)
{
    FILL(slovdrim_fields_answer, proved_fields(&a, file, bytes, length));
}

slovdrim_check_answer slovdrim_check(FILES_NAMED)
{
    FILL(slovdrim_check_answer, proved_check(&a, FILES_GIVEN));
}

slovdrim_check_answer slovdrim_check_hinted(FILES_NAMED, const uint32_t *order, size_t count)
{
    FILL(slovdrim_check_answer, proved_check_hinted(&a, FILES_GIVEN, order, count));
}

slovdrim_runs_answer slovdrim_runs(FILES_NAMED, uint64_t line, uint64_t trip, uint64_t day, const uint64_t *holidays, size_t count)
{
    FILL(slovdrim_runs_answer, proved_runs(&a, FILES_GIVEN, line, trip, day, holidays, count));
}

slovdrim_trip_stop_answer slovdrim_trip_stop(FILES_NAMED, uint64_t line, uint64_t trip, uint64_t nth)
{
    FILL(slovdrim_trip_stop_answer, proved_trip_stop(&a, FILES_GIVEN, line, trip, nth));
}

slovdrim_sale_answer slovdrim_sale(FILES_NAMED, const uint64_t *holidays, size_t count, SALE_NAMED)
{
    FILL(slovdrim_sale_answer, proved_sale(&a, FILES_GIVEN, holidays, count, SALE_GIVEN));
}

slovdrim_sale_answer slovdrim_sale_hinted(FILES_NAMED, const uint32_t *order, size_t order_count, const uint64_t *holidays, size_t count, SALE_NAMED)
{
    FILL(slovdrim_sale_answer, proved_sale_hinted(&a, FILES_GIVEN, order, order_count, holidays, count, SALE_GIVEN));
}

slovdrim_sales_answer slovdrim_sales(FILES_NAMED, const uint32_t *order, size_t order_count, const uint64_t *holidays, size_t count, const uint64_t *asked,
                                     size_t asked_count, uint64_t *list, size_t list_count)
{
    FILL(slovdrim_sales_answer, proved_sales(&a, FILES_GIVEN, order, order_count, holidays, count, asked, asked_count, list, list_count));
}

slovdrim_stop_answer slovdrim_stop(FILES_NAMED, NAME_NAMED)
{
    FILL(slovdrim_stop_answer, proved_stop(&a, FILES_GIVEN, NAME_GIVEN));
}

slovdrim_stop_answer slovdrim_stop_hinted(FILES_NAMED, const uint32_t *order, size_t order_count, NAME_NAMED)
{
    FILL(slovdrim_stop_answer, proved_stop_hinted(&a, FILES_GIVEN, order, order_count, NAME_GIVEN));
}

#if SLOVDRIM_VERSION >= 4
slovdrim_order_answer slovdrim_order(FILES_NAMED, uint32_t *list, size_t list_count)
{
    FILL(slovdrim_order_answer, proved_order(&a, FILES_GIVEN, list, list_count));
}
#endif

slovdrim_date_answer slovdrim_date(uint64_t day_number)
{
    FILL(slovdrim_date_answer, proved_date(&a, day_number));
}

slovdrim_week_answer slovdrim_week(uint64_t day_number)
{
    FILL(slovdrim_week_answer, proved_week(&a, day_number));
}
