/* The library's calls on a struct batch. On x86-64 a struct comes back by value; the library's own code compiled for another machine (bench/native) fills
   the place that it is given as its first argument. */
#include "library.h"

#include <stdlib.h>

#define PAIR const uint8_t *, size_t
#define PAIRS PAIR, PAIR, PAIR, PAIR, PAIR, PAIR, PAIR, PAIR, PAIR, PAIR, PAIR, PAIR, PAIR
#define OF(batch, n) (batch)->bytes[n], (batch)->length[n]
#define ALL(b) OF(b, 1), OF(b, 2), OF(b, 3), OF(b, 4), OF(b, 5), OF(b, 6), OF(b, 7), OF(b, 8), OF(b, 9), OF(b, 10), OF(b, 11), OF(b, 12), OF(b, 13)
#define HINT(b) (b)->order, (b)->count

#ifdef BENCH_NATIVE
slovdrim_records_answer *fill_records(slovdrim_records_answer *out, uint64_t file, PAIR) __asm__("slovdrim_records");
slovdrim_check_answer *fill_check(slovdrim_check_answer *out, PAIRS) __asm__("slovdrim_check");
slovdrim_check_answer *fill_check_hinted(slovdrim_check_answer *out, PAIRS, const uint32_t *, size_t) __asm__("slovdrim_check_hinted");
slovdrim_sale_answer *fill_sale_hinted(slovdrim_sale_answer *out, PAIRS, const uint32_t *, size_t, const uint64_t *, size_t, uint64_t, uint64_t, uint64_t,
                                       uint64_t, uint64_t, uint64_t, uint64_t) __asm__("slovdrim_sale_hinted");
slovdrim_sales_answer *fill_sales(slovdrim_sales_answer *out, PAIRS, const uint32_t *, size_t, const uint64_t *, size_t, const uint64_t *, size_t, uint64_t *,
                                  size_t) __asm__("slovdrim_sales");
slovdrim_stop_answer *fill_stop_hinted(slovdrim_stop_answer *out, PAIRS, const uint32_t *, size_t, PAIR, PAIR, PAIR) __asm__("slovdrim_stop_hinted");
slovdrim_order_answer *fill_order(slovdrim_order_answer *out, PAIRS, uint32_t *, size_t) __asm__("slovdrim_order");
#define ANSWER(name, ...)                                                                                                                                    \
    fill_##name(&a, __VA_ARGS__);                                                                                                                            \
    return a
#else
#define ANSWER(name, ...)                                                                                                                                    \
    a = slovdrim_##name(__VA_ARGS__);                                                                                                                        \
    return a
#endif

slovdrim_records_answer library_records(const struct batch *b, unsigned file)
{
    slovdrim_records_answer a;
    ANSWER(records, file, OF(b, file));
}

slovdrim_check_answer library_check_bare(const struct batch *b)
{
    slovdrim_check_answer a;
    ANSWER(check, ALL(b));
}

slovdrim_check_answer library_check(const struct batch *b)
{
    slovdrim_check_answer a;
    ANSWER(check_hinted, ALL(b), HINT(b));
}

slovdrim_sale_answer library_sale(const struct batch *b, const uint64_t *holidays, size_t count, const struct plain_question *q)
{
    slovdrim_sale_answer a;
    ANSWER(sale_hinted, ALL(b), HINT(b), holidays, count, q->line, q->trip, q->day, q->month, q->year, q->from, q->to);
}

slovdrim_sales_answer library_sales(const struct batch *b, const uint64_t *holidays, size_t count, const struct plain_question *asked, size_t questions,
                                    struct plain_sold *list)
{
    slovdrim_sales_answer a;
    ANSWER(sales, ALL(b), HINT(b), holidays, count, &asked->line, 7 * questions, &list->number, 3 * questions);
}

slovdrim_stop_answer library_stop(const struct batch *b, const struct plain_text name[3])
{
    slovdrim_stop_answer a;
    ANSWER(stop_hinted, ALL(b), HINT(b), name[0].at, name[0].length, name[1].at, name[1].length, name[2].at, name[2].length);
}

static slovdrim_order_answer order_into(const struct batch *b, uint32_t *list, size_t count)
{
    slovdrim_order_answer a;
    ANSWER(order, ALL(b), list, count);
}

uint64_t library_order_bare(const struct batch *b)
{
    uint32_t none = 0;
    return order_into(b, &none, 0).number;
}

void library_order(struct batch *b)
{
    size_t room = 0;
    unsigned file;
    slovdrim_order_answer a;
    for (file = 2; file <= 10; file++)
        room += b->length[file] / 11;
    free(b->order);
    b->order = malloc((room + 1) * sizeof *b->order);
    if (b->order == NULL)
        exit(2);
    a = order_into(b, b->order, room);
    b->count = a.number == SLOVDRIM_ANSWER ? a.written : 0;
}
