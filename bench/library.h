/* The library's calls on a struct batch, on x86-64 and on another machine: see library.c. */
#ifndef BENCH_LIBRARY_H
#define BENCH_LIBRARY_H

#ifdef BENCH_NATIVE
#define SLOVDRIM_OTHER_MACHINE
#endif
#include "../host/slovdrim.h"
#include "batch.h"
#include "plain.h"

slovdrim_records_answer library_records(const struct batch *b, unsigned file);

/* The check without a hint. All other calls take the batch's own hint, which has no elements where keys rise. */
slovdrim_check_answer library_check_bare(const struct batch *b);
slovdrim_check_answer library_check(const struct batch *b);
slovdrim_sale_answer library_sale(const struct batch *b, const uint64_t *holidays, size_t count, const struct plain_question *q);
slovdrim_sales_answer library_sales(const struct batch *b, const uint64_t *holidays, size_t count, const struct plain_question *asked, size_t questions,
                                    struct plain_sold *list);
slovdrim_stop_answer library_stop(const struct batch *b, const struct plain_text name[3]);

/* The batch's hint. */
void library_order(struct batch *b);

/* The hint's maker with no room: refusals 1 to 6, and whether keys rise; 22 where they don't. */
uint64_t library_order_bare(const struct batch *b);

#endif
