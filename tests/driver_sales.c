/* The requests on a sale and on a stop's name: the files are those of request B, the hint that of request O, the holidays those of request l. A file of its own, so
   that the driver can be built before the archive has these calls. */
#include "driver.h"

#include <stdio.h>
#include <stdlib.h>
#include <string.h>

#include "../host/slovdrim.h"

/* The questions of many sales, what they are answered into, and the three parts of a name. */
static struct lent asked, list, name[3];

static const uint64_t *numbers_at(const struct lent *l, enum placing where)
{
    return (const uint64_t *)(const void *)placed_at(l, where);
}

static const uint32_t *order_at(enum placing where)
{
    return (const uint32_t *)(const void *)placed_at(&order, where);
}

/* The third placing is another than the first where something is empty. */
static int placings_with(int something_empty)
{
    return place_batch(AT_END) || something_empty ? PLACINGS : PLACINGS - 1;
}

/* A sale */

static void call_sale(uint64_t answer[WORDS], const uint64_t q[7], int hinted, enum placing where)
{
    const uint64_t *list = numbers_at(&holidays, where);
    size_t count = holidays.length / 8;
    slovdrim_sale_answer a;
    place_batch(where);
    about_to(hinted ? "slovdrim_sale_hinted" : "slovdrim_sale", q[0], q[1], q[5], where, (const uint8_t *)list, holidays.length);
    a = hinted ? slovdrim_sale_hinted(EACH_FILE, order_at(where), order.length / 4, list, count, q[0], q[1], q[2], q[3], q[4], q[5], q[6])
               : slovdrim_sale(EACH_FILE, list, count, q[0], q[1], q[2], q[3], q[4], q[5], q[6]);
    memcpy(answer, &a, sizeof a);
}

static void sale(int hinted)
{
    uint64_t q[7], answers[PLACINGS][WORDS];
    int i, n = placings_with(holidays.length == 0 || (hinted && order.length == 0));
    struct turns t = {0, n};
    if (hinted)
        t = turns_of(n, batch_bytes());
    for (i = 0; i < 7; i++)
        q[i] = take_word();
    for (i = t.from; i < t.to; i++)
        call_sale(answers[i - t.from], q, hinted, i);
    give_answers(answers, t.to - t.from, sizeof(slovdrim_sale_answer) / 8);
}

/* Many sales */

static uint8_t given[1 << 20], held[1 << 20];

/* The list stands where the other things stand, or is NULL if it is empty. */
static void call_sales(uint64_t answer[WORDS], size_t length, enum placing where)
{
    uint64_t *to = (uint64_t *)(void *)lend_to_write(&list, where, given, length);
    slovdrim_sales_answer a;
    place_batch(where);
    about_to("slovdrim_sales", order.length / 4, asked.length / 8, length / 8, where, placed_at(&asked, where), asked.length);
    a = slovdrim_sales(EACH_FILE, order_at(where), order.length / 4, numbers_at(&holidays, where), holidays.length / 8, numbers_at(&asked, where), asked.length / 8, to, length / 8);
    memcpy(answer, &a, sizeof a);
}

static void sales(int each_placing)
{
    uint64_t answers[PLACINGS][WORDS], differs = 0;
    size_t length;
    struct turns t;
    int i, n;
    lend(&asked, 8 * take_word());
    length = 8 * take_word();
    if (length > sizeof given) {
        fprintf(stderr, "driver: more list than the driver keeps\n");
        exit(3);
    }
    take_bytes(given, length);
    n = placings_with(holidays.length == 0 || order.length == 0 || asked.length == 0 || length == 0);
    t = turns_of(n, each_placing ? 0 : batch_bytes());
    for (i = t.from; i < t.to; i++) {
        call_sales(answers[i], length, i);
        if (i == t.from)
            memcpy(held, left_at(&list, i), length);
        if (memcmp(answers[t.from], answers[i], sizeof(slovdrim_sales_answer)) != 0 || memcmp(held, left_at(&list, i), length) != 0)
            differs = (uint64_t)i;
        if (beside_changed(&list, i))
            differs = 100 + (uint64_t)i;
    }
    give_words(answers[t.from], sizeof(slovdrim_sales_answer) / 8);
    give_words(&differs, 1);
    give_bytes(held, length);
}

/* A stop's name */

#define EACH_PART                                                                                                                                    \
    placed_at(&name[0], where), name[0].length, placed_at(&name[1], where), name[1].length, placed_at(&name[2], where), name[2].length

static void call_stop(uint64_t answer[WORDS], int hinted, enum placing where)
{
    slovdrim_stop_answer a;
    place_batch(where);
    about_to(hinted ? "slovdrim_stop_hinted" : "slovdrim_stop", name[0].length, name[1].length, name[2].length, where, placed_at(&name[0], where), name[0].length);
    a = hinted ? slovdrim_stop_hinted(EACH_FILE, order_at(where), order.length / 4, EACH_PART) : slovdrim_stop(EACH_FILE, EACH_PART);
    memcpy(answer, &a, sizeof a);
}

static void stop(int hinted)
{
    uint64_t answers[PLACINGS][WORDS];
    int i, empty = hinted && order.length == 0;
    struct turns t = {0, 0};
    for (i = 0; i < 3; i++) {
        lend(&name[i], take_word());
        empty |= name[i].length == 0;
    }
    t.to = placings_with(empty);
    if (hinted)
        t = turns_of(t.to, batch_bytes());
    for (i = t.from; i < t.to; i++)
        call_stop(answers[i - t.from], hinted, i);
    give_answers(answers, t.to - t.from, sizeof(slovdrim_stop_answer) / 8);
}

int sales_request(uint8_t letter)
{
    int part;
    if (asked.rooms[0].own == NULL) {
        open_lent(&asked, 0);
        open_lent(&list, 1);
        for (part = 0; part < 3; part++)
            open_lent(&name[part], 0);
    }
    switch (letter) {
    case 'q':
    case 'Q':
        sale(letter == 'Q');
        return 1;
    case 'u':
    case 'U':
        sales(letter == 'u');
        return 1;
    case 'n':
    case 'N':
        stop(letter == 'N');
        return 1;
    }
    return 0;
}
