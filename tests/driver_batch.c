/* The requests on a batch as a whole. A file of its own, so that the driver can be built before the archive has these calls. */
#define _GNU_SOURCE
#include "driver.h"

#include <stdio.h>
#include <stdlib.h>
#include <string.h>

#include "../host/slovdrim.h"

/* The thirteen files that request B brought last, and the list of request O. */
static struct lent files[FILES];
struct lent order;

struct batch batch;

_Static_assert(sizeof(slovdrim_check_answer) / 8 <= WORDS, "an answer has room");

const uint8_t *placed_at(const struct lent *l, enum placing where)
{
    return lent_at(l, where != NOWHERE ? where : l->length == 0 ? NOWHERE : AT_END);
}

int place_batch(enum placing where)
{
    int i, empty = 0;
    for (i = 0; i < FILES; i++) {
        batch.bytes[i] = placed_at(&files[i], where);
        batch.length[i] = files[i].length;
        empty |= files[i].length == 0;
    }
    return empty;
}

size_t batch_bytes(void)
{
    size_t i, sum = 0;
    for (i = 0; i < FILES; i++)
        sum += files[i].length;
    return sum;
}

static void call_plain(uint64_t answer[WORDS], enum placing where)
{
    slovdrim_check_answer a;
    about_to("slovdrim_check", 0, 0, 0, where, NULL, 0);
    a = slovdrim_check(EACH_FILE);
    memcpy(answer, &a, sizeof a);
}

static void call_hinted(uint64_t answer[WORDS], enum placing where)
{
    const uint8_t *list = placed_at(&order, where);
    slovdrim_check_answer a;
    about_to("slovdrim_check_hinted", order.length / 4, 0, 0, where, list, order.length);
    a = slovdrim_check_hinted(EACH_FILE, (const uint32_t *)(const void *)list, order.length / 4);
    memcpy(answer, &a, sizeof a);
}

/* Every placing. */
static void check(void)
{
    uint64_t answers[PLACINGS][WORDS];
    int i, n = place_batch(AT_END) ? PLACINGS : PLACINGS - 1;
    for (i = 0; i < n; i++) {
        place_batch(i);
        call_plain(answers[i], i);
    }
    give_answers(answers, n, sizeof(slovdrim_check_answer) / 8);
}

/* A batch is asked with several hints. */
static void check_hinted(void)
{
    uint64_t answers[PLACINGS][WORDS];
    struct turns t = turns_of(place_batch(AT_END) || order.length == 0 ? PLACINGS : PLACINGS - 1, batch_bytes());
    int i;
    for (i = t.from; i < t.to; i++) {
        place_batch(i);
        call_hinted(answers[i - t.from], i);
    }
    give_answers(answers, t.to - t.from, sizeof(slovdrim_check_answer) / 8);
}

/* One file of a length that no room holds, all bytes zero: nothing has to be read to refuse it. */
static void check_of_huge(void)
{
    uint64_t file = take_word(), length = take_word(), answers[PLACINGS][WORDS];
    const uint8_t *bytes = lend_huge(length, 1);
    if (file < 1 || file > FILES) {
        fprintf(stderr, "driver: a batch has no file %llu\n", (unsigned long long)file);
        exit(3);
    }
    place_batch(AT_END);
    batch.bytes[file - 1] = bytes;
    batch.length[file - 1] = length;
    call_plain(answers[0], AT_END);
    give_answers(answers, 1, sizeof(slovdrim_check_answer) / 8);
    call_hinted(answers[0], AT_END);
    give_answers(answers, 1, sizeof(slovdrim_check_answer) / 8);
    take_back_huge(bytes, length);
}

static void lend_file(void)
{
    uint64_t file = take_word();
    if (file < 1 || file > FILES) {
        fprintf(stderr, "driver: a batch has no file %llu\n", (unsigned long long)file);
        exit(3);
    }
    lend(&files[file - 1], take_word());
}

void batch_under_way(void)
{
    size_t i, j;
    for (i = 0; i < FILES; i++) {
        dprintf(2, "  file %zu, %zu bytes at %p:", i + 1, batch.length[i], (const void *)batch.bytes[i]);
        for (j = 0; j < batch.length[i] && j < 200; j++)
            dprintf(2, " %02x", batch.bytes[i][j]);
        dprintf(2, "%s\n", batch.length[i] > 200 ? " .." : "");
    }
}

int batch_request(uint8_t letter)
{
    int file;
    if (order.rooms[0].own == NULL) {
        for (file = 0; file < FILES; file++)
            open_lent(&files[file], 0);
        open_lent(&order, 0);
    }
    switch (letter) {
    case 'B':
        lend_file();
        return 1;
    case 'O':
        lend(&order, 4 * take_word());
        return 1;
    case 'K':
        check();
        return 1;
    case 'k':
        check_hinted();
        return 1;
    case 'M':
        check_of_huge();
        return 1;
    }
    return 0;
}
