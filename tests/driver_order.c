/* The requests on the order of a batch: the files are those of request B. A file of its own, so that the driver can be built before the archive has this call. */
#include "driver.h"

#include <stdio.h>
#include <stdlib.h>
#include <string.h>

#include "../host/slovdrim.h"

/* What the offsets are written into. */
static struct lent list;

/* The list that a request brought, and what it held after the call. */
static uint8_t given[1 << 20], held[1 << 20];

_Static_assert(sizeof(slovdrim_order_answer) / 8 <= WORDS, "an answer has room");

static void give_up(const char *why)
{
    fprintf(stderr, "driver: %s\n", why);
    exit(3);
}

static size_t take_length(void)
{
    uint64_t count = take_word();
    if (count > sizeof given / 4)
        give_up("more list than the driver keeps");
    return 4 * (size_t)count;
}

static size_t take_list(void)
{
    size_t length = take_length();
    take_bytes(given, length);
    return length;
}

/* Makes the call on the files as they are placed, with the list that was given, which stands as they do, or is NULL if it is empty and they are NULL where they
   are empty; 1 if bytes beside the list changed. What the list holds afterwards goes to `after`. */
static int call_order(slovdrim_order_answer *a, size_t length, uint8_t *after, enum placing where)
{
    uint32_t *to = (uint32_t *)(void *)lend_to_write(&list, where, given, length);
    about_to("slovdrim_order", length / 4, 0, 0, where, (const uint8_t *)to, length);
    *a = slovdrim_order(EACH_FILE, to, length / 4);
    memcpy(after, left_at(&list, where), length);
    return beside_changed(&list, where);
}

/* The third placing is another than the first where something is empty. */
static int placings_with(size_t length)
{
    return place_batch(AT_END) || length == 0 ? PLACINGS : PLACINGS - 1;
}

static enum placing by_turns(int count)
{
    static unsigned turn;
    return (enum placing)(turn++ % (unsigned)count);
}

static void give_order(const slovdrim_order_answer *a, uint64_t differs, size_t length)
{
    uint64_t words[WORDS];
    memcpy(words, a, sizeof *a);
    give_words(words, sizeof *a / 8);
    give_words(&differs, 1);
    give_bytes(held, length);
}

/* With every placing, or with one by turns. */
static void in_order(int each_placing)
{
    static uint8_t other[1 << 20];
    slovdrim_order_answer first, a;
    size_t length = take_list();
    int i, n = placings_with(length);
    enum placing where = each_placing ? AT_END : by_turns(n);
    uint64_t differs;
    place_batch(where);
    differs = call_order(&first, length, held, where) ? 100 : 0;
    for (i = 1; each_placing && i < n; i++) {
        int beside;
        place_batch(i);
        beside = call_order(&a, length, other, i);
        if (memcmp(&first, &a, sizeof a) != 0 || memcmp(held, other, length) != 0)
            differs = (uint64_t)i;
        if (beside)
            differs = 100 + (uint64_t)i;
    }
    give_order(&first, differs, length);
}

/* One file of a length that no room holds: the bytes are there, all zero, and nothing has to be read to refuse them. */
static void order_of_huge(void)
{
    uint64_t file = take_word(), length = take_word();
    const uint8_t *bytes = lend_huge(length, 1);
    size_t of_list = take_list();
    slovdrim_order_answer a;
    int beside;
    if (file < 1 || file > FILES)
        give_up("no such file");
    place_batch(AT_END);
    batch.bytes[file - 1] = bytes;
    batch.length[file - 1] = length;
    beside = call_order(&a, of_list, held, AT_END);
    give_order(&a, beside ? 100 : 0, of_list);
    take_back_huge(bytes, length);
}

/* The check of the batch with the list that the library makes of it, where it was made, in room for so many numbers; if none is made, that refusal. */
static void check_in_order(void)
{
    size_t length = take_length();
    uint64_t answers[PLACINGS][WORDS] = {{0}};
    enum placing where = by_turns(placings_with(length));
    const uint8_t *at;
    slovdrim_order_answer made;
    slovdrim_check_answer a;
    memset(given, 0xa5, length);
    place_batch(where);
    call_order(&made, length, held, where);
    if (made.number != 0) {
        memcpy(answers[0], &made, sizeof made);
    } else {
        at = lent_at(&list, where == AT_START ? AT_START : AT_END);
        about_to("slovdrim_check_hinted", made.written, 0, 0, where, at, length);
        a = slovdrim_check_hinted(EACH_FILE, (const uint32_t *)(const void *)at, made.written);
        memcpy(answers[0], &a, sizeof a);
    }
    give_answers(answers, 1, sizeof a / 8);
}

int order_request(uint8_t letter)
{
    if (list.rooms[0].own == NULL)
        open_lent(&list, 1);
    switch (letter) {
    case 'p':
    case 'P':
        in_order(letter == 'p');
        return 1;
    case 'm':
        order_of_huge();
        return 1;
    case 'c':
        check_in_order();
        return 1;
    }
    return 0;
}
