/* The right hint: for each of the files 2 to 10 whose keys don't strictly rise, the starts of its records by rising key and place. */
#include "input.h"

#include <stdlib.h>
#include <string.h>

struct keyed {
    uint64_t key[3];
    uint32_t start;
};

static int by_key(const struct keyed *a, const struct keyed *b)
{
    int i;
    for (i = 0; i < 3; i++)
        if (a->key[i] != b->key[i])
            return a->key[i] < b->key[i] ? -1 : 1;
    return 0;
}

static int by_key_and_place(const void *a, const void *b)
{
    const struct keyed *x = a, *y = b;
    int keys = by_key(x, y);
    return keys != 0 ? keys : (x->start > y->start) - (x->start < y->start);
}

/* The records of a file with their keys; how many. */
static size_t keyed_records(const struct part *file, unsigned keys, struct keyed *list, size_t room)
{
    size_t records = count_records(file), i;
    unsigned k;
    for (i = 0; i < records && i < room; i++) {
        memset(&list[i], 0, sizeof list[i]);
        for (k = 0; k < keys; k++)
            list[i].key[k] = field_value(file, i, k);
        list[i].start = (uint32_t)record_span(file, i).at;
    }
    return i;
}

void right_order(const struct input *in, struct part *order)
{
    static struct keyed list[LONGEST_PART / 4];
    size_t count, i;
    int file;
    order->length = 0;
    for (file = 1; file < 10; file++) {
        int rise = 1;
        count = keyed_records(&in->parts[file], keys_of_file[file], list, sizeof list / sizeof *list);
        for (i = 1; i < count; i++)
            rise = rise && by_key(&list[i - 1], &list[i]) < 0;
        if (rise)
            continue;
        qsort(list, count, sizeof *list, by_key_and_place);
        for (i = 0; i < count; i++)
            splice(order, order->length, 0, (const uint8_t *)&list[i].start, 4);
    }
}
