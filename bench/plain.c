/* The rules of document 01 as one would write them in C, without proofs and with memory of its own: the files are read once into tables of fields with their
   values (plain_files.c, plain_fields.c), records are found by hash tables (plain_links.c), trips are put together from their records (plain_trips.c), and
   sales and names are answered from what was read (plain_sale.c). Written from the document, not from the library. */
#include <stdio.h>
#include <stdlib.h>

#include "plain_batch.h"

void *plain_space(size_t n)
{
    void *p = malloc(n);
    if (p == NULL) {
        fprintf(stderr, "bench: no memory\n");
        exit(2);
    }
    return p;
}

static void free_groups(struct groups *groups)
{
    free(groups->trip_of);
    free(groups->begins);
    free(groups->rows);
}

void plain_free(struct plain_batch *batch)
{
    unsigned file;
    for (file = 1; file <= FILES; file++) {
        free(batch->tables[file].fields);
        free(batch->indexes[file].entries);
    }
    free_groups(&batch->stops);
    free_groups(&batch->codes);
    free(batch);
}

struct plain_batch *plain_open(uint8_t *const *bytes, const size_t *lengths, struct plain_answer *answer)
{
    struct plain_batch *batch = plain_read(bytes, lengths, answer);
    if (answer->number == 0)
        *answer = plain_fields(batch);
    if (answer->number == 0)
        *answer = plain_links(batch);
    if (answer->number == 0)
        *answer = plain_trips(batch);
    if (answer->number == 0)
        *answer = (struct plain_answer){.stops = batch->tables[ZASTAVKY].records,
                                        .lines = batch->tables[LINKY].records,
                                        .trips = batch->tables[SPOJE].records,
                                        .trip_stops = batch->tables[ZASSPOJE].records};
    return batch;
}

struct plain_answer plain_check(uint8_t *const *bytes, const size_t *lengths)
{
    struct plain_answer answer;
    plain_free(plain_open(bytes, lengths, &answer));
    return answer;
}
