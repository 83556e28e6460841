/* What driver.c, driver_days.c, driver_fields.c, driver_batch.c, driver_order.c, driver_trips.c and driver_sales.c share: the pipes, the rooms that lent memory stands
   in, and what is said when a call touches what it was not lent. */
#ifndef SLOVDRIM_DRIVER_H
#define SLOVDRIM_DRIVER_H

#include "rooms.h"

/* Room for the longest file and one that is too long. */
enum { ROOM = 257 * PAGE };

/* What is lent to be read or to be written to, once at the end of a room and once at the start of another. Few bytes stand in rooms of one page: so the
   addresses on the other side of them are forbidden too, from the page's other end on. */
struct lent {
    struct room rooms[2], near[2];
    size_t length;
};
void open_lent(struct lent *l, int writable);

/* Takes bytes of the request to lend them; `lent_at` gives the pointer for one placing, NULL for NOWHERE. */
void lend(struct lent *l, size_t length);
const uint8_t *lent_at(const struct lent *l, enum placing where);
/* NULL is lent too where there are no bytes. */
int placings(const struct lent *l);

/* Lends a copy of `bytes` to be written to, for one placing: NOWHERE is at the end, or NULL if there are no bytes. Afterwards `left_at` has what the call left there,
   and `beside_changed` says whether bytes beside it, inside its room, are others now. */
uint8_t *lend_to_write(struct lent *l, enum placing where, const uint8_t *bytes, size_t length);
const uint8_t *left_at(const struct lent *l, enum placing where);
int beside_changed(const struct lent *l, enum placing where);

/* Zero bytes that no room holds, between forbidden addresses. `readable`: else the bytes themselves are forbidden too. */
const uint8_t *lend_huge(size_t length, int readable);
void take_back_huge(const uint8_t *bytes, size_t length);

/* The file that request L brought last, the list of request l, and that of request O. */
extern struct lent file_bytes, holidays, order;

uint64_t take_word(void);
void take_bytes(uint8_t *to, size_t length);
void give_words(const uint64_t *words, size_t count);
void give_bytes(const uint8_t *bytes, size_t length);

/* No answer has more words. */
enum { WORDS = 16 };

/* Gives the answers of all placings: the first one's words, then 0 if the others are the same, else the placing that differs and its words. */
void give_answers(uint64_t answers[PLACINGS][WORDS], int count, size_t words);

/* What to say if the call that follows touches what it was not lent. */
void about_to(const char *call, uint64_t a, uint64_t b, uint64_t c, int where, const uint8_t *bytes, size_t length);

/* One request of the calendar; 0 if the letter is none of its own. */
int days_request(uint8_t letter);

/* One request on the fields of the lent file; 0 if the letter is none of its own. */
int fields_request(uint8_t letter);

/* One request on a batch as a whole; 0 if the letter is none of its own. */
int batch_request(uint8_t letter);

/* One request on the order of a batch; 0 if the letter is none of its own. */
int order_request(uint8_t letter);

/* One request on a trip of a batch; 0 if the letter is none of its own. */
int trips_request(uint8_t letter);

/* One request on a sale or on a stop's name; 0 if the letter is none of its own. */
int sales_request(uint8_t letter);

/* The placings of a call that is asked often. With few bytes every placing, from 0 to `count` - 1; with many bytes one, by turns. */
struct turns {
    int from, to;
};
struct turns turns_of(int count, size_t bytes);

/* The thirteen files of the call under way. */
enum { FILES = 13 };
struct batch {
    const uint8_t *bytes[FILES];
    size_t length[FILES];
};
extern struct batch batch;

#define EACH_FILE                                                                                                                                    \
    batch.bytes[0], batch.length[0], batch.bytes[1], batch.length[1], batch.bytes[2], batch.length[2], batch.bytes[3], batch.length[3],             \
        batch.bytes[4], batch.length[4], batch.bytes[5], batch.length[5], batch.bytes[6], batch.length[6], batch.bytes[7], batch.length[7],         \
        batch.bytes[8], batch.length[8], batch.bytes[9], batch.length[9], batch.bytes[10], batch.length[10], batch.bytes[11], batch.length[11],     \
        batch.bytes[12], batch.length[12]

/* Places the files that were lent last: every one at its end, every one at its start, or NULL for each that is empty while the others stand at their ends.
   1 if one is empty, so that the third placing is another than the first. */
int place_batch(enum placing where);

/* How many bytes the batch has. */
size_t batch_bytes(void);

/* The same for one list. */
const uint8_t *placed_at(const struct lent *l, enum placing where);

/* Says after a crash in a call on a batch what was lent to it. */
void batch_under_way(void);

#endif
