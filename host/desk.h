/* What the parts of the desk host share. desk.c has the commands' names and arguments; each of the others has one part of the work. */
#ifndef DESK_H
#define DESK_H

#include <inttypes.h>
#include <stddef.h>
#include <stdint.h>
#include <stdio.h>

#include "slovdrim.h"

/* The exit statuses. */
enum status { ANSWERED = 0, REFUSED = 1, WRONG_USE = 2 };

/* desk_words.c and desk_fields.c: Czech or English. A text stands in both where it is said, so that the compiler sees both formats. */
extern int speaks_czech;
void choose_language(void);
void tell(FILE *to, const char *english, const char *czech);
const char *either(const char *english, const char *czech);
#define TELL(to, english, czech, ...) (speaks_czech ? fprintf(to, czech, __VA_ARGS__) : fprintf(to, english, __VA_ARGS__))
#define COMPLAIN(english, czech, ...) TELL(stderr, "desk: " english "\n", "desk: " czech "\n", __VA_ARGS__)
enum status no_memory(void);
const char *weekday_name(uint64_t weekday);
const char *field_name(uint64_t file, uint64_t field);
void show_help(FILE *to);

/* desk_text.c: texts of a batch are in CP1250, what is typed and shown is in UTF-8. */
struct text {
    const uint8_t *bytes;
    size_t length;
};
void show(FILE *to, struct text text);
const char *plain(const char *typed);
enum status to_cp1250(const char *typed, uint8_t *into, size_t *length);

/* desk_dates.c: numbers, dates and lists of holidays, as people type them. */
struct date {
    uint64_t day, month, year;
};
struct holidays {
    const char *path; /* NULL for --no-holidays */
    uint64_t *days;
    size_t count;
};
int typed_number(const char *text, size_t length, uint64_t *number);
enum status argument_number(const char *argument, uint64_t *number);
enum status argument_date(const char *argument, struct date *date);
enum status read_holidays(const char *path, struct holidays *holidays);
void warn_of_year(const struct holidays *holidays, const struct date *date);
void show_date(FILE *to, const struct date *date, const struct holidays *holidays);

/* desk_batch.c: the thirteen files, and the list that makes the library faster. */
enum { FILES = 13, MOST_BYTES = SLOVDRIM_LONGEST + 1 };
struct file {
    uint8_t *bytes;
    size_t length;
};
struct kind {
    const char *name;
    unsigned fields;
    unsigned keys; /* how many of the first fields are the key */
};
struct batch {
    struct file files[FILES + 1];
    uint32_t *order;
    size_t order_count;
};
enum reading { READ_WHOLE, MISSING, NOT_READ, NO_MEMORY };
extern const struct kind kinds[FILES + 1];
enum reading read_bytes(const char *path, struct file *file);
const char *why_not(int error);
enum status read_batch(const char *folder, struct batch *batch);
void free_batch(struct batch *batch);
#define FILE_OF(batch, n) (batch)->files[n].bytes, (batch)->files[n].length
#define EACH_FILE(batch)                                                                                                                                   \
    FILE_OF(batch, 1), FILE_OF(batch, 2), FILE_OF(batch, 3), FILE_OF(batch, 4), FILE_OF(batch, 5), FILE_OF(batch, 6), FILE_OF(batch, 7),                    \
        FILE_OF(batch, 8), FILE_OF(batch, 9), FILE_OF(batch, 10), FILE_OF(batch, 11), FILE_OF(batch, 12), FILE_OF(batch, 13)

/* desk_records.c: the records of a file, read by the host itself. What they say counts only of a batch that the library accepted; any bytes may be read. */
#define NO_NUMBER UINT64_MAX
struct text first_record(const struct file *file);
struct text next_record(const struct file *file, struct text record);
struct text record_at(const struct file *file, uint64_t number);
struct text field_of(struct text record, uint64_t field);
uint64_t number_of(struct text text);
uint64_t number_at(struct text record, uint64_t field);
struct text find(const struct file *file, unsigned keys, uint64_t first, uint64_t second, uint64_t third);
void show_stop(FILE *to, const struct batch *batch, uint64_t stop);
void show_line_name(FILE *to, const struct batch *batch, uint64_t line);

/* desk_wait.c: what people see while a batch is read and checked. read_batch begins it; the answer is shown after its end. */
void begin_waiting(void);
void end_waiting(void);

/* desk_refusals.c: a batch's own refusal in words; and a day and a trip that aren't there, which several commands may meet. */
struct refusal {
    uint64_t number, file, record, field, offset;
};
#define REFUSAL_OF(answer) ((struct refusal){(answer).number, (answer).file, (answer).record, (answer).field, (answer).offset})
int of_the_batch(uint64_t number);
enum status refuse_batch(const struct batch *batch, struct refusal refusal);
enum status refuse_day(const struct date *date);
enum status refuse_trip(uint64_t line, uint64_t trip);

/* The commands: desk_check.c, desk_sale.c, desk_stops.c, desk_trips.c. */
struct arguments {
    const char *given[8]; /* the directory first */
    int count;
    const char *holidays;
    int no_holidays;
    int help;
};
enum status run_check(const struct arguments *arguments);
enum status run_sale(const struct arguments *arguments);
enum status run_stops(const struct arguments *arguments);
enum status run_stop(const struct arguments *arguments);
enum status run_trips(const struct arguments *arguments);

#endif
