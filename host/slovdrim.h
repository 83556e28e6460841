/*
 * slovdrim.h: the C interface of Slovdrim, a proved library for Czech bus timetables in the JDF 1.8 format.
 *
 * This version reads and writes the bytes of one file of a batch, checks its fields, checks a whole batch, makes the list that a batch in any order is
 * checked with at speed, says on which days a trip runs and where and when it calls, whether a ticket may be sold, which stop has a name, and counts
 * days. Each call answers exactly what its comment says, for every input, or comes back with one numbered refusal; nothing is guessed and nothing is
 * repaired.
 *
 * For all calls:
 *
 *  - Results are structs of 64-bit numbers, returned by value; slovdrim_version alone returns a number. `number` is 0 for an answer and otherwise one of the
 *    SLOVDRIM_ numbers below.
 *    A member that the number doesn't speak of is 0: after a refusal only the place that its comment names is set, after an answer only what was
 *    asked for.
 *  - Records and fields count from 1. Offsets and places count bytes from 0. Day 0 is 1 January 1900.
 *  - Any number may be passed for a file, record, field, place, line, trip, stop, day, month or year. Those that name nothing are refused, never
 *    undefined; any byte may be passed for a sign.
 *  - A pointer is lent for the time of the call: the library keeps no pointer, allocates nothing and frees nothing. `length` bytes (or `count` numbers)
 *    from the pointer on must be readable, and for `buffer` and `list` writable. NULL is allowed where the length or count is 0. A pointer to uint64_t or
 *    uint32_t must be aligned for it.
 *  - Lent bytes must not change during a call, by another thread or otherwise. Memory lent as const is never written to.
 *    `buffer` must not overlap `text`, and `list` must not overlap anything else that is lent. Two inputs of a call may overlap.
 *  - The library has no state at all: no globals, no set-up, no locks, no errno. Calls may be made from any number of threads at once, and from
 *    a signal handler.
 *  - A call on a batch takes up to 72 kB of the stack, whatever the size of the batch, since the check keeps tables there. SLOVDRIM_STACK is what a
 *    caller should have left, with room to spare: the 8 MB that a thread usually has are plenty, the usual alternate stack of a signal handler
 *    (SIGSTKSZ) is too small. This was measured on the archive, by tests/stack.c, and isn't proved.
 *
 * This header needs C11 or C++11, for its static assertions. Link with libslovdrim.a. The archive is for x86-64 Linux only (System V calling convention).
 */
#ifndef SLOVDRIM_H
#define SLOVDRIM_H

#include <stddef.h>
#include <stdint.h>

#if !defined(__x86_64__) && !defined(SLOVDRIM_OTHER_MACHINE)
#error "libslovdrim.a is for x86-64"
#endif

#ifdef __cplusplus
extern "C" {
#endif

/*
 * The files of a batch, in its fixed order, with the number of fields of a record.
 */
#define SLOVDRIM_VERZEJDF 1 /*  1 field  */
#define SLOVDRIM_ZASTAVKY 2 /* 12 fields */
#define SLOVDRIM_PEVNYKOD 3 /*  3 fields */
#define SLOVDRIM_DOPRAVCI 4 /* 11 fields */
#define SLOVDRIM_LINKY 5    /* 10 fields */
#define SLOVDRIM_SPOJE 6    /* 12 fields */
#define SLOVDRIM_ZASLINKY 7 /*  7 fields */
#define SLOVDRIM_ZASSPOJE 8 /* 10 fields */
#define SLOVDRIM_UDAJE 9    /*  3 fields */
#define SLOVDRIM_CASKODY 10 /*  8 fields */
#define SLOVDRIM_ALTDOP 11  /* 13 fields */
#define SLOVDRIM_ALTLINKY 12 /* 3 fields */
#define SLOVDRIM_MISTENKY 13 /* 3 fields */

/*
 * The longest file that is read, in bytes.
 */
#define SLOVDRIM_LONGEST 16777215

/*
 * The stack that a caller should have left for a call, in bytes.
 */
#define SLOVDRIM_STACK 131072

/*
 * The numbers that a call can come back with. Numbers not listed are not used by this version.
 */
#define SLOVDRIM_ANSWER 0           /* no refusal */
#define SLOVDRIM_TOO_LONG 1         /* the file has more than SLOVDRIM_LONGEST bytes; place: file */
#define SLOVDRIM_NOT_LEGAL 2        /* no legal file goes on with this byte; place: file, offset of the byte */
#define SLOVDRIM_ENDS_INSIDE 3      /* the file ends inside a record; place: file, offset = length of the file */
#define SLOVDRIM_WRONG_VERSION 4    /* VerzeJDF isn't one record 1.8; place: file, and record and field 1 if there is one record */
#define SLOVDRIM_NOT_OF_ITS_KIND 5  /* a field isn't of its kind; place: file, record, field */
#define SLOVDRIM_RULE_BROKEN 6      /* a rule inside a record is broken; place: file, record */
#define SLOVDRIM_KEY_USED 7         /* an earlier record of the file has this record's key; place: file, record */
#define SLOVDRIM_LINK_TO_NOTHING 8  /* a link that no record of its file meets; place: file, record, field */
#define SLOVDRIM_SIGN_NOT_PERMITTED 9 /* a code whose sign can't stand in this field; place: file, record, field */
#define SLOVDRIM_DAYS_WRONG 10      /* a trip's time codes and day signs don't go together; place: file 6, record of the trip */
#define SLOVDRIM_STOPS_WRONG 11     /* a trip's stops, times or kilometres are wrong; place: file 6, record of the trip */
#define SLOVDRIM_NO_SUCH_DAY 12     /* a date that isn't real or not of 1900-2099, or a day number past SLOVDRIM_LAST_DAY; no place */
#define SLOVDRIM_NO_SUCH_TRIP 13    /* no trip of this line and number; no place */
#define SLOVDRIM_NO_SUCH_TARIFF 14  /* one of the two tariff numbers isn't among the trip's records; no place */
#define SLOVDRIM_DOES_NOT_RUN 15    /* the trip doesn't run that day; no place */
#define SLOVDRIM_NOT_BEFORE 16      /* the first stop isn't before the second in travel order; no place */
#define SLOVDRIM_NO_DEPARTURE 17    /* the first stop has no departure time, or ( or $; no place */
#define SLOVDRIM_NO_ARRIVAL 18      /* the second stop has no time, or ) or $; no place */
#define SLOVDRIM_NOT_CARRIED 19     /* both stops have the sign 0xA7; no place */
#define SLOVDRIM_NO_SUCH 20         /* no such file, record, field or stop; no place */
#define SLOVDRIM_TEXT_NOT_PERMITTED 21 /* the text can't stand in a field; no place */
#define SLOVDRIM_NO_ROOM 22         /* the field doesn't fit into the buffer from the place on, or the answers or offsets into the list; no place */
#define SLOVDRIM_NO_SUCH_NAME 23    /* no stop has this name; no place */
#define SLOVDRIM_SEVERAL_NAMED 24   /* several stops have this name; no place, but how many they are */

/*
 * The bytes of a file.
 *
 * A field is a quote, a text, a quote. A comma follows each field but the record's last, and semicolon, CR, LF follow that one. A legal file is any
 * number of records, each with exactly its file's number of fields, and nothing else; so the empty file is legal and has no records. A text is
 * of the bytes 32-126 and 128-255 without 0x81, 0x83, 0x88, 0x90 and 0x98 (they have no meaning in CP1250), and holds no quote directly followed by
 * a comma or a semicolon. Other quotes stand as they are, and nothing is undoubled: in  "U "lipy" 3"  the text is  U "lipy" 3 .
 *
 * A legal file can be read in one way only.
 */

typedef struct {
    uint64_t number;
    uint64_t file;
    uint64_t record;
    uint64_t field;
    uint64_t offset;
    uint64_t records;
} slovdrim_records_answer;

/*
 * The number of records of a file.
 *
 *   SLOVDRIM_ANSWER       `records` is the number of records of the legal file.
 *   SLOVDRIM_NO_SUCH      `file` is not 1 to 13.
 *   SLOVDRIM_TOO_LONG     `file` is set.
 *   SLOVDRIM_NOT_LEGAL    `file` and `offset` are set: some legal file begins with the bytes before `offset`, and none goes on with the byte there.
 *   SLOVDRIM_ENDS_INSIDE  `file` and `offset` are set, `offset` being `length`: some legal file begins with all the bytes, but they aren't one.
 *
 * The first that applies, in this order of tests: NO_SUCH, TOO_LONG, then one of the last two. It takes one pass over the bytes; TOO_LONG reads none.
 */
slovdrim_records_answer slovdrim_records(uint64_t file, const uint8_t *bytes, size_t length);

typedef struct {
    uint64_t number;
    uint64_t file;
    uint64_t record;
    uint64_t field;
    uint64_t offset;
    uint64_t start;
    uint64_t length;
} slovdrim_stretch_answer;

/*
 * Where the text of one field stands: without its quotes, as a stretch of the file itself. The text is bytes[start] to bytes[start + length - 1].
 *
 *   SLOVDRIM_ANSWER       `start` and `length` are set; the length may be 0.
 *   SLOVDRIM_NO_SUCH      `file` is not 1 to 13; or the file is legal and has no such record, or its records have no such field.
 *   SLOVDRIM_TOO_LONG, SLOVDRIM_NOT_LEGAL, SLOVDRIM_ENDS_INSIDE  as for slovdrim_records: no stretch is given of a file that isn't legal to its end.
 *
 * Tested in this order: the file's number, the file's bytes, the record's and the field's numbers. At most two passes over the bytes for each call.
 */
slovdrim_stretch_answer slovdrim_stretch(uint64_t file, const uint8_t *bytes, size_t length, uint64_t record, uint64_t field);

typedef struct {
    uint64_t number;
    uint64_t place;
} slovdrim_write_answer;

/*
 * Writes one field into the middle of a buffer: quote, text, quote and a comma, from `place` on; or for the last field of the file's records
 * quote, text, quote, semicolon, CR, LF.
 *
 *   SLOVDRIM_ANSWER              `place` is the place after what was written: text_length + 3 further on, or + 5 for a last field.
 *   SLOVDRIM_NO_SUCH             `file` is not 1 to 13, or its records have no such field.
 *   SLOVDRIM_TEXT_NOT_PERMITTED  the text holds a byte that a text can't, or a quote directly followed by a comma or a semicolon.
 *   SLOVDRIM_NO_ROOM             fewer bytes than that are left from `place` on, or `place` is not inside the buffer.
 *
 * Tested in this order. No byte of the buffer changes but those of the field; on a refusal none does.
 * Fields 1 to the last of a record, and of the next, written one after the other, each at the place that the last call answered, make a legal file.
 */
slovdrim_write_answer slovdrim_write(uint64_t file, uint64_t field, const uint8_t *text, size_t text_length, uint8_t *buffer, size_t buffer_length,
                                     uint64_t place);

/*
 * The fields of a file.
 *
 * Each field of the files 2 to 13 has a kind: digits from so many to so many, a text to so many bytes, one byte out of a few, a date or a time field; and it
 * is required, or may be empty. All are as in the tables of JDF 1.8, with these readings:
 *
 *  - A number has 1 to 9 digits, a code number 1 to 5, a line 6, an ICO 8; leading zeros are fine. Linky's field 5 is empty or 3 digits.
 *  - Lengths of texts count bytes, and blanks are bytes like any other. Zasspoje's stand has up to 48, Zaslinky's field 3 up to 254, Altlinky's field 2
 *    1 to 20.
 *  - One byte out of a few is that very byte: "01" is no 1. Pevnykod's sign is one of  X + 1 2 3 4 5 6 7 R # | < @ % W w x ~ I ( ) $ { } [ O v s  and 0xA7.
 *  - A date is DDMMRRRR, a real Gregorian date of 1900-2099. A time field is HHMM from 0000 to 2359, or  |  or  <  or empty.
 *  - A field that JDF requires under a condition may be empty as far as its kind goes; its condition is a rule.
 *
 * The rules inside a record:
 *
 *   Zastavky  the district is given if the state is CZ.
 *   Dopravci  the person's name is given if the kind is 2.
 *   Linky     each from-date is not after its to-date, where both are given.
 *   Zasspoje  arrival and departure are both empty, or a time in one with the other empty, or a time in both, or departure  |  with arrival empty or  | ,
 *             or departure  <  with arrival empty or  < . Kilometres are given exactly when there is a time or  | .
 *   Caskody   a to-date needs a from-date and isn't before it. With a type the mark is two digits 10-79; without, it is one of  O m M [ p . Types 1 and 4
 *             need a from-date; 2 and 3 need it and no to-date; 5 and 6 have neither; 7 and 8 have both.
 *   Altdop    a to-date needs a from-date and isn't before it. At least one of code, type and from-date is given.
 */

typedef struct {
    uint64_t number;
    uint64_t file;
    uint64_t record;
    uint64_t field;
    uint64_t offset;
} slovdrim_fields_answer;

/*
 * The first fault inside one file, read by itself: no other file is looked at, so keys, links and signs permitted by place are not tried.
 *
 *   SLOVDRIM_ANSWER           the file is legal, each field is of its kind and each record keeps its rules. The file may have no records.
 *   SLOVDRIM_NO_SUCH          `file` is not 1 to 13.
 *   SLOVDRIM_TOO_LONG, SLOVDRIM_NOT_LEGAL, SLOVDRIM_ENDS_INSIDE  as for slovdrim_records: a file is legal to its end before a field is looked at.
 *   SLOVDRIM_NOT_OF_ITS_KIND  `file`, `record` and `field` are set.
 *   SLOVDRIM_RULE_BROKEN      `file` and `record` are set.
 *
 * The first that applies: the file's number, the file's bytes, then record by record, in each its fields in their order and after them its rules.
 * File 1, VerzeJDF, has neither kinds nor rules: legal, it is answered with SLOVDRIM_ANSWER whatever its texts.
 */
slovdrim_fields_answer slovdrim_fields(uint64_t file, const uint8_t *bytes, size_t length);

/*
 * Keys, links and signs.
 *
 *   file        key           links, each with the field that is reported
 *    2 Zastavky field 1       codes 7-12
 *    3 Pevnykod field 1       none
 *    4 Dopravci field 1       none
 *    5 Linky    field 1       carrier 3
 *    6 Spoje    fields 1,2    line 1; codes 3-12
 *    7 Zaslinky fields 1,2    line 1; stop 4; codes 5-7
 *    8 Zasspoje fields 1,2,3  fields 1,2 to Spoje (2); 1,3 to Zaslinky (3); stop 4; codes 6-7
 *    9 Udaje    fields 1,2    line 1
 *   10 Caskody  fields 1,2,3  fields 1,2 to Spoje (2)
 *   11 Altdop   none          fields 1,2 to Spoje (2); carrier 3; codes 4-9
 *   12 Altlinky none          line 1
 *   13 Mistenky none          line 1; fields 1,2 to Spoje (2) unless the trip is 0
 *
 * Stops are in Zastavky, codes in Pevnykod, carriers in Dopravci, lines in Linky; VerzeJDF has no key and no links. Keys and links compare numbers
 * by value: 01 and 1 are one code number. A link is met by any record of its file. An empty code links to nothing, and that is no fault.
 *
 * A code has the sign of the first record of Pevnykod with its number. Signs permitted by place:
 *
 *   Zastavky  @ % W w x ~ } v
 *   Spoje     X + 1 2 3 4 5 6 7 R # @ % I { [ O s
 *   Zaslinky  ( ) x $  and 0xA7
 *   Zasspoje  ( ) x  and 0xA7; two codes, if both are given, have the same sign, or else field 7 is refused
 *   Altdop    X + 1 2 3 4 5 6 7
 */

/*
 * Trips.
 *
 * A trip's time codes are its records of Caskody, its day signs the signs X + 1 2 3 4 5 6 7 among its codes in Spoje. DAYS_WRONG: two of its time
 * codes that have a type bear different marks; it has two different types out of 5, 6, 7, 8; type 1 with 7 or 8; type 3 with another type or with a day sign. Time codes
 * without a type, and signs that say nothing of days, may stand beside type 3.
 *
 * A trip's stops are its records of Zasspoje, in travel order: by rising tariff number if the trip's number is odd, by falling if it is even, in
 * whatever order they stand in the file. A time is HHMM. STOPS_WRONG unless all of these hold: at least two of them have a time; the first such has a
 * departure, no arrival and kilometre 0 (by value); the last such has an arrival; between the two no record has both time fields empty, and one with a
 * time has a departure; `|` and `<` stand between the two only; times, arrival before departure, never fall; kilometres, those of `|` too, never fall.
 */

typedef struct {
    uint64_t number;
    uint64_t file;
    uint64_t record;
    uint64_t field;
    uint64_t offset;
    uint64_t stops;
    uint64_t lines;
    uint64_t trips;
    uint64_t trip_stops;
} slovdrim_check_answer;

/*
 * The first fault of a batch, or what the batch holds. The thirteen files are lent in their fixed order; a missing file is an empty one.
 *
 *   SLOVDRIM_ANSWER              there is no fault: the batch stands. `stops`, `lines`, `trips` and `trip_stops` are set: the numbers of records of
 *                                Zastavky, Linky, Spoje and Zasspoje. With every refusal all four are 0.
 *   SLOVDRIM_TOO_LONG            `file` is set.
 *   SLOVDRIM_NOT_LEGAL, SLOVDRIM_ENDS_INSIDE  `file` and `offset` are set.
 *   SLOVDRIM_WRONG_VERSION       `file` is 1; `record` and `field` are 1 if VerzeJDF has one record, else 0.
 *   SLOVDRIM_NOT_OF_ITS_KIND     `file`, `record` and `field` are set.
 *   SLOVDRIM_RULE_BROKEN         `file` and `record` are set.
 *   SLOVDRIM_KEY_USED            `file` and `record` are set: the later of the two records.
 *   SLOVDRIM_LINK_TO_NOTHING     `file`, `record` and `field` are set.
 *   SLOVDRIM_SIGN_NOT_PERMITTED  `file`, `record` and `field` are set.
 *   SLOVDRIM_DAYS_WRONG, SLOVDRIM_STOPS_WRONG  `file` is 6, `record` that of the trip.
 *
 * The first that applies: TOO_LONG over all files; NOT_LEGAL and ENDS_INSIDE over all files; WRONG_VERSION; then files 2 to 13, record by record,
 * NOT_OF_ITS_KIND field by field and RULE_BROKEN after the fields; then again files 2 to 13, record by record, the key, and after it the fields in
 * their order, at one field LINK_TO_NOTHING before SIGN_NOT_PERMITTED; then the trips in the order of Spoje, in each DAYS_WRONG before STOPS_WRONG.
 *
 * The time is n log n in the batch if the keys of each of the files 2 to 10 strictly rise from record to record. A file whose keys don't is searched
 * from its beginning for each link to it and for each record of its own; slovdrim_check_hinted is for such batches, and with the list that slovdrim_order
 * makes its time is n log n too.
 */
slovdrim_check_answer slovdrim_check(const uint8_t *verzejdf, size_t verzejdf_length, const uint8_t *zastavky, size_t zastavky_length,
                                     const uint8_t *pevnykod, size_t pevnykod_length, const uint8_t *dopravci, size_t dopravci_length,
                                     const uint8_t *linky, size_t linky_length, const uint8_t *spoje, size_t spoje_length,
                                     const uint8_t *zaslinky, size_t zaslinky_length, const uint8_t *zasspoje, size_t zasspoje_length,
                                     const uint8_t *udaje, size_t udaje_length, const uint8_t *caskody, size_t caskody_length,
                                     const uint8_t *altdop, size_t altdop_length, const uint8_t *altlinky, size_t altlinky_length,
                                     const uint8_t *mistenky, size_t mistenky_length);

/*
 * The same answer as slovdrim_check, for every list `order` of `count` numbers, whatever they are: they can make the call faster, and nothing else.
 * They do if they are the ones that slovdrim_order writes for the batch, as many as it says in `written`.
 */
slovdrim_check_answer slovdrim_check_hinted(const uint8_t *verzejdf, size_t verzejdf_length, const uint8_t *zastavky, size_t zastavky_length,
                                            const uint8_t *pevnykod, size_t pevnykod_length, const uint8_t *dopravci, size_t dopravci_length,
                                            const uint8_t *linky, size_t linky_length, const uint8_t *spoje, size_t spoje_length,
                                            const uint8_t *zaslinky, size_t zaslinky_length, const uint8_t *zasspoje, size_t zasspoje_length,
                                            const uint8_t *udaje, size_t udaje_length, const uint8_t *caskody, size_t caskody_length,
                                            const uint8_t *altdop, size_t altdop_length, const uint8_t *altlinky, size_t altlinky_length,
                                            const uint8_t *mistenky, size_t mistenky_length, const uint32_t *order, size_t count);

typedef struct {
    uint64_t number;
    uint64_t file;
    uint64_t record;
    uint64_t field;
    uint64_t offset;
    uint64_t written;
} slovdrim_order_answer;

/*
 * Makes the list that the calls with `order` look for, into `list`, which has room for `list_count` numbers.
 *
 * It has a part for each of the files 2 to 10, in this order, whose keys do not strictly rise from record to record: the offset in the file at which each
 * of its records begins, all records, by rising key, and those of one key by rising offset. Keys are compared by value, the first field of the key before
 * the second, and that before the third. There is no part for a file whose keys rise, so that the list of a batch in the order of its keys is empty.
 *
 *   SLOVDRIM_ANSWER          `written` is how many numbers were written, from the start of `list` on; the rest of `list` is as it was. It may be 0.
 *   the batch's own refusal  SLOVDRIM_TOO_LONG to SLOVDRIM_RULE_BROKEN, 1 to 6, number and place as slovdrim_check gives them. Keys, links, signs and trips
 *                            are not tried: a key may be there twice.
 *   SLOVDRIM_NO_ROOM         `list_count` is less than the numbers of the list. No place.
 *
 * The first that applies, in this order. With every refusal no byte of `list` changes and `written` is 0.
 *
 * There is always room if `list_count` is the number of records of the files 2 to 10 together. slovdrim_records counts them; without a look at the bytes,
 * the lengths of the nine files together divided by 11 are enough, since a record has at least 11 bytes. The time is n log n in the batch, in whatever
 * order it stands, and no memory is needed but the list.
 */
slovdrim_order_answer slovdrim_order(const uint8_t *verzejdf, size_t verzejdf_length, const uint8_t *zastavky, size_t zastavky_length,
                                     const uint8_t *pevnykod, size_t pevnykod_length, const uint8_t *dopravci, size_t dopravci_length,
                                     const uint8_t *linky, size_t linky_length, const uint8_t *spoje, size_t spoje_length,
                                     const uint8_t *zaslinky, size_t zaslinky_length, const uint8_t *zasspoje, size_t zasspoje_length,
                                     const uint8_t *udaje, size_t udaje_length, const uint8_t *caskody, size_t caskody_length,
                                     const uint8_t *altdop, size_t altdop_length, const uint8_t *altlinky, size_t altlinky_length,
                                     const uint8_t *mistenky, size_t mistenky_length, uint32_t *list, size_t list_count);

/*
 * Questions about the trips of a batch. Each checks the batch first, and a batch that doesn't stand answers with its own refusal, number and place, as
 * slovdrim_check does.
 */

typedef struct {
    uint64_t number;
    uint64_t file;
    uint64_t record;
    uint64_t field;
    uint64_t offset;
    uint64_t runs;
} slovdrim_runs_answer;

/*
 * Whether the trip of this line and number runs on a day: `runs` is 1 if it does and 0 if it doesn't. `holidays` are `count` day numbers, in any order,
 * with repeats, and with numbers that are no days.
 *
 * It runs on day d exactly if d is within its line's validity (Linky's fields 9 and 10, both days counted) and: where it has time codes of type 3, d is one
 * of their dates; otherwise no period of type 4 holds d, and either d is a date of type 2, or all of these hold: it has no day sign or one that fits d
 * (see slovdrim_fits); it has no time code of type 1 or one whose period holds d; it has none of type 5 (6, 7, 8) or the ISO week of d is odd (even, odd,
 * even), and for 7 and 8 one such period holds d. A period with no to-date is one day.
 *
 * After the batch's own refusals: SLOVDRIM_NO_SUCH_DAY for a day number past SLOVDRIM_LAST_DAY; then SLOVDRIM_NO_SUCH_TRIP. Neither has a place.
 *
 * There is no form of this call with `order`: on a batch whose keys don't rise it takes as long as slovdrim_check does there.
 */
slovdrim_runs_answer slovdrim_runs(const uint8_t *verzejdf, size_t verzejdf_length, const uint8_t *zastavky, size_t zastavky_length,
                                   const uint8_t *pevnykod, size_t pevnykod_length, const uint8_t *dopravci, size_t dopravci_length,
                                   const uint8_t *linky, size_t linky_length, const uint8_t *spoje, size_t spoje_length,
                                   const uint8_t *zaslinky, size_t zaslinky_length, const uint8_t *zasspoje, size_t zasspoje_length,
                                   const uint8_t *udaje, size_t udaje_length, const uint8_t *caskody, size_t caskody_length,
                                   const uint8_t *altdop, size_t altdop_length, const uint8_t *altlinky, size_t altlinky_length,
                                   const uint8_t *mistenky, size_t mistenky_length,
                                   uint64_t line, uint64_t trip, uint64_t day_number, const uint64_t *holidays, size_t count);

typedef struct {
    uint64_t number;
    uint64_t file;
    uint64_t record;
    uint64_t field;
    uint64_t offset;
    uint64_t tariff;
    uint64_t stop;
    uint64_t arrives;
    uint64_t arrival;
    uint64_t departs;
    uint64_t departure;
    uint64_t signs;
    uint64_t last;
    uint64_t stops;
} slovdrim_trip_stop_answer;

/*
 * The nth stop, from 1 on, of the trip of this line and number, in travel order: its tariff number and the number of its stop (Zasspoje's fields 3 and 4).
 * `arrives` is 1 if it has an arrival time, and then `arrival` is its minute of the day, 0 to 1439; else both are 0. `departs` and `departure` likewise.
 * `last` is 1 if it is the trip's last stop with a time, else 0. `stops` is how many stops the trip has, those without a time among them.
 *
 * `signs` is the sum of SLOVDRIM_NO_BOARDING and the others below, for each sign that it has: the signs of its codes in Zasspoje, or, if it has none, those
 * of the line's stop in Zaslinky; a $ in Zaslinky always counts.
 *
 * After the batch's own refusals: SLOVDRIM_NO_SUCH_TRIP; then SLOVDRIM_NO_SUCH if the trip has no such stop. Neither has a place.
 *
 * There is no form of this call with `order`: on a batch whose keys don't rise it takes as long as slovdrim_check does there.
 */
#define SLOVDRIM_NO_BOARDING 1 /* ( */
#define SLOVDRIM_NO_ALIGHTING 2 /* ) */
#define SLOVDRIM_ON_REQUEST 4 /* x */
#define SLOVDRIM_NO_LOCAL_TRAVEL 8 /* 0xA7: not from such a stop to another such */
#define SLOVDRIM_NOT_FOR_PASSENGERS 16 /* $ */
slovdrim_trip_stop_answer slovdrim_trip_stop(const uint8_t *verzejdf, size_t verzejdf_length, const uint8_t *zastavky, size_t zastavky_length,
                                             const uint8_t *pevnykod, size_t pevnykod_length, const uint8_t *dopravci, size_t dopravci_length,
                                             const uint8_t *linky, size_t linky_length, const uint8_t *spoje, size_t spoje_length,
                                             const uint8_t *zaslinky, size_t zaslinky_length, const uint8_t *zasspoje, size_t zasspoje_length,
                                             const uint8_t *udaje, size_t udaje_length, const uint8_t *caskody, size_t caskody_length,
                                             const uint8_t *altdop, size_t altdop_length, const uint8_t *altlinky, size_t altlinky_length,
                                             const uint8_t *mistenky, size_t mistenky_length,
                                             uint64_t line, uint64_t trip, uint64_t nth);

/*
 * The counter: may a ticket be sold, and which stop has a name. The batch is checked first, as for the questions about trips.
 */

typedef struct {
    uint64_t number;
    uint64_t file;
    uint64_t record;
    uint64_t field;
    uint64_t offset;
    uint64_t departure;
    uint64_t arrival;
} slovdrim_sale_answer;

/*
 * A sale: on the trip of this line and number, on this date, from the stop with the tariff number `from` to the one with the tariff number `to`. The numbers
 * may be any at all. `holidays` are `holiday_count` day numbers, as for slovdrim_runs.
 *
 *   SLOVDRIM_ANSWER          the ticket may be sold. `departure` is the minute of the day, 0 to 1439, of the departure at the first stop; `arrival` that of the
 *                            arrival at the second or, if no arrival is given there, of the departure.
 *   the batch's own refusal  number and place as slovdrim_check gives them.
 *   SLOVDRIM_NO_SUCH_DAY     the date isn't real or isn't of 1900-2099.
 *   SLOVDRIM_NO_SUCH_TRIP    no trip of this line and number.
 *   SLOVDRIM_NO_SUCH_TARIFF  `from` or `to` isn't among the tariff numbers of the trip's records.
 *   SLOVDRIM_DOES_NOT_RUN    the trip doesn't run on this date (see slovdrim_runs).
 *   SLOVDRIM_NOT_BEFORE      the first stop isn't before the second in travel order; so it is too where they are one.
 *   SLOVDRIM_NO_DEPARTURE    the first stop has no departure time, or it has ( or $ among its signs (see slovdrim_trip_stop).
 *   SLOVDRIM_NO_ARRIVAL      the second stop has neither time, or it has ) or $ among its signs.
 *   SLOVDRIM_NOT_CARRIED     both stops have 0xA7 among their signs.
 *
 * The first that applies, in this order. Both minutes are 0 with every refusal, and a refusal that isn't the batch's has no place.
 */
slovdrim_sale_answer slovdrim_sale(const uint8_t *verzejdf, size_t verzejdf_length, const uint8_t *zastavky, size_t zastavky_length,
                                   const uint8_t *pevnykod, size_t pevnykod_length, const uint8_t *dopravci, size_t dopravci_length,
                                   const uint8_t *linky, size_t linky_length, const uint8_t *spoje, size_t spoje_length,
                                   const uint8_t *zaslinky, size_t zaslinky_length, const uint8_t *zasspoje, size_t zasspoje_length,
                                   const uint8_t *udaje, size_t udaje_length, const uint8_t *caskody, size_t caskody_length,
                                   const uint8_t *altdop, size_t altdop_length, const uint8_t *altlinky, size_t altlinky_length,
                                   const uint8_t *mistenky, size_t mistenky_length,
                                   const uint64_t *holidays, size_t holiday_count, uint64_t line, uint64_t trip,
                                   uint64_t day, uint64_t month, uint64_t year, uint64_t from, uint64_t to);

/*
 * The same answer as slovdrim_sale, for every list `order`, which can only make the check faster: see slovdrim_check_hinted.
 */
slovdrim_sale_answer slovdrim_sale_hinted(const uint8_t *verzejdf, size_t verzejdf_length, const uint8_t *zastavky, size_t zastavky_length,
                                          const uint8_t *pevnykod, size_t pevnykod_length, const uint8_t *dopravci, size_t dopravci_length,
                                          const uint8_t *linky, size_t linky_length, const uint8_t *spoje, size_t spoje_length,
                                          const uint8_t *zaslinky, size_t zaslinky_length, const uint8_t *zasspoje, size_t zasspoje_length,
                                          const uint8_t *udaje, size_t udaje_length, const uint8_t *caskody, size_t caskody_length,
                                          const uint8_t *altdop, size_t altdop_length, const uint8_t *altlinky, size_t altlinky_length,
                                          const uint8_t *mistenky, size_t mistenky_length,
                                          const uint32_t *order, size_t order_count,
                                          const uint64_t *holidays, size_t holiday_count, uint64_t line, uint64_t trip,
                                          uint64_t day, uint64_t month, uint64_t year, uint64_t from, uint64_t to);

typedef struct {
    uint64_t number;
    uint64_t file;
    uint64_t record;
    uint64_t field;
    uint64_t offset;
    uint64_t answered;
} slovdrim_sales_answer;

/*
 * Many sales with one check of the batch. `asked` holds the questions, seven numbers each: line, trip, day, month, year, from, to. Fewer than seven numbers at
 * the end are no question. `list` takes the answers, three numbers each, from its start on and in the order of the questions: number, departure and
 * arrival, each as slovdrim_sale answers the question; departure and arrival are 0 with a refusal.
 *
 *   SLOVDRIM_ANSWER          `answered` is the number of questions; their answers are in `list`, and the rest of `list` is as it was.
 *   the batch's own refusal  number and place as slovdrim_check gives them.
 *   SLOVDRIM_NO_ROOM         `list_count` is less than three times the number of questions.
 *
 * The first that applies, in this order. With either refusal no byte of `list` changes and `answered` is 0. `order` is as for slovdrim_check_hinted.
 */
slovdrim_sales_answer slovdrim_sales(const uint8_t *verzejdf, size_t verzejdf_length, const uint8_t *zastavky, size_t zastavky_length,
                                     const uint8_t *pevnykod, size_t pevnykod_length, const uint8_t *dopravci, size_t dopravci_length,
                                     const uint8_t *linky, size_t linky_length, const uint8_t *spoje, size_t spoje_length,
                                     const uint8_t *zaslinky, size_t zaslinky_length, const uint8_t *zasspoje, size_t zasspoje_length,
                                     const uint8_t *udaje, size_t udaje_length, const uint8_t *caskody, size_t caskody_length,
                                     const uint8_t *altdop, size_t altdop_length, const uint8_t *altlinky, size_t altlinky_length,
                                     const uint8_t *mistenky, size_t mistenky_length,
                                     const uint32_t *order, size_t order_count,
                                     const uint64_t *holidays, size_t holiday_count, const uint64_t *asked, size_t asked_count,
                                     uint64_t *list, size_t list_count);

typedef struct {
    uint64_t number;
    uint64_t file;
    uint64_t record;
    uint64_t field;
    uint64_t offset;
    uint64_t value;
} slovdrim_stop_answer;

/*
 * A stop by its name: the one whose town, part and place (Zastavky's fields 2, 3 and 4) equal these three byte strings, byte for byte, in CP1250. An
 * empty string equals an empty field only, and any bytes may be asked for.
 *
 *   SLOVDRIM_ANSWER          `value` is the stop's number.
 *   the batch's own refusal  number and place as slovdrim_check gives them.
 *   SLOVDRIM_NO_SUCH_NAME    no stop has this name.
 *   SLOVDRIM_SEVERAL_NAMED   several have it: `value` is how many.
 *
 * The first that applies, in this order.
 */
slovdrim_stop_answer slovdrim_stop(const uint8_t *verzejdf, size_t verzejdf_length, const uint8_t *zastavky, size_t zastavky_length,
                                   const uint8_t *pevnykod, size_t pevnykod_length, const uint8_t *dopravci, size_t dopravci_length,
                                   const uint8_t *linky, size_t linky_length, const uint8_t *spoje, size_t spoje_length,
                                   const uint8_t *zaslinky, size_t zaslinky_length, const uint8_t *zasspoje, size_t zasspoje_length,
                                   const uint8_t *udaje, size_t udaje_length, const uint8_t *caskody, size_t caskody_length,
                                   const uint8_t *altdop, size_t altdop_length, const uint8_t *altlinky, size_t altlinky_length,
                                   const uint8_t *mistenky, size_t mistenky_length,
                                   const uint8_t *town, size_t town_length, const uint8_t *part, size_t part_length,
                                   const uint8_t *place, size_t place_length);

/*
 * The same answer as slovdrim_stop, for every list `order`, which can only make the check faster: see slovdrim_check_hinted.
 */
slovdrim_stop_answer slovdrim_stop_hinted(const uint8_t *verzejdf, size_t verzejdf_length, const uint8_t *zastavky, size_t zastavky_length,
                                          const uint8_t *pevnykod, size_t pevnykod_length, const uint8_t *dopravci, size_t dopravci_length,
                                          const uint8_t *linky, size_t linky_length, const uint8_t *spoje, size_t spoje_length,
                                          const uint8_t *zaslinky, size_t zaslinky_length, const uint8_t *zasspoje, size_t zasspoje_length,
                                          const uint8_t *udaje, size_t udaje_length, const uint8_t *caskody, size_t caskody_length,
                                          const uint8_t *altdop, size_t altdop_length, const uint8_t *altlinky, size_t altlinky_length,
                                          const uint8_t *mistenky, size_t mistenky_length,
                                          const uint32_t *order, size_t order_count,
                                          const uint8_t *town, size_t town_length, const uint8_t *part, size_t part_length,
                                          const uint8_t *place, size_t place_length);

/*
 * The version of this interface: SLOVDRIM_VERSION of the header that the library was made with. It never refuses.
 */
#define SLOVDRIM_VERSION 4
uint64_t slovdrim_version(void);

/*
 * Days.
 *
 * The calendar has the Gregorian dates of 1900 to 2099. Day 0 is 1 January 1900, a Monday. Every call of this part that takes a day number comes back with
 * SLOVDRIM_NO_SUCH_DAY for one past SLOVDRIM_LAST_DAY, and with no other refusal.
 */
#define SLOVDRIM_LAST_DAY 73048 /* 31 December 2099 */

typedef struct {
    uint64_t number;
    uint64_t day;
} slovdrim_day_answer;

/*
 * The day number of a date: `day` is set. SLOVDRIM_NO_SUCH_DAY if the date isn't real (30 February) or isn't of 1900-2099.
 */
slovdrim_day_answer slovdrim_day(uint64_t day, uint64_t month, uint64_t year);

typedef struct {
    uint64_t number;
    uint64_t day;
    uint64_t month;
    uint64_t year;
} slovdrim_date_answer;

/*
 * The date of a day number: `day`, `month` and `year` are set. The inverse of slovdrim_day.
 */
slovdrim_date_answer slovdrim_date(uint64_t day_number);

typedef struct {
    uint64_t number;
    uint64_t weekday;
} slovdrim_weekday_answer;

/*
 * The weekday: `weekday` is 1 for Monday to 7 for Sunday.
 */
slovdrim_weekday_answer slovdrim_weekday(uint64_t day_number);

typedef struct {
    uint64_t number;
    uint64_t week;
    uint64_t odd;
} slovdrim_week_answer;

/*
 * The week by ISO 8601: `week` is 1 to 53, `odd` is 1 if that is an odd number and 0 if not. The week that a year begins or ends in may belong to the
 * year before or after; after week 53 comes week 1, so that odd may follow odd.
 */
slovdrim_week_answer slovdrim_week(uint64_t day_number);

typedef struct {
    uint64_t number;
    uint64_t holiday;
} slovdrim_holiday_answer;

/*
 * Whether a day is in a list of holidays: `holiday` is 1 or 0. Any list is taken: in any order, with repeats, with numbers past the calendar.
 */
slovdrim_holiday_answer slovdrim_holiday(uint64_t day_number, const uint64_t *holidays, size_t count);

typedef struct {
    uint64_t number;
    uint64_t fits;
} slovdrim_fits_answer;

/*
 * Whether a day sign fits a day: `fits` is 1 or 0. 'X': Monday to Friday and no holiday. '+': Sunday or holiday. '1' to '7': that weekday, holiday
 * or not. A byte that is no day sign fits no day.
 */
slovdrim_fits_answer slovdrim_fits(uint8_t sign, uint64_t day_number, const uint64_t *holidays, size_t count);

/*
 * The layouts that the archive was made with.
 */
#ifdef __cplusplus
#define SLOVDRIM_LAYOUT(condition, text) static_assert(condition, text)
#else
#define SLOVDRIM_LAYOUT(condition, text) _Static_assert(condition, text)
#endif
SLOVDRIM_LAYOUT(sizeof(size_t) == 8 && sizeof(void *) == 8, "lengths and pointers have 64 bits");
SLOVDRIM_LAYOUT(sizeof(slovdrim_records_answer) == 48 && offsetof(slovdrim_records_answer, records) == 40, "layout of slovdrim_records_answer");
SLOVDRIM_LAYOUT(sizeof(slovdrim_stretch_answer) == 56 && offsetof(slovdrim_stretch_answer, length) == 48, "layout of slovdrim_stretch_answer");
SLOVDRIM_LAYOUT(sizeof(slovdrim_write_answer) == 16 && offsetof(slovdrim_write_answer, place) == 8, "layout of slovdrim_write_answer");
SLOVDRIM_LAYOUT(sizeof(slovdrim_fields_answer) == 40 && offsetof(slovdrim_fields_answer, offset) == 32, "layout of slovdrim_fields_answer");
SLOVDRIM_LAYOUT(sizeof(slovdrim_check_answer) == 72 && offsetof(slovdrim_check_answer, trip_stops) == 64, "layout of slovdrim_check_answer");
SLOVDRIM_LAYOUT(sizeof(slovdrim_order_answer) == 48 && offsetof(slovdrim_order_answer, written) == 40, "layout of slovdrim_order_answer");
SLOVDRIM_LAYOUT(sizeof(slovdrim_runs_answer) == 48 && offsetof(slovdrim_runs_answer, runs) == 40, "layout of slovdrim_runs_answer");
SLOVDRIM_LAYOUT(sizeof(slovdrim_trip_stop_answer) == 112 && offsetof(slovdrim_trip_stop_answer, stops) == 104, "layout of slovdrim_trip_stop_answer");
SLOVDRIM_LAYOUT(sizeof(slovdrim_sale_answer) == 56 && offsetof(slovdrim_sale_answer, arrival) == 48, "layout of slovdrim_sale_answer");
SLOVDRIM_LAYOUT(sizeof(slovdrim_sales_answer) == 48 && offsetof(slovdrim_sales_answer, answered) == 40, "layout of slovdrim_sales_answer");
SLOVDRIM_LAYOUT(sizeof(slovdrim_stop_answer) == 48 && offsetof(slovdrim_stop_answer, value) == 40, "layout of slovdrim_stop_answer");
SLOVDRIM_LAYOUT(sizeof(slovdrim_day_answer) == 16 && offsetof(slovdrim_day_answer, day) == 8, "layout of slovdrim_day_answer");
SLOVDRIM_LAYOUT(sizeof(slovdrim_date_answer) == 32 && offsetof(slovdrim_date_answer, year) == 24, "layout of slovdrim_date_answer");
SLOVDRIM_LAYOUT(sizeof(slovdrim_weekday_answer) == 16 && offsetof(slovdrim_weekday_answer, weekday) == 8, "layout of slovdrim_weekday_answer");
SLOVDRIM_LAYOUT(sizeof(slovdrim_week_answer) == 24 && offsetof(slovdrim_week_answer, odd) == 16, "layout of slovdrim_week_answer");
SLOVDRIM_LAYOUT(sizeof(slovdrim_holiday_answer) == 16 && offsetof(slovdrim_holiday_answer, holiday) == 8, "layout of slovdrim_holiday_answer");
SLOVDRIM_LAYOUT(sizeof(slovdrim_fits_answer) == 16 && offsetof(slovdrim_fits_answer, fits) == 8, "layout of slovdrim_fits_answer");
#undef SLOVDRIM_LAYOUT

#ifdef __cplusplus
}
#endif

#endif
