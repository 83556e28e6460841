/* Batches made by seed. They stand in every rule of document 01: keys, links and signs, the days of a trip and its stops.

   The parts of a batch, whatever its length; a record has about so many bytes, and a batch of 60 MB about so many records:

     Zasspoje  28 %   51 bytes  326,000   a record for each trip and stop of its line; at 60 MB just below the longest file
     Udaje     20 %  195 bytes   63,000   ten lines of text for each line
     Caskody   20 %   98 bytes  123,000   three for each trip
     Mistenky  10 %  157 bytes   38,000   one for each trip
     Zastavky   7 %   73 bytes   60,000   each stands on about one line
     Altdop     7 %   69 bytes   57,000   three for two trips
     Zaslinky   3 %   36 bytes   54,000   8 or 9 stops for each line
     Spoje      3 %   48 bytes   38,000   six trips for each line
     Linky, Dopravci, Altlinky, Pevnykod  2 % together

   Timetables have more trips for each line and fewer texts; but then Zasspoje is full before the batch has 30 MB.
   The stops of a line are scattered over Zastavky, as they are where stops are numbered by name. */
#include "batch.h"

#include <stdio.h>
#include <stdlib.h>
#include <string.h>

#include "draws.h"

enum {
    VERZEJDF = 1, ZASTAVKY, PEVNYKOD, DOPRAVCI, LINKY, SPOJE, ZASLINKY, ZASSPOJE, UDAJE, CASKODY, ALTDOP, ALTLINKY, MISTENKY,
    ROOM = BATCH_LONGEST + 4096,
    FULL = BATCH_LONGEST - 65536, /* no line has so many bytes in one file */
    MOST_STOPS = 13,
};

static int one_in(uint64_t n)
{
    return below(n) == 0;
}

/* The code numbers are 1 to 30 in this order, and 31 to 34 mean ( ) x and 0xA7 again. */
static const char signs[] = "X+1234567R#|<@%Wwx~I()${}[Ovs\xA7()x\xA7";

static unsigned code_of(char sign)
{
    return (unsigned)(strchr(signs, sign) - signs) + 1;
}

/* Where the next field goes; the last field of a record is told. */
static struct batch *made;
static unsigned file;

static void put(const char *text, size_t length, int last)
{
    uint8_t *p = made->bytes[file] + made->length[file];
    *p++ = '"';
    memcpy(p, text, length);
    p += length;
    memcpy(p, last ? "\";\r\n" : "\",", last ? 4 : 2);
    made->length[file] += length + (last ? 5 : 3);
}

static void put_text(const char *text, int last)
{
    put(text, strlen(text), last);
}

static void put_number(uint64_t n, int last)
{
    char digits[20], *p = digits + sizeof digits;
    do
        *--p = (char)('0' + n % 10);
    while ((n /= 10) != 0);
    put(p, (size_t)(digits + sizeof digits - p), last);
}

/* A code, or an empty field for the sign 0. Numbers are compared by value, so some have a zero before them. */
static void put_code(char sign, int last)
{
    char text[8];
    if (sign == 0) {
        put_text("", last);
        return;
    }
    sprintf(text, one_in(40) ? "0%u" : "%u", code_of(sign));
    put_text(text, last);
}

/* So many code fields, of which the first ones are given. */
static void put_codes(const char *given, int fields, int last)
{
    int i, n = (int)strlen(given);
    for (i = 0; i < fields; i++)
        put_code(i < n ? given[i] : 0, last && i == fields - 1);
}

static char one_of(const char *choice)
{
    return choice[below(strlen(choice))];
}

/* Words until there are so many bytes. No quote stands before a comma. */
static void put_words(size_t length, int last)
{
    static const char *const words[] = {
        "spoj", "vy\xE8k\xE1", "v zast\xE1vce", "p\xF8\xEDjezdu", "vlaku,", "nejv\xFD\x9A" "e", "minut", "n\xE1kladn\xED", "\"U l\xEDpy\"", "jede", "do", "z",
        "pouze", "informace", "na tel.", "532 123", "prodej", "m\xEDstenek,", "\xF8idi\xE8", "jen", "a", "od", "stanovi\x9At\xEC", "\"B\"", "Brno", "Praha",
    };
    char text[320];
    size_t n = 0, more;
    while (n < length) {
        const char *word = words[below(sizeof words / sizeof *words)];
        more = strlen(word);
        memcpy(text + n, word, more);
        n += more;
        text[n++] = ' ';
    }
    put(text, length, last);
}

static void put_date(unsigned month, unsigned year, int last)
{
    char text[16];
    sprintf(text, "%02u%02u%04u", 1 + (unsigned)below(28), month, year);
    put_text(text, last);
}

static void put_time(int minute, int last)
{
    char text[24];
    sprintf(text, "%02d%02d", minute / 60, minute % 60);
    put_text(text, last);
}

static const char *const towns[] = {
    "Brno", "Lhota", "Nov\xE1 Ves", "T\xF8" "ebo\xF2", "\xC8" "esk\xFD Krumlov", "Kostelec nad Orlic\xED", "Z\xE1sada", "Ostrov", "Hradec", "Bystr\xE9",
    "Doln\xED \xDAjezd", "Rokytno", "P\xEDsek", "\x8E\xEF\xE1r nad S\xE1zavou", "Libe\xF2", "Vrchlab\xED",
};
static const char *const places[] = {
    "n\xE1m\xECst\xED", "n\xE1" "dra\x9E\xED", "\x9Akola", "host. \"U l\xEDpy\"", "rozc.", "k\xF8i\x9Eovatka", "ObU", "kostel", "pila", "host.", "JZD",
    "samota", "z\xE1m. park", "aut. n\xE1" "dra\x9E\xED", "hlavn\xED silnice", "most",
};

static const char *any(const char *const *texts)
{
    return texts[below(16)];
}

/* The numbers of the stops and carriers, rising. */
static uint32_t *stops;
static size_t stop_count;
static uint32_t *carriers;
static size_t carrier_count;

static void make_stops(void)
{
    uint32_t number = 0;
    size_t i;
    int czech, codes;
    const char *town, *place;
    char text[64], given[8];
    file = ZASTAVKY;
    for (i = 0; i < stop_count; i++) {
        number += 1 + (uint32_t)below(3);
        stops[i] = number;
        czech = !one_in(30);
        put_number(number, 0);
        put_text(any(towns), 0);
        town = any(towns);
        sprintf(text, "%s %u", town, (unsigned)below(90));
        put_text(one_in(4) ? "" : text, 0);
        place = any(places);
        sprintf(text, "%s %u", place, (unsigned)below(900));
        put_text(one_in(5) ? "" : text, 0);
        put_text(czech ? "BK" : "", 0);
        put_text(czech ? "CZ" : "SK", 0);
        for (codes = 0; codes < 3 && one_in(3); codes++)
            given[codes] = one_of("@%Wwx~}v");
        given[codes] = 0;
        put_codes(given, 6, 1);
    }
}

static void make_codes(void)
{
    unsigned i;
    file = PEVNYKOD;
    for (i = 0; signs[i] != 0; i++) {
        put_number(i + 1, 0);
        put(signs + i, 1, 0);
        put_text("", 1);
    }
}

static void make_carriers(void)
{
    uint32_t number = 10000000;
    size_t i;
    int person;
    const char *town, *place;
    char text[80];
    file = DOPRAVCI;
    for (i = 0; i < carrier_count; i++) {
        number += 1 + (uint32_t)below(900);
        carriers[i] = number;
        person = one_in(4);
        put_number(number, 0);
        sprintf(text, "CZ%u", number);
        put_text(text, 0);
        sprintf(text, "Autobusy %s %u, s.r.o.", any(towns), (unsigned)i);
        put_text(text, 0);
        put_text(person ? "2" : "1", 0);
        put_text(person ? "Jan Nov\xE1k" : "", 0);
        town = any(towns);
        place = any(places);
        sprintf(text, "%s, %s %u", town, place, (unsigned)below(2000));
        put_text(text, 0);
        put_text("532 123 456", 0);
        put_text("", 0);
        put_text("532 123 457", 0);
        put_text("", 0);
        put_text("info@autobusy.example", 1);
    }
}

static uint32_t any_carrier(void)
{
    return carriers[below(carrier_count)];
}

/* A line, and how its stops follow each other. */
struct line {
    uint32_t number;
    int stops;
    uint32_t tariff[MOST_STOPS];
    uint32_t stop[MOST_STOPS];
    int minutes[MOST_STOPS]; /* from the stop before */
    int kilometres[MOST_STOPS];
};

static void make_line(struct line *line, uint32_t number)
{
    const char *first, *second, *third;
    char text[80];
    int i;
    uint32_t tariff = 0, lines, n;
    line->number = number;
    file = LINKY;
    put_number(number, 0);
    first = any(towns);
    second = any(towns);
    third = any(towns);
    sprintf(text, "%s - %s - %s", first, second, third);
    put_text(text, 0);
    put_number(any_carrier(), 0);
    put((char[]){one_of("ABVWZZZ")}, 1, 0);
    put_text("", 0);
    sprintf(text, "%u/2001/DS", (unsigned)below(9000));
    put_text(text, 0);
    put_date(3, 2000, 0);
    put_date(3, 2005, 0);
    put_text("10062001", 0);
    put_text("14122002", 1);

    file = ZASLINKY;
    line->stops = 4 + (int)below(MOST_STOPS - 3);
    for (i = 0; i < line->stops; i++) {
        tariff += one_in(12) ? 2 : 1;
        line->tariff[i] = tariff;
        line->stop[i] = stops[below(stop_count)];
        line->minutes[i] = 1 + (int)below(8);
        line->kilometres[i] = 1 + (int)below(6);
        put_number(number, 0);
        put_number(tariff, 0);
        put_text("", 0);
        put_number(line->stop[i], 0);
        put_codes(one_in(6) ? "x" : one_in(40) ? "\xA7" : one_in(60) ? "x)" : "", 3, 1);
    }

    file = UDAJE;
    lines = 1 + (uint32_t)below(19);
    for (n = 1; n <= lines; n++) {
        put_number(number, 0);
        put_number(n, 0);
        put_words(100 + below(154), 1);
    }

    file = ALTLINKY;
    for (i = one_in(8) ? 2 : 0; i > 0; i--) {
        put_number(number, 0);
        sprintf(text, "AT %u", (unsigned)below(9000));
        put_text(text, 0);
        put_text(i == 1 ? "A" : "SK", 1);
    }
}

/* A trip's stops in tariff order: odd trips go that way, even ones back. */
static void make_times(const struct line *line, uint32_t trip)
{
    int odd = trip % 2 == 1, n = line->stops, first = 0, last = n - 1, at, step, minute = 240 + (int)below(900), km = 0;
    struct {
        int km, arrival, departure; /* -1 for an empty field */
        char instead;               /* of the departure */
    } time[MOST_STOPS];
    if (one_in(3)) {
        first = (int)below((uint64_t)n - 1);
        last = first + 1 + (int)below((uint64_t)(n - 1 - first));
    }
    for (step = 0; step < n; step++) {
        at = odd ? step : n - 1 - step;
        time[at].km = time[at].arrival = time[at].departure = -1;
        time[at].instead = 0;
        if (at < first || at > last)
            continue;
        if (at != (odd ? first : last)) {
            minute += line->minutes[odd ? at : at + 1];
            km += line->kilometres[odd ? at : at + 1];
            if (at == (odd ? last : first)) {
                time[at].km = km;
                time[at].arrival = minute;
                continue;
            }
            if (one_in(50)) {
                time[at].instead = '<';
                continue;
            }
            if (one_in(16)) {
                time[at].km = km;
                time[at].instead = '|';
                continue;
            }
            if (one_in(20)) {
                time[at].arrival = minute;
                minute += (int)below(6);
            }
        }
        time[at].km = km;
        time[at].departure = minute;
    }
    file = ZASSPOJE;
    for (at = 0; at < n; at++) {
        char sign = one_in(20) ? one_of("()x\xA7") : 0;
        put_number(line->number, 0);
        put_number(trip, 0);
        put_number(line->tariff[at], 0);
        /* Now and then a trip calls at another stop than its line. */
        put_number(one_in(100) ? stops[below(stop_count)] : line->stop[at], 0);
        put_text(one_in(9) ? "st. \"B\" 2" : "", 0);
        put_code(sign, 0);
        /* The other number of the same sign. */
        if (sign != 0 && one_in(10))
            put_number((uint64_t)(strrchr(signs, sign) - signs) + 1, 0);
        else
            put_text("", 0);
        if (time[at].km < 0)
            put_text("", 0);
        else
            put_number((uint64_t)time[at].km, 0);
        if (time[at].arrival < 0)
            put_text("", 0);
        else
            put_time(time[at].arrival, 0);
        if (time[at].instead != 0)
            put(&time[at].instead, 1, 1);
        else if (time[at].departure < 0)
            put_text("", 1);
        else
            put_time(time[at].departure, 1);
    }
}

/* A record of Caskody up to its note: a type with 0, 1 or 2 dates, or no type. */
static void put_time_code(uint32_t line, uint32_t trip, uint32_t number, const char *mark, char type, int dates)
{
    unsigned month = 7 + (unsigned)below(3);
    file = CASKODY;
    put_number(line, 0);
    put_number(trip, 0);
    put_number(number, 0);
    put_text(mark, 0);
    put(&type, type != 0, 0);
    if (dates > 0)
        put_date(month, 2001, 0);
    else
        put_text("", 0);
    if (dates > 1)
        put_date(month + 1 + (unsigned)below(3), 2001, 0);
    else
        put_text("", 0);
}

/* The days of a trip: codes in Spoje, and records in Caskody that go together, all with one mark. */
static void make_days(uint32_t line, uint32_t trip)
{
    const char *access, *luggage;
    char mark[4], day[8] = "", given[12], parity;
    uint32_t number = 0;
    int kind = (int)below(10), i;
    sprintf(mark, "%u", 10 + (unsigned)below(70));
    if (kind != 0)
        strcpy(day, one_in(2) ? "X" : one_in(2) ? "+6" : one_in(3) ? "135" : "");
    access = one_in(3) ? "@" : "";
    luggage = one_in(4) ? "[s" : "";
    sprintf(given, "%s%s%s", day, access, luggage);
    file = SPOJE;
    put_number(line, 0);
    put_number(trip, 0);
    put_codes(given, 10, 1);

    if (kind == 0) { /* on these dates alone */
        for (i = 1 + (int)below(4); i > 0; i--) {
            put_time_code(line, trip, ++number, mark, '3', 1);
            put_text("", 1);
        }
    } else if (kind < 6) { /* in these periods, on these dates too, but not then */
        for (i = (int)below(3); i > 0; i--) {
            put_time_code(line, trip, ++number, mark, '1', 2);
            put_text("", 1);
        }
        for (i = (int)below(2); i > 0; i--) {
            put_time_code(line, trip, ++number, mark, '2', 1);
            put_text("", 1);
        }
        for (i = (int)below(3); i > 0; i--) {
            put_time_code(line, trip, ++number, mark, '4', one_in(2) ? 1 : 2);
            put_text("", 1);
        }
    } else if (kind < 8) { /* in odd or even weeks */
        parity = one_of("5678");
        put_time_code(line, trip, ++number, mark, parity, parity > '6' ? 2 : 0);
        put_text("", 1);
    }
    for (i = (int)below(4); i > 0; i--) {
        put_time_code(line, trip, ++number, (char[]){one_of("OmM[p"), 0}, 0, 0);
        put_words(60 + below(120), 1);
    }
}

static void make_trip(const struct line *line, uint32_t trip)
{
    int i, codes;
    char given[8];
    make_days(line->number, trip);
    make_times(line, trip);

    file = ALTDOP;
    for (i = (int)below(4); i > 0; i--) {
        unsigned month = 6 + (unsigned)below(3);
        put_number(line->number, 0);
        put_number(trip, 0);
        put_number(any_carrier(), 0);
        for (codes = 0; codes < 4 && one_in(2); codes++)
            given[codes] = one_of("X+1234567");
        given[codes] = 0;
        put_codes(given, 6, 0);
        put_text(one_in(3) ? "5" : "", 0);
        put_text("", 0);
        put_date(month, 2001, 0);
        if (one_in(2))
            put_date(month + 1, 2001, 1);
        else
            put_text("", 1);
    }

    file = MISTENKY;
    for (i = (int)below(3); i > 0; i--) {
        put_number(line->number, 0);
        put_number(one_in(9) ? 0 : trip, 0);
        put_words(80 + below(120), 1);
    }
}

static void *space(size_t n)
{
    void *p = malloc(n);
    if (p == NULL) {
        fprintf(stderr, "bench: no memory\n");
        exit(2);
    }
    return p;
}

static void empty(struct batch *batch)
{
    unsigned f;
    for (f = 1; f <= BATCH_FILES; f++) {
        batch->bytes[f] = space(ROOM);
        batch->length[f] = 0;
    }
    batch->order = NULL;
    batch->count = 0;
}

void batch_make(struct batch *batch, uint64_t seed, size_t length)
{
    struct line line;
    uint32_t number = 100000, trip, trips;
    empty(batch);
    state = seed;
    made = batch;
    stop_count = 4 + length / 1000;
    carrier_count = 1 + length / 60000;
    stops = space(stop_count * sizeof *stops);
    carriers = space(carrier_count * sizeof *carriers);
    file = VERZEJDF;
    put_text("1.8", 1);
    make_stops();
    make_codes();
    make_carriers();
    while (batch_length(batch) < length && batch->length[ZASSPOJE] < FULL && batch->length[UDAJE] < FULL) {
        number += 1 + (uint32_t)below(60);
        make_line(&line, number);
        trips = 2 + (uint32_t)below(9);
        for (trip = 1; trip <= trips; trip++)
            make_trip(&line, trip);
    }
    free(stops);
    free(carriers);
    batch_order(batch);
}

size_t batch_length(const struct batch *batch)
{
    size_t n = 0;
    unsigned f;
    for (f = 1; f <= BATCH_FILES; f++)
        n += batch->length[f];
    return n;
}

/* In a legal file LF stands at the end of a record and nowhere else. */
static size_t next_record(const uint8_t *bytes, size_t length, size_t at)
{
    return (size_t)((const uint8_t *)memchr(bytes + at, '\n', length - at) - bytes) + 1;
}

static size_t count_records(const uint8_t *bytes, size_t length)
{
    size_t at, n = 0;
    for (at = 0; at < length; at = next_record(bytes, length, at))
        n++;
    return n;
}

size_t batch_last(const struct batch *batch, unsigned f)
{
    size_t at = batch->length[f] - 1;
    while (at > 0 && batch->bytes[f][at - 1] != '\n')
        at--;
    return at;
}

void batch_shuffle(struct batch *shuffled, const struct batch *batch, uint64_t seed)
{
    unsigned f;
    empty(shuffled);
    state = seed;
    for (f = 1; f <= BATCH_FILES; f++) {
        const uint8_t *bytes = batch->bytes[f];
        uint8_t *p = shuffled->bytes[f];
        size_t length = batch->length[f], records = count_records(bytes, length), at = 0, i, j, end;
        uint32_t *starts = space((records + 1) * sizeof *starts), was;
        for (i = 0; i < records; i++, at = next_record(bytes, length, at))
            starts[i] = (uint32_t)at;
        for (i = records; i > 1; i--) {
            j = below(i);
            was = starts[i - 1];
            starts[i - 1] = starts[j];
            starts[j] = was;
        }
        for (i = 0; i < records; i++) {
            end = next_record(bytes, length, starts[i]);
            memcpy(p, bytes + starts[i], end - starts[i]);
            p += end - starts[i];
        }
        shuffled->length[f] = length;
        free(starts);
    }
    batch_order(shuffled);
}

uint64_t batch_number(const uint8_t *record, unsigned field)
{
    uint64_t n = 0;
    const uint8_t *p = record + 1;
    for (; field > 1; field--) {
        while (p[0] != '"' || (p[1] != ',' && p[1] != ';'))
            p++;
        p += 3;
    }
    for (; *p >= '0' && *p <= '9'; p++)
        n = 10 * n + *p - '0';
    return n;
}

struct place {
    uint64_t key[3];
    uint32_t start;
};

static int by_key(const void *a, const void *b)
{
    const struct place *x = a, *y = b;
    int i;
    for (i = 0; i < 3; i++)
        if (x->key[i] != y->key[i])
            return x->key[i] < y->key[i] ? -1 : 1;
    return (x->start > y->start) - (x->start < y->start);
}

void batch_order(struct batch *batch)
{
    static const unsigned key_fields[BATCH_FILES + 1] = {[ZASTAVKY] = 1, [PEVNYKOD] = 1, [DOPRAVCI] = 1, [LINKY] = 1, [SPOJE] = 2,
                                                         [ZASLINKY] = 2, [ZASSPOJE] = 3, [UDAJE] = 2, [CASKODY] = 3};
    unsigned f, k;
    size_t total = 0, at, i;
    for (f = ZASTAVKY; f <= CASKODY; f++)
        total += count_records(batch->bytes[f], batch->length[f]);
    free(batch->order);
    batch->order = space((total + 1) * sizeof *batch->order);
    batch->count = 0;
    for (f = ZASTAVKY; f <= CASKODY; f++) {
        const uint8_t *bytes = batch->bytes[f];
        size_t length = batch->length[f], records = count_records(bytes, length);
        struct place *keys = space((records + 1) * sizeof *keys);
        int rise = 1;
        for (i = 0, at = 0; i < records; i++, at = next_record(bytes, length, at)) {
            memset(&keys[i], 0, sizeof keys[i]);
            for (k = 0; k < key_fields[f]; k++)
                keys[i].key[k] = batch_number(bytes + at, k + 1);
            /* Starts are 0 while neighbours are compared, so that equal keys are seen. */
            rise = rise && (i == 0 || by_key(&keys[i - 1], &keys[i]) < 0);
        }
        for (i = 0, at = 0; i < records; i++, at = next_record(bytes, length, at))
            keys[i].start = (uint32_t)at;
        if (!rise) {
            qsort(keys, records, sizeof *keys, by_key);
            for (i = 0; i < records; i++)
                batch->order[batch->count++] = keys[i].start;
        }
        free(keys);
    }
}

void batch_free(struct batch *batch)
{
    unsigned f;
    for (f = 1; f <= BATCH_FILES; f++)
        free(batch->bytes[f]);
    free(batch->order);
}
