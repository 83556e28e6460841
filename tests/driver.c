/* The side of the comparison that is linked with the library: makes the calls that the model asks for and gives back what came out.
   tests/README.md has the protocol. Every lent buffer stands against a page that may not be touched, once at each end, and bytes that
   the library may only read are mapped so that it can only read them: a touch outside, or a write where none may be, ends the driver. */
#define _GNU_SOURCE
#include "driver.h"

#include <signal.h>
#include <stdio.h>
#include <stdlib.h>
#include <string.h>
#include <sys/mman.h>
#include <unistd.h>

#include "../host/slovdrim.h"

static void give_up(const char *why)
{
    fprintf(stderr, "driver: %s\n", why);
    exit(3);
}

/* Pipes */

static uint8_t in[1 << 16], out[1 << 16];
static size_t in_at, in_end, out_end;

static void flush(void)
{
    size_t at = 0;
    while (at < out_end) {
        ssize_t n = write(1, out + at, out_end - at);
        if (n <= 0)
            give_up("the model stopped listening");
        at += (size_t)n;
    }
    out_end = 0;
}

/* 0 at the end of the requests. Answers go out before the driver waits, since the model may wait for them. */
static int more(void)
{
    ssize_t n;
    if (in_at < in_end)
        return 1;
    flush();
    n = read(0, in, sizeof in);
    if (n < 0)
        give_up("requests can't be read");
    in_at = 0;
    in_end = (size_t)n;
    return n > 0;
}

void take_bytes(uint8_t *to, size_t length)
{
    while (length > 0) {
        size_t n;
        if (!more())
            give_up("a request ends too early");
        n = in_end - in_at < length ? in_end - in_at : length;
        memcpy(to, in + in_at, n);
        in_at += n;
        to += n;
        length -= n;
    }
}

uint64_t take_word(void)
{
    uint64_t w;
    take_bytes((uint8_t *)&w, sizeof w);
    return w;
}

void give_bytes(const uint8_t *bytes, size_t length)
{
    while (length > 0) {
        size_t n = sizeof out - out_end < length ? sizeof out - out_end : length;
        memcpy(out + out_end, bytes, n);
        out_end += n;
        bytes += n;
        length -= n;
        if (out_end == sizeof out)
            flush();
    }
}

void give_words(const uint64_t *words, size_t count)
{
    give_bytes((const uint8_t *)words, count * sizeof *words);
}

void give_answers(uint64_t answers[PLACINGS][WORDS], int count, size_t words)
{
    uint64_t differs = 0;
    int i;
    for (i = count - 1; i > 0; i--)
        if (memcmp(answers[0], answers[i], words * sizeof(uint64_t)) != 0)
            differs = (uint64_t)i;
    give_words(answers[0], words);
    give_words(&differs, 1);
    if (differs != 0)
        give_words(answers[differs], words);
}

/* Rooms */

void open_lent(struct lent *l, int writable)
{
    int i;
    for (i = AT_END; i <= AT_START; i++) {
        l->rooms[i] = room_of(ROOM, writable);
        l->near[i] = room_of(PAGE, writable);
    }
}

static const struct room *room_for(const struct lent *l, enum placing where)
{
    return l->length <= PAGE ? &l->near[where] : &l->rooms[where];
}

static uint8_t *own_at(const struct lent *l, enum placing where)
{
    const struct room *room = room_for(l, where);
    return room->own + placed(room, where, l->length);
}

void lend(struct lent *l, size_t length)
{
    if (length > ROOM)
        give_up("more bytes than a room holds");
    l->length = length;
    take_bytes(own_at(l, AT_END), length);
    memcpy(own_at(l, AT_START), own_at(l, AT_END), length);
}

const uint8_t *lent_at(const struct lent *l, enum placing where)
{
    const struct room *room;
    if (where == NOWHERE)
        return NULL;
    room = room_for(l, where);
    return room->lent + placed(room, where, l->length);
}

int placings(const struct lent *l)
{
    return l->length == 0 ? PLACINGS : PLACINGS - 1;
}

/* What is written to has marks beside it, on the side that isn't forbidden. */

enum { BESIDE = 64 };

static uint8_t mark_of(const struct lent *l)
{
    return (uint8_t)(0x5a ^ l->length * 37);
}

/* The bytes beside it that are marked. */
static uint8_t *beside(const struct lent *l, enum placing where, size_t *count)
{
    const struct room *room = room_for(l, where);
    size_t left = room->size - l->length;
    *count = left < BESIDE ? left : BESIDE;
    return where == AT_END ? own_at(l, where) - *count : own_at(l, where) + l->length;
}

static enum placing stands_at(enum placing where)
{
    return where == AT_START ? AT_START : AT_END;
}

uint8_t *lend_to_write(struct lent *l, enum placing where, const uint8_t *bytes, size_t length)
{
    const struct room *room;
    size_t count;
    uint8_t *marked;
    if (length > ROOM)
        give_up("more bytes than a room holds");
    l->length = length;
    room = room_for(l, stands_at(where));
    memcpy(own_at(l, stands_at(where)), bytes, length);
    marked = beside(l, stands_at(where), &count);
    memset(marked, mark_of(l), count);
    return where == NOWHERE && length == 0 ? NULL : room->lent + placed(room, stands_at(where), length);
}

const uint8_t *left_at(const struct lent *l, enum placing where)
{
    return own_at(l, stands_at(where));
}

int beside_changed(const struct lent *l, enum placing where)
{
    size_t i, count;
    const uint8_t *marked = beside(l, stands_at(where), &count);
    for (i = 0; i < count; i++)
        if (marked[i] != mark_of(l))
            return 1;
    return 0;
}

/* Lengths that no room holds: the bytes stand between two pages, against the one behind them. */

static size_t whole_pages(size_t length)
{
    return (length + PAGE - 1) / PAGE * PAGE;
}

const uint8_t *lend_huge(size_t length, int readable)
{
    size_t pages = whole_pages(length);
    uint8_t *base = mmap(NULL, pages + 2 * PAGE, PROT_NONE, MAP_PRIVATE | MAP_ANONYMOUS | MAP_NORESERVE, -1, 0);
    if (base == MAP_FAILED || (readable && mprotect(base + PAGE, pages, PROT_READ) != 0))
        give_up("no addresses for a huge file");
    return base + PAGE + (pages - length);
}

void take_back_huge(const uint8_t *bytes, size_t length)
{
    size_t pages = whole_pages(length);
    munmap((void *)(uintptr_t)(bytes - (pages - length) - PAGE), pages + 2 * PAGE);
}

/* Placings by turns. */

enum { FEW_BYTES = 4096 };

struct turns turns_of(int count, size_t bytes)
{
    static unsigned turn;
    struct turns t = {0, count};
    if (bytes > FEW_BYTES) {
        t.from = (int)(turn++ % (unsigned)count);
        t.to = t.from + 1;
    }
    return t;
}

/* What is said after a crash. It is set before each call, so that the words fit the call under way. */

static struct {
    const char *call;
    uint64_t a, b, c;
    int where;
    const uint8_t *bytes;
    size_t length;
} now;

void about_to(const char *call, uint64_t a, uint64_t b, uint64_t c, int where, const uint8_t *bytes, size_t length)
{
    now.call = call;
    now.a = a;
    now.b = b;
    now.c = c;
    now.where = where;
    now.bytes = bytes;
    now.length = length;
}

static int on_a_batch(const char *call)
{
    static const char *const calls[] = {"slovdrim_check", "slovdrim_order", "slovdrim_runs", "slovdrim_trip_stop", "slovdrim_sale", "slovdrim_stop"};
    size_t i;
    for (i = 0; i < sizeof calls / sizeof *calls; i++)
        if (strncmp(call, calls[i], strlen(calls[i])) == 0)
            return 1;
    return 0;
}

static void crashed(int sig, siginfo_t *info, void *context)
{
    static const char *const place[] = {"against the page after it", "against the page before it", "as NULL"};
    size_t i;
    (void)context;
    dprintf(2, "driver: signal %d at address %p in %s (%llu, %llu, %llu), %zu bytes lent %s at %p:", sig, info->si_addr, now.call ? now.call : "the driver itself",
            (unsigned long long)now.a, (unsigned long long)now.b, (unsigned long long)now.c, now.length, place[now.where], (const void *)now.bytes);
    for (i = 0; i < now.length && i < 200; i++)
        dprintf(2, " %02x", now.bytes[i]);
    dprintf(2, "%s\n", now.length > 200 ? " .." : "");
    if (now.call != NULL && on_a_batch(now.call))
        batch_under_way();
    _exit(4);
}

static void catch_crashes(void)
{
    static uint8_t stack[1 << 16];
    stack_t s;
    struct sigaction act;
    memset(&s, 0, sizeof s);
    s.ss_sp = stack;
    s.ss_size = sizeof stack;
    memset(&act, 0, sizeof act);
    act.sa_sigaction = crashed;
    act.sa_flags = SA_SIGINFO | SA_ONSTACK;
    if (sigaltstack(&s, NULL) != 0 || sigaction(SIGSEGV, &act, NULL) != 0 || sigaction(SIGBUS, &act, NULL) != 0 || sigaction(SIGILL, &act, NULL) != 0
        || sigaction(SIGFPE, &act, NULL) != 0)
        give_up("no handler for crashes");
}

/* Calls on the lent file */

struct lent file_bytes;
static struct lent text_bytes, buffer;

static void records_request(void)
{
    uint64_t file = take_word(), answers[PLACINGS][WORDS];
    int i, n = placings(&file_bytes);
    for (i = 0; i < n; i++) {
        const uint8_t *bytes = lent_at(&file_bytes, i);
        slovdrim_records_answer a;
        about_to("slovdrim_records", file, 0, 0, i, bytes, file_bytes.length);
        a = slovdrim_records(file, bytes, file_bytes.length);
        memcpy(answers[i], &a, sizeof a);
    }
    give_answers(answers, n, sizeof(slovdrim_records_answer) / 8);
}

static void stretches_request(void)
{
    uint64_t file = take_word(), count = take_word(), answers[PLACINGS][WORDS];
    int i, n = placings(&file_bytes);
    while (count-- > 0) {
        uint64_t record = take_word(), field = take_word();
        for (i = 0; i < n; i++) {
            const uint8_t *bytes = lent_at(&file_bytes, i);
            slovdrim_stretch_answer a;
            about_to("slovdrim_stretch", file, record, field, i, bytes, file_bytes.length);
            a = slovdrim_stretch(file, bytes, file_bytes.length, record, field);
            memcpy(answers[i], &a, sizeof a);
        }
        give_answers(answers, n, sizeof(slovdrim_stretch_answer) / 8);
    }
}

/* A length that no room holds, all bytes zero: such a file is refused without reading one. */
static void huge_request(void)
{
    uint64_t file = take_word(), length = take_word(), answers[PLACINGS][WORDS];
    const uint8_t *bytes = lend_huge(length, 0);
    slovdrim_records_answer a;
    slovdrim_stretch_answer b;
    about_to("slovdrim_records", file, length, 0, 0, bytes, 0);
    a = slovdrim_records(file, bytes, length);
    memcpy(answers[0], &a, sizeof a);
    give_answers(answers, 1, sizeof a / 8);
    about_to("slovdrim_stretch", file, length, 1, 0, bytes, 0);
    b = slovdrim_stretch(file, bytes, length, 1, 1);
    memcpy(answers[0], &b, sizeof b);
    give_answers(answers, 1, sizeof b / 8);
    take_back_huge(bytes, length);
}

/* The writer */

static uint8_t given[1 << 20], held[1 << 20];

static void take_given(size_t length)
{
    if (length > sizeof given)
        give_up("more buffer than the driver keeps");
    take_bytes(given, length);
}

/* Text and buffer both at their ends, both at their starts, and NULL for the one, the other and both, where they are empty. */
static const enum placing text_places[] = {AT_END, AT_START, NOWHERE, AT_END, NOWHERE}, buffer_places[] = {AT_END, AT_START, AT_END, NOWHERE, NOWHERE};
enum { WRITE_PLACINGS = sizeof text_places / sizeof *text_places };

static void write_request(void)
{
    uint64_t file = take_word(), field = take_word(), place = take_word(), text_length = take_word(), differs = 0;
    uint64_t words[2] = {0, 0};
    size_t length;
    int i;
    lend(&text_bytes, text_length);
    length = take_word();
    take_given(length);
    for (i = 0; i < WRITE_PLACINGS; i++) {
        const uint8_t *text = lent_at(&text_bytes, text_places[i]);
        uint8_t *to;
        slovdrim_write_answer a;
        if ((text_places[i] == NOWHERE && text_length != 0) || (buffer_places[i] == NOWHERE && length != 0))
            continue;
        to = lend_to_write(&buffer, buffer_places[i], given, length);
        about_to("slovdrim_write", file, field, place, text_places[i], text, text_length);
        a = slovdrim_write(file, field, text, text_length, to, length, place);
        if (i == 0) {
            words[0] = a.number;
            words[1] = a.place;
            memcpy(held, left_at(&buffer, AT_END), length);
        } else if (a.number != words[0] || a.place != words[1] || memcmp(held, left_at(&buffer, buffer_places[i]), length) != 0) {
            differs = (uint64_t)i;
        }
        if (beside_changed(&buffer, buffer_places[i]))
            differs = 100 + (uint64_t)i;
    }
    give_words(words, 2);
    give_words(&differs, 1);
    give_bytes(held, length);
}

/* Reads the lent file and writes it again field by field, from `place` on in the buffer that the request brings, each call at the place that the last one
   answered; file and buffer at their ends or at their starts, by turns. Gives the first number that isn't 0, the place at the end, and the buffer. */

enum { STRETCH_OUTSIDE = 99, BYTES_BESIDE = 98 };

/* One field; the number that it was answered with. */
static uint64_t rewrite_field(uint64_t file, uint64_t record, uint64_t field, enum placing where, uint8_t *to, uint64_t *place)
{
    const uint8_t *bytes = lent_at(&file_bytes, where);
    slovdrim_stretch_answer s;
    slovdrim_write_answer w;
    about_to("slovdrim_stretch", file, record, field, where, bytes, file_bytes.length);
    s = slovdrim_stretch(file, bytes, file_bytes.length, record, field);
    if (s.number != 0)
        return s.number;
    if (s.start > file_bytes.length || s.length > file_bytes.length - s.start)
        return STRETCH_OUTSIDE;
    about_to("slovdrim_write", file, field, *place, where, bytes + s.start, s.length);
    w = slovdrim_write(file, field, bytes + s.start, s.length, to, buffer.length, *place);
    *place = w.place;
    return w.number;
}

static void rewrite_request(void)
{
    static unsigned turn;
    uint64_t file = take_word(), fields = take_word(), words[2], record, field;
    enum placing where = turn++ % 2 == 0 ? AT_END : AT_START;
    const uint8_t *bytes = lent_at(&file_bytes, where);
    slovdrim_records_answer counted;
    size_t length;
    uint8_t *to;
    words[1] = take_word();
    length = take_word();
    take_given(length);
    to = lend_to_write(&buffer, where, given, length);
    about_to("slovdrim_records", file, 0, 0, where, bytes, file_bytes.length);
    counted = slovdrim_records(file, bytes, file_bytes.length);
    words[0] = counted.number;
    for (record = 1; words[0] == 0 && record <= counted.records; record++)
        for (field = 1; words[0] == 0 && field <= fields; field++)
            words[0] = rewrite_field(file, record, field, where, to, &words[1]);
    if (beside_changed(&buffer, where))
        words[0] = BYTES_BESIDE;
    give_words(words, 2);
    give_bytes(left_at(&buffer, where), length);
}

/* Sweeps: all strings that begin with a given one and are, but for their last byte, beginnings of a legal file. There are hundreds of millions, so
   the answers go into a digest; the model makes its own, and looks closer where the two differ. */

enum { LONGEST_SWEPT = 24, NUMBERS = 25 };

static struct {
    uint64_t file, fields, longest, stretches_to, digest;
    size_t letters;
    uint8_t alphabet[256], text[LONGEST_SWEPT];
    uint64_t records_hits[NUMBERS], stretch_hits[NUMBERS];
} sweep;

static void digest(const void *answer, size_t words)
{
    const uint64_t *w = answer;
    uint64_t h = sweep.digest;
    size_t i;
    for (i = 0; i < words; i++)
        h = ((h << 5 | h >> 59) ^ w[i]) * 0x9e3779b97f4a7c15u;
    sweep.digest = h;
}

static void swept_stretch(const uint8_t *bytes, size_t length, uint64_t record, uint64_t field, enum placing where)
{
    slovdrim_stretch_answer a;
    about_to("slovdrim_stretch", sweep.file, record, field, where, bytes, length);
    a = slovdrim_stretch(sweep.file, bytes, length, record, field);
    digest(&a, sizeof a / 8);
    sweep.stretch_hits[a.number < NUMBERS ? a.number : NUMBERS - 1]++;
}

/* All that is asked of one string. Whether it is a beginning of a legal file. */
static int swept_string(const uint8_t *bytes, size_t length, enum placing where)
{
    slovdrim_records_answer a;
    uint64_t record, field, last;
    about_to("slovdrim_records", sweep.file, 0, 0, where, bytes, length);
    a = slovdrim_records(sweep.file, bytes, length);
    digest(&a, sizeof a / 8);
    sweep.records_hits[a.number < NUMBERS ? a.number : NUMBERS - 1]++;
    last = a.records < LONGEST_SWEPT ? a.records : LONGEST_SWEPT;
    for (record = 0; a.number == 0 && record <= last + 1; record++)
        for (field = 0; field <= sweep.fields + 1; field++)
            swept_stretch(bytes, length, record, field, where);
    if (a.number != 0 && length <= sweep.stretches_to)
        swept_stretch(bytes, length, 1, 1, where);
    return a.number == 0 || a.number == 3;
}

/* The first `length` bytes of the text are a beginning: tries each next byte, at the end of a room and at the start of one by turns, then goes on from those that
   are beginnings too. */
static void sweep_from(size_t length)
{
    static unsigned turn;
    uint8_t goes_on[256];
    size_t i;
    file_bytes.length = length + 1;
    for (i = 0; i < sweep.letters; i++) {
        enum placing where = turn++ % 2 == 0 ? AT_END : AT_START;
        uint8_t *own = own_at(&file_bytes, where);
        memcpy(own, sweep.text, length);
        own[length] = sweep.alphabet[i];
        goes_on[i] = (uint8_t)swept_string(lent_at(&file_bytes, where), length + 1, where);
    }
    if (length + 1 < sweep.longest)
        for (i = 0; i < sweep.letters; i++)
            if (goes_on[i]) {
                sweep.text[length] = sweep.alphabet[i];
                sweep_from(length + 1);
            }
}

static void sweep_request(void)
{
    size_t length;
    memset(&sweep, 0, sizeof sweep);
    sweep.file = take_word();
    sweep.fields = take_word();
    sweep.longest = take_word();
    sweep.stretches_to = take_word();
    sweep.letters = take_word();
    if (sweep.letters > sizeof sweep.alphabet || sweep.longest > LONGEST_SWEPT)
        give_up("a sweep that is too wide or too long");
    take_bytes(sweep.alphabet, sweep.letters);
    length = take_word();
    if (length >= sweep.longest)
        give_up("a sweep that is over before it begins");
    take_bytes(sweep.text, length);
    sweep_from(length);
    give_words(&sweep.digest, 1);
    give_words(sweep.records_hits, NUMBERS);
    give_words(sweep.stretch_hits, NUMBERS);
}

int main(void)
{
    catch_crashes();
    open_lent(&file_bytes, 0);
    open_lent(&text_bytes, 0);
    open_lent(&buffer, 1);
    while (more()) {
        uint8_t letter;
        uint64_t version;
        take_bytes(&letter, 1);
        about_to(NULL, 0, 0, 0, 0, NULL, 0);
        switch (letter) {
        case 'L':
            lend(&file_bytes, take_word());
            break;
        case 'R':
            records_request();
            break;
        case 'S':
            stretches_request();
            break;
        case 'H':
            huge_request();
            break;
        case 'W':
            write_request();
            break;
        case 'A':
            rewrite_request();
            break;
        case 'G':
            sweep_request();
            break;
        case 'V':
            about_to("slovdrim_version", 0, 0, 0, 0, NULL, 0);
            version = slovdrim_version();
            give_words(&version, 1);
            break;
        default:
            if (!days_request(letter) && !fields_request(letter) && !batch_request(letter) && !order_request(letter) && !trips_request(letter) && !sales_request(letter))
                give_up("a request that it doesn't know");
        }
    }
    flush();
    return 0;
}
