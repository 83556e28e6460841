/* The desk host under libFuzzer: one input is a folder of files, a list of holidays, arguments and a language. The host's main runs in this process, once in
   English and once in Czech. It must not crash, end with 0, 1 or 2 in both, say what its status says, and what the library says; it must write nothing to
   standard output that steers a terminal, and give its memory back, also where it was refused some. */
#define _GNU_SOURCE
#include <stdarg.h>
#include <stdio.h>
#include <stdlib.h>
#include <string.h>
#include <sys/stat.h>
#include <unistd.h>

#include "desk_memory.h"
#include "input.h"
#include "proved.h"

int LLVMFuzzerTestOneInput(const uint8_t *bytes, size_t length);

/* Of the host. */
int desk_main(int argc, char **argv);
extern int speaks_czech;
struct text {
    const uint8_t *bytes;
    size_t length;
};
void show(FILE *to, struct text text);

static struct input in;

/* What the run is told of its host. */
enum { MOST_ARGUMENTS = 12, MOST_OUTPUT = 1 << 20 };
static char *arguments[MOST_ARGUMENTS + 1];
static int argument_count;

struct outcome {
    int status;
    char *said, *complained;
    size_t said_length, complained_length;
};

static void must(int holds, const char *what, const struct outcome *o)
{
    int i;
    if (holds)
        return;
    fprintf(stderr, "fuzz: this does not hold: %s\n  arguments:", what);
    for (i = 0; i < argument_count; i++)
        fprintf(stderr, " [%s]", arguments[i]);
    if (o != NULL)
        fprintf(stderr, "\n  status %d, standard output:\n%s\n  standard error:\n%s\n", o->status, o->said, o->complained);
    abort();
}

/* The folder */

static char folder[64], batch_folder[80], list_path[80];
static const char *const names[FILES] = {"VerzeJDF", "Zastavky", "Pevnykod", "Dopravci", "Linky", "Spoje", "Zaslinky", "Zasspoje", "Udaje", "Caskody", "Altdop", "Altlinky", "Mistenky"};

static void path_of(int file, char path[128])
{
    snprintf(path, 128, "%s/%s.txt", batch_folder, names[file]);
}

static void write_whole(const char *path, const uint8_t *bytes, size_t length)
{
    FILE *to = fopen(path, "wb");
    if (to == NULL || fwrite(bytes, 1, length, to) != length || fclose(to) != 0) {
        perror(path);
        exit(3);
    }
}

static void remove_folder(void)
{
    char path[128];
    int file;
    for (file = 0; file < FILES; file++) {
        path_of(file, path);
        remove(path);
    }
    remove(batch_folder);
    remove(list_path);
    remove(folder);
}

static void make_folder(void)
{
    snprintf(folder, sizeof folder, "%s", access("/dev/shm", W_OK) == 0 ? "/dev/shm/slovdrim-fuzz-XXXXXX" : "/tmp/slovdrim-fuzz-XXXXXX");
    if (mkdtemp(folder) == NULL) {
        perror(folder);
        exit(3);
    }
    snprintf(batch_folder, sizeof batch_folder, "%s/batch", folder);
    snprintf(list_path, sizeof list_path, "%s/holidays", folder);
    mkdir(batch_folder, 0700);
    atexit(remove_folder);
}

/* A file may be missing, a directory, or a link to itself. The last two can't be read. */
enum form { PLAIN, ABSENT, DIRECTORY, LOOP, FORMS };

static enum form form_of(int file)
{
    return in.numbers[PLACE] % 16 < FORMS && in.numbers[FIELD] % FILES == (uint64_t)file ? (enum form)(in.numbers[PLACE] % 16) : PLAIN;
}

static void write_files(void)
{
    static struct part there[FILES];
    static enum form forms[FILES];
    static int written[FILES];
    int file;
    for (file = 0; file < FILES; file++) {
        const struct part *part = &in.parts[file];
        enum form form = form_of(file);
        char path[128];
        path_of(file, path);
        if (written[file] && form == forms[file] && part->length == there[file].length && memcmp(part->bytes, there[file].bytes, part->length) == 0)
            continue;
        if (form != PLAIN || forms[file] != PLAIN)
            remove(path);
        if (form == PLAIN)
            write_whole(path, part->bytes, part->length);
        if ((form == DIRECTORY && mkdir(path, 0700) != 0) || (form == LOOP && symlink(path, path) != 0))
            perror(path);
        there[file].length = part->length;
        memcpy(there[file].bytes, part->bytes, part->length);
        forms[file] = form;
        written[file] = 1;
    }
}

/* The list of holidays: a line for each number, as a day number or as a date; and any text, if the input says so. A number that is no day ends the run, so few of
   those are written. */
static void write_list(void)
{
    static char text[4 * LONGEST_PART];
    const struct part *days = &in.parts[HOLIDAYS], *more = &in.parts[TEXT];
    size_t i, at = 0;
    for (i = 0; i + 8 <= days->length && i < 800; i += 8) {
        uint64_t day;
        slovdrim_date_answer d;
        memcpy(&day, days->bytes + i, 8);
        proved_date(&d, day);
        if (d.number != 0 && day % 16 != 1)
            continue;
        if (d.number != 0 || day % 2 == 0)
            at += (size_t)sprintf(text + at, "%llu\n", (unsigned long long)day);
        else
            at += (size_t)sprintf(text + at, "%llu.%llu.%llu # x\r\n", (unsigned long long)d.day, (unsigned long long)d.month, (unsigned long long)d.year);
    }
    if ((in.choices & 4) != 0) {
        memcpy(text + at, more->bytes, more->length);
        at += more->length;
    }
    write_whole(list_path, (const uint8_t *)text, at);
}

/* Arguments */

static void add(const char *format, ...)
{
    va_list list;
    if (argument_count == MOST_ARGUMENTS)
        return;
    va_start(list, format);
    if (vasprintf(&arguments[argument_count], format, list) < 0)
        exit(3);
    va_end(list);
    argument_count++;
    arguments[argument_count] = NULL;
}

static void drop_arguments(void)
{
    while (argument_count > 0)
        free(arguments[--argument_count]);
}

static void add_bytes(const struct part *part)
{
    add("%.*s", (int)part->length, (const char *)part->bytes);
}

static void add_number(uint64_t number)
{
    add("%llu", (unsigned long long)number);
}

/* A part of a name as it would be typed; the host's own letters are used for it. */
static void add_name(const struct part *part)
{
    char *typed = NULL;
    size_t length = 0;
    FILE *to = open_memstream(&typed, &length);
    show(to, (struct text){part->bytes, part->length});
    fclose(to);
    add("%s", typed);
    free(typed);
}

static void add_date(void)
{
    const uint64_t *n = in.numbers;
    if ((in.choices & 16) != 0)
        add("%llu-%02llu-%02llu", (unsigned long long)n[YEAR], (unsigned long long)n[MONTH], (unsigned long long)n[DAY]);
    else
        add("%llu.%llu.%llu", (unsigned long long)n[DAY], (unsigned long long)n[MONTH], (unsigned long long)n[YEAR]);
}

static void add_list(void)
{
    if ((in.choices & 32) != 0) {
        add("--holidays");
        add("%s", list_path);
    } else {
        add("--no-holidays");
    }
}

/* A stop that the batch's trips call at, for most numbers. */
static uint64_t stop_called_at(uint64_t number)
{
    size_t records = count_records(&in.parts[7]);
    return records == 0 || (in.choices & 8) != 0 ? number : field_value(&in.parts[7], number % records, 3);
}

/* Any words in any order: each byte of the text is one of these, or the rest of the text itself. */
static void add_words(void)
{
    static const char *const words[] = {"check", "sale", "trips", "stops", "stop", "--help", "--holidays", "--no-holidays", "--", "1", "790123", "11.6.2001", "", "--x"};
    enum { OWN = sizeof words / sizeof *words, BATCH_FOLDER = OWN, LIST_PATH, REST, CHOICES };
    const struct part *text = &in.parts[TEXT];
    size_t i;
    for (i = 0; i < text->length && argument_count < MOST_ARGUMENTS; i++) {
        int choice = text->bytes[i] % CHOICES;
        if (choice == REST) {
            add("%.*s", (int)(text->length - i), (const char *)text->bytes + i);
            return;
        }
        add("%s", choice < OWN ? words[choice] : choice == BATCH_FOLDER ? batch_folder : list_path);
    }
}

enum command { CHECK, SALE, TRIPS, STOPS, STOP, SALE_AGAIN, TRIPS_AGAIN, WORDS, COMMANDS };

static enum command make_arguments(void)
{
    enum command command = in.call % COMMANDS;
    static const char *const command_names[] = {"check", "sale", "trips", "stops", "stop", "sale", "trips"};
    const uint64_t *n = in.numbers;
    int i;
    add("desk");
    if (command == WORDS) {
        add_words();
        return command;
    }
    add("%s", command_names[command]);
    if (command != CHECK && in.numbers[DAY_NUMBER] % 64 == 3)
        add_bytes(&in.parts[TEXT]);
    else
        add("%s", batch_folder);
    switch (command) {
    case SALE:
    case SALE_AGAIN:
        add_number(n[LINE]), add_number(n[TRIP]), add_date(), add_number(n[FROM]), add_number(n[TO]), add_list();
        return SALE;
    case TRIPS:
    case TRIPS_AGAIN:
        add_number(stop_called_at(n[FROM])), add_number(stop_called_at(n[TO])), add_date(), add_list();
        return TRIPS;
    case STOPS:
        add_number(n[LINE]), add_number(n[TRIP]);
        break;
    case STOP:
        for (i = 0; i < 3; i++)
            add_name(&in.parts[NAME + i]);
        break;
    default:
        break;
    }
    return command;
}

/* One run */

static void choose_environment(const char *language)
{
    static const char *const variables[] = {"LC_ALL", "LC_MESSAGES", "LANG"};
    int i, chosen = in.choices % 3;
    for (i = 0; i < 3; i++)
        if (i < chosen)
            setenv(variables[i], "", 1);
        else
            setenv(variables[i], i == chosen ? language : "C", 1);
}

/* `to`: what standard output is, or NULL for memory. */
static struct outcome run(const char *language, unsigned refused, FILE *to)
{
    struct outcome o = {0, NULL, NULL, 0, 0};
    FILE *said = open_memstream(&o.said, &o.said_length), *complained = open_memstream(&o.complained, &o.complained_length), *out = stdout, *err = stderr;
    choose_environment(language);
    speaks_czech = 0;
    refuse_memory(refused);
    stdout = to != NULL ? to : said;
    stderr = complained;
    o.status = desk_main(argument_count, arguments);
    stdout = out;
    stderr = err;
    fclose(said);
    fclose(complained);
    return o;
}

static void drop(struct outcome *o)
{
    free(o->said);
    free(o->complained);
}

/* How many bytes a letter of UTF-8 has, or 0 if it is none, or one that steers a terminal. */
static size_t letter_at(const uint8_t *at, size_t left)
{
    size_t length = at[0] < 0x80 ? 1 : at[0] < 0xc2 ? 0 : at[0] < 0xe0 ? 2 : at[0] < 0xf0 ? 3 : 0, i;
    if (length == 0 || length > left || (at[0] < 32 && at[0] != '\n') || at[0] == 127 || (at[0] == 0xc2 && at[1] < 0xa0))
        return 0;
    for (i = 1; i < length; i++)
        if ((at[i] & 0xc0) != 0x80)
            return 0;
    return length;
}

static int is_clean(const struct outcome *o)
{
    size_t at = 0, taken = 1;
    for (; at < o->said_length && taken > 0; at += taken)
        taken = letter_at((const uint8_t *)o->said + at, o->said_length - at);
    return taken > 0 && (o->said_length == 0 || o->said[o->said_length - 1] == '\n');
}

static int is_refusal(const struct outcome *o)
{
    return strncmp(o->said, "REFUSED ", 8) == 0;
}

static void judge_outcome(const struct outcome *o, int refused_memory)
{
    must(o->status >= 0 && o->status <= 2, "the status is 0, 1 or 2", o);
    must(o->status != 0 || (o->said_length > 0 && !is_refusal(o)), "0 is an answer on standard output", o);
    must(o->status != 1 || is_refusal(o), "1 is a refusal on standard output", o);
    must(o->status != 2 || o->said_length == 0, "2 leaves standard output empty", o);
    must(o->status != 2 || o->complained_length > 0, "2 says why on standard error", o);
    must(is_clean(o), "standard output is lines of UTF-8 without anything that steers a terminal", o);
    /* Texts of a complaint may last as long as the program. */
    must(memory_held() == 0 || o->complained_length > 0, refused_memory ? "all memory is given back, though some was refused" : "all memory is given back", o);
}

/* What the library says of the batch as it was written: the first line, or none if the question can't be told from here. */
static int expected_line(enum command command, char line[200])
{
    size_t n[FILES];
    slovdrim_check_answer a;
    int i;
    if (command == WORDS || in.numbers[DAY_NUMBER] % 64 == 3)
        return 0;
    for (i = 0; i < FILES; i++) {
        if (form_of(i) == DIRECTORY || form_of(i) == LOOP)
            return 0;
        n[i] = form_of(i) == ABSENT ? 0 : in.parts[i].length;
    }
#define ONE(i) in.parts[i].bytes, n[i]
    proved_check(&a, ONE(0), ONE(1), ONE(2), ONE(3), ONE(4), ONE(5), ONE(6), ONE(7), ONE(8), ONE(9), ONE(10), ONE(11), ONE(12));
#undef ONE
    if (a.number == 0 && command == CHECK)
        return snprintf(line, 200, "ACCEPTED stops %llu lines %llu trips %llu trip stops %llu\n", (unsigned long long)a.stops, (unsigned long long)a.lines,
                        (unsigned long long)a.trips, (unsigned long long)a.trip_stops);
    if (a.number != 0)
        return snprintf(line, 200, "REFUSED %llu file %llu record %llu field %llu at %llu\n", (unsigned long long)a.number, (unsigned long long)a.file,
                        (unsigned long long)a.record, (unsigned long long)a.field, (unsigned long long)a.offset);
    keep_standing(&in);
    return 0;
}

/* Two runs in two languages say the same; the first line of a refusal is in neither. */
static void judge_both(const struct outcome *english, const struct outcome *czech)
{
    size_t line = strcspn(english->said, "\n");
    must(english->status == czech->status, "the status is the same in both languages", czech);
    if (is_refusal(english))
        must(strncmp(english->said, czech->said, line + 1) == 0, "a refusal has the same first line in both languages", czech);
}

/* What was met: statuses by command, and numbers of refusals. */
static uint64_t inputs, statuses[COMMANDS][3], numbers_met[25];

static void tell_met(void)
{
    static const char *const told[] = {"check", "sale", "trips", "stops", "stop", "", "", "any words"};
    size_t i;
    printf("fuzz: %llu inputs, each in two languages; how often each command ended with each status:\n", (unsigned long long)inputs);
    for (i = 0; i < COMMANDS; i++)
        if (told[i][0] != 0)
            printf("  %-10s 0: %llu 1: %llu 2: %llu\n", told[i], (unsigned long long)statuses[i][0], (unsigned long long)statuses[i][1],
                   (unsigned long long)statuses[i][2]);
    printf("  refusals  ");
    for (i = 1; i < 25; i++)
        if (numbers_met[i] > 0)
            printf(" %zu: %llu", i, (unsigned long long)numbers_met[i]);
    printf("\n");
    fflush(stdout);
}

static void count(enum command command, const struct outcome *o)
{
    unsigned long number = is_refusal(o) ? strtoul(o->said + 8, NULL, 10) : 0;
    statuses[command][o->status]++;
    if (number < 25)
        numbers_met[number]++;
}

/* The same with memory refused once: the same answer, or none. */
static void try_without_memory(const struct outcome *english, unsigned nth)
{
    struct outcome o = run("cs_CZ.UTF-8", nth, NULL);
    judge_outcome(&o, was_refused());
    must(o.status == 2 || o.status == english->status, "memory that is refused changes no answer", &o);
    drop(&o);
}

/* The same where nothing can be written. */
static void try_without_room(void)
{
    FILE *full = fopen("/dev/full", "w");
    struct outcome o;
    if (full == NULL)
        return;
    o = run("en_GB.UTF-8", 0, full);
    fclose(full);
    must(o.status == 2 && o.complained_length > 0, "an answer that can't be written is none", &o);
    drop(&o);
}

/* Decides, for each input in the same way, which request for memory is refused. */
static unsigned mixed(const uint8_t *bytes, size_t length)
{
    uint32_t sum = 2166136261u;
    size_t i;
    for (i = 0; i < length; i++)
        sum = (sum ^ bytes[i]) * 16777619u;
    return sum >> 8;
}

int LLVMFuzzerTestOneInput(const uint8_t *bytes, size_t length)
{
    enum command command;
    char line[200];
    struct outcome english, czech;
    unsigned chance = mixed(bytes, length);
    if (inputs++ == 0) {
        make_folder();
        atexit(tell_met);
    }
    decode(bytes, length, &in);
    write_files();
    write_list();
    command = make_arguments();
    english = run("en_GB.UTF-8", 0, NULL);
    judge_outcome(&english, 0);
    if (expected_line(command, line) > 0 && english.status != 2)
        must(strncmp(english.said, line, strlen(line)) == 0, line, &english);
    czech = run("cs_CZ.UTF-8", 0, NULL);
    judge_outcome(&czech, 0);
    judge_both(&english, &czech);
    try_without_memory(&english, 1 + chance % 40);
    if (chance % 16 == 0)
        try_without_room();
    count(command, &english);
    drop(&english);
    drop(&czech);
    drop_arguments();
    return 0;
}
