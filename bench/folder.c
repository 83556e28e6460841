/* The plain C's answers on a batch in a folder: the line that the check program writes, and for each question in the folder's sales.txt and stops.txt the
   question with its answer, as in worked cases. */
#include "folder.h"

#include <stdio.h>
#include <stdlib.h>
#include <string.h>

#include "plain.h"

enum { FILES = 13, MOST_HOLIDAYS = 4096, LONGEST_LINE = 4096 };

static const char *const names[FILES + 1] = {"",      "VerzeJDF", "Zastavky", "Pevnykod", "Dopravci", "Linky",    "Spoje",
                                             "Zaslinky", "Zasspoje", "Udaje",    "Caskody",  "Altdop",   "Altlinky", "Mistenky"};

static FILE *open_in(const char *folder, const char *name)
{
    char path[4096];
    snprintf(path, sizeof path, "%s/%s.txt", folder, name);
    return fopen(path, "rb");
}

/* A missing file counts as empty. */
static uint8_t *read_whole(const char *folder, const char *name, size_t *length)
{
    FILE *in = open_in(folder, name);
    size_t room = 1 << 25;
    uint8_t *bytes = malloc(room);
    if (bytes == NULL)
        exit(2);
    *length = in == NULL ? 0 : fread(bytes, 1, room, in);
    if (in != NULL)
        fclose(in);
    return bytes;
}

static void print_verdict(const struct plain_answer *a)
{
    if (a->number == 0)
        printf("ACCEPTED stops %llu lines %llu trips %llu trip stops %llu\n", (unsigned long long)a->stops, (unsigned long long)a->lines,
               (unsigned long long)a->trips, (unsigned long long)a->trip_stops);
    else
        printf("REFUSED %llu file %llu record %llu field %llu at %llu\n", (unsigned long long)a->number, (unsigned long long)a->file,
               (unsigned long long)a->record, (unsigned long long)a->field, (unsigned long long)a->offset);
}

static size_t read_holidays(const char *folder, uint64_t *holidays)
{
    FILE *in = open_in(folder, "holidays");
    size_t n = 0;
    unsigned long long day;
    if (in == NULL)
        return 0;
    while (n < MOST_HOLIDAYS && fscanf(in, "%llu", &day) == 1)
        holidays[n++] = day;
    fclose(in);
    return n;
}

static void answer_sales(const char *folder, const struct plain_batch *batch)
{
    static uint64_t holidays[MOST_HOLIDAYS];
    size_t count = read_holidays(folder, holidays);
    FILE *in = open_in(folder, "sales");
    unsigned long long q[7];
    char line[LONGEST_LINE];
    while (in != NULL && fgets(line, sizeof line, in) != NULL) {
        struct plain_sold sold;
        if (sscanf(line, "%llu %llu %llu %llu %llu %llu %llu", &q[0], &q[1], &q[2], &q[3], &q[4], &q[5], &q[6]) != 7)
            continue;
        sold = plain_sale(batch, holidays, count, &(struct plain_question){q[0], q[1], q[2], q[3], q[4], q[5], q[6]});
        printf("%llu %llu %llu %llu %llu %llu %llu = ", q[0], q[1], q[2], q[3], q[4], q[5], q[6]);
        if (sold.number == 0)
            printf("%llu %llu\n", (unsigned long long)sold.departure, (unsigned long long)sold.arrival);
        else
            printf("refused %llu\n", (unsigned long long)sold.number);
    }
    if (in != NULL)
        fclose(in);
}

/* Three names with tabs between and behind. */
static int cut_names(char *line, struct plain_text name[3])
{
    int i;
    for (i = 0; i < 3; i++) {
        char *end = strchr(line, '\t');
        if (end == NULL)
            return 0;
        name[i] = (struct plain_text){(const uint8_t *)line, (size_t)(end - line)};
        line = end + 1;
    }
    return 1;
}

static void answer_stops(const char *folder, const struct plain_batch *batch)
{
    FILE *in = open_in(folder, "stops");
    char line[LONGEST_LINE];
    while (in != NULL && fgets(line, sizeof line, in) != NULL) {
        struct plain_text name[3];
        uint64_t number, value;
        if (!cut_names(line, name))
            continue;
        number = plain_stop(batch, name, &value);
        fwrite(line, 1, (size_t)((const char *)name[2].at + name[2].length + 1 - line), stdout);
        if (number == 0)
            printf("= stop %llu\n", (unsigned long long)value);
        else if (number == 24)
            printf("= refused 24, %llu\n", (unsigned long long)value);
        else
            printf("= refused %llu\n", (unsigned long long)number);
    }
    if (in != NULL)
        fclose(in);
}

void folder_show(const char *folder)
{
    uint8_t *bytes[FILES + 1] = {NULL};
    size_t lengths[FILES + 1] = {0};
    struct plain_answer answer;
    struct plain_batch *batch;
    unsigned file;
    for (file = 1; file <= FILES; file++)
        bytes[file] = read_whole(folder, names[file], &lengths[file]);
    batch = plain_open(bytes, lengths, &answer);
    print_verdict(&answer);
    if (answer.number == 0) {
        answer_sales(folder, batch);
        answer_stops(folder, batch);
    }
    plain_free(batch);
    for (file = 1; file <= FILES; file++)
        free(bytes[file]);
}
