/* holds NUMBER FILE: says what one file of a batch holds: how many records, and each record's fields; or why it is no legal file, and where.
   NUMBER is the file's number in the batch, 1 to 13 (2 is Zastavky). Exit status: 0 if the file is legal, 1 if it is refused, 2 if it can't be read or the
   answer can't be written.

   It is an example of the calls on one file, and asks for each field by itself. slovdrim_stretch reads the whole file for each, so the time grows with the
   square of the file's length. */
#include <errno.h>
#include <inttypes.h>
#include <stdio.h>
#include <stdlib.h>
#include <string.h>

#include "cp1250.h"
#include "slovdrim.h"

struct kind {
    const char *name;
    uint64_t fields;
};

static const struct kind kinds[] = {
    {"no file of a batch", 0}, {"VerzeJDF", 1},  {"Zastavky", 12}, {"Pevnykod", 3}, {"Dopravci", 11}, {"Linky", 10},  {"Spoje", 12},
    {"Zaslinky", 7},           {"Zasspoje", 10}, {"Udaje", 3},     {"Caskody", 8},  {"Altdop", 13},   {"Altlinky", 3}, {"Mistenky", 3},
};

static void refuse(const slovdrim_records_answer *a, const uint8_t *bytes)
{
    switch (a->number) {
    case SLOVDRIM_NO_SUCH:
        printf("refused (%d): no file of a batch has this number\n", SLOVDRIM_NO_SUCH);
        break;
    case SLOVDRIM_TOO_LONG:
        printf("refused (%d): file %" PRIu64 " has more than %d bytes\n", SLOVDRIM_TOO_LONG, a->file, SLOVDRIM_LONGEST);
        break;
    case SLOVDRIM_NOT_LEGAL:
        printf("refused (%d): file %" PRIu64 " at offset %" PRIu64 ": no legal file goes on with the byte 0x%02x\n", SLOVDRIM_NOT_LEGAL, a->file, a->offset,
               bytes[a->offset]);
        break;
    case SLOVDRIM_ENDS_INSIDE:
        printf("refused (%d): file %" PRIu64 " at offset %" PRIu64 ": the file ends inside a record\n", SLOVDRIM_ENDS_INSIDE, a->file, a->offset);
        break;
    default:
        printf("refused (%" PRIu64 ")\n", a->number);
    }
}

/* All bytes of a file, and one more byte of room so that an empty file has a place too. NULL if it can't be read whole; one that is longer than the
   library reads is read just so far that the library sees it. */
static uint8_t *bytes_of(const char *path, size_t *length)
{
    size_t room = (size_t)SLOVDRIM_LONGEST + 2;
    uint8_t *bytes = malloc(room);
    FILE *f = fopen(path, "rb");
    if (bytes == NULL || f == NULL) {
        free(bytes);
        if (f != NULL)
            fclose(f);
        return NULL;
    }
    *length = fread(bytes, 1, room - 1, f);
    if (ferror(f)) {
        free(bytes);
        bytes = NULL;
    }
    fclose(f);
    return bytes;
}

/* What the file of this number holds; the exit status. */
static int show_file(uint64_t file, const uint8_t *bytes, size_t length)
{
    uint64_t record, field;
    slovdrim_records_answer a = slovdrim_records(file, bytes, length);
    if (a.number != SLOVDRIM_ANSWER) {
        refuse(&a, bytes);
        return 1;
    }
    printf("%s: %" PRIu64 " record%s\n", kinds[file].name, a.records, a.records == 1 ? "" : "s");
    for (record = 1; record <= a.records; record++) {
        printf("%" PRIu64 ":", record);
        for (field = 1; field <= kinds[file].fields; field++) {
            slovdrim_stretch_answer s = slovdrim_stretch(file, bytes, length, record, field);
            printf(field == 1 ? " " : " | ");
            if (s.number != SLOVDRIM_ANSWER) {
                /* the count was of these very bytes, so this is never met; a refusal must not look like an empty text */
                printf("\n");
                fprintf(stderr, "holds: record %" PRIu64 ", field %" PRIu64 ": refusal %" PRIu64 "\n", record, field, s.number);
                return 1;
            }
            show_cp1250(stdout, bytes + s.start, s.length);
        }
        putchar('\n');
    }
    return 0;
}

int main(int argc, char **argv)
{
    uint64_t file;
    char *end;
    uint8_t *bytes;
    size_t length = 0;
    int status;

    if (slovdrim_version() != SLOVDRIM_VERSION) {
        fprintf(stderr, "holds: the library is not of this header's version\n");
        return 2;
    }
    if (argc != 3 || argv[1][0] < '0' || argv[1][0] > '9') {
        fprintf(stderr, "holds NUMBER FILE\n");
        return 2;
    }
    errno = 0;
    file = strtoull(argv[1], &end, 10);
    if (errno != 0 || *end != 0) {
        fprintf(stderr, "holds: %s is no number\n", argv[1]);
        return 2;
    }
    bytes = bytes_of(argv[2], &length);
    if (bytes == NULL) {
        fprintf(stderr, "holds: %s can't be read\n", argv[2]);
        return 2;
    }
    status = show_file(file, bytes, length);
    free(bytes);
    if (fflush(stdout) != 0 || ferror(stdout)) {
        fprintf(stderr, "holds: the answer can't be written\n");
        return 2;
    }
    return status;
}
