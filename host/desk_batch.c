/* The thirteen files of a batch, read into memory, and the order of their keys. */
#define _POSIX_C_SOURCE 200809L
#include "desk.h"

#include <errno.h>
#include <stdlib.h>
#include <string.h>
#include <sys/stat.h>

enum { FIRST_ROOM = 65536 };

const struct kind kinds[FILES + 1] = {
    {"", 0, 0},          {"VerzeJDF", 1, 0},  {"Zastavky", 12, 1}, {"Pevnykod", 3, 1}, {"Dopravci", 11, 1}, {"Linky", 10, 1},   {"Spoje", 12, 2},
    {"Zaslinky", 7, 2},  {"Zasspoje", 10, 3}, {"Udaje", 3, 2},     {"Caskody", 8, 3},  {"Altdop", 13, 0},   {"Altlinky", 3, 0}, {"Mistenky", 3, 0},
};

const char *why_not(int error)
{
    switch (error) {
    case ENOENT:
        return either("it isn't there", "neexistuje");
    case EACCES:
        return either("no permission", "chybí oprávnění");
    case EISDIR:
        return either("it is a directory", "je to adresář");
    case ENOTDIR:
        return either("it is no directory", "není to adresář");
    case ELOOP:
        return either("it is a link that leads back to itself", "je to odkaz, který vede zpět k sobě");
    case ENAMETOOLONG:
        return either("the name is too long", "název je příliš dlouhý");
    case EIO:
        return either("reading failed", "čtení selhalo");
    default:
        return strerror(error);
    }
}

/* Twice the room, up to MOST_BYTES. */
static int grow(struct file *file, size_t *room)
{
    size_t wanted = *room == 0 ? FIRST_ROOM : *room * 2;
    uint8_t *bytes = realloc(file->bytes, wanted);
    if (bytes == NULL)
        return 0;
    file->bytes = bytes;
    *room = wanted;
    return 1;
}

static enum reading read_from(FILE *from, struct file *file)
{
    size_t room = 0, taken;
    do {
        if (file->length == room && !grow(file, &room))
            return NO_MEMORY;
        taken = fread(file->bytes + file->length, 1, room - file->length, from);
        file->length += taken;
    } while (taken > 0 && !ferror(from) && file->length < MOST_BYTES);
    return ferror(from) ? NOT_READ : READ_WHOLE;
}

static int is_there(const char *path)
{
    struct stat found;
    return lstat(path, &found) == 0;
}

/* The bytes of a file. Of one that is longer than the library reads it takes one byte more than that, which gives the same verdict. The file is copied and
   not mapped, so that it may be cut meanwhile. A link to nothing is there and isn't read. errno says why it was not read. */
enum reading read_bytes(const char *path, struct file *file)
{
    enum reading outcome;
    int error;
    FILE *from = fopen(path, "rb");
    file->bytes = NULL;
    file->length = 0;
    if (from == NULL)
        return errno == ENOENT && !is_there(path) ? MISSING : NOT_READ;
    errno = 0;
    outcome = read_from(from, file);
    error = errno;
    fclose(from);
    if (outcome != READ_WHOLE) {
        free(file->bytes);
        file->bytes = NULL;
        file->length = 0;
    }
    errno = error;
    return outcome;
}

static enum status refuse_file(const char *path, int error)
{
    end_waiting();
    COMPLAIN("%s can't be read: %s", "%s nelze přečíst: %s", plain(path),
             error == ENOENT ? either("it is a link to nothing", "je to odkaz, který nikam nevede") : why_not(error));
    return WRONG_USE;
}

/* A missing file counts as empty, and that is said. */
static enum status read_file(const char *folder, unsigned number, struct file *file)
{
    size_t room = strlen(folder) + strlen(kinds[number].name) + sizeof "/.txt";
    char *path = malloc(room);
    enum status status = ANSWERED;
    if (path == NULL)
        return no_memory();
    snprintf(path, room, "%s/%s.txt", folder, kinds[number].name);
    switch (read_bytes(path, file)) {
    case READ_WHOLE:
        break;
    case MISSING:
        end_waiting();
        COMPLAIN("%s is missing and counts as empty", "soubor %s chybí a považuje se za prázdný", plain(path));
        begin_waiting();
        break;
    case NOT_READ:
        status = refuse_file(path, errno);
        break;
    case NO_MEMORY:
        status = no_memory();
        break;
    }
    free(path);
    return status;
}

static enum status look_for_folder(const char *folder)
{
    struct stat found;
    int error;
    if (stat(folder, &found) == 0) {
        if (S_ISDIR(found.st_mode))
            return ANSWERED;
        errno = ENOTDIR;
    }
    error = errno;
    COMPLAIN("\"%s\" can't be read: %s", "\"%s\" nelze přečíst: %s", plain(folder), why_not(error));
    return WRONG_USE;
}

static void key_of(struct text record, unsigned keys, uint64_t key[3])
{
    unsigned i;
    for (i = 0; i < 3; i++)
        key[i] = i < keys ? number_at(record, i + 1) : 0;
}

static int compare_keys(const uint64_t a[3], const uint64_t b[3])
{
    int i;
    for (i = 0; i < 3; i++)
        if (a[i] != b[i])
            return a[i] < b[i] ? -1 : 1;
    return 0;
}

/* Whether the keys strictly rise from record to record, and how many records there are. */
static int keys_rise(const struct file *file, unsigned keys, size_t *records)
{
    uint64_t last[3] = {0, 0, 0}, key[3];
    struct text record;
    int rise = 1;
    *records = 0;
    for (record = first_record(file); record.length > 0; record = next_record(file, record)) {
        key_of(record, keys, key);
        rise = rise && (*records == 0 || compare_keys(last, key) < 0);
        memcpy(last, key, sizeof last);
        ++*records;
    }
    return rise;
}

/* How many places the list has that slovdrim.h describes at slovdrim_order: the records of the files whose keys don't rise. */
static size_t places_of(const struct batch *batch)
{
    size_t places = 0, records;
    unsigned n;
    for (n = SLOVDRIM_ZASTAVKY; n <= SLOVDRIM_CASKODY; n++)
        if (!keys_rise(&batch->files[n], kinds[n].keys, &records))
            places += records;
    return places;
}

/* The hint, for a batch that has a file whose keys don't rise. It changes no answer: where there is none, since a file is refused by itself or since there
   is no memory, the batch is judged without it. */
static void find_order(struct batch *batch)
{
    size_t places = places_of(batch);
    uint32_t *list = places == 0 || places > SIZE_MAX / sizeof *list ? NULL : malloc(places * sizeof *list);
    slovdrim_order_answer answer;
    if (list == NULL)
        return;
    answer = slovdrim_order(EACH_FILE(batch), list, places);
    if (answer.number != SLOVDRIM_ANSWER) {
        free(list);
        return;
    }
    batch->order = list;
    batch->order_count = answer.written;
}

/* The waiting begins here, and goes on for whoever has the batch judged. */
enum status read_batch(const char *folder, struct batch *batch)
{
    enum status status;
    unsigned n;
    memset(batch, 0, sizeof *batch);
    status = look_for_folder(folder);
    begin_waiting();
    for (n = 1; n <= FILES && status == ANSWERED; n++)
        status = read_file(folder, n, &batch->files[n]);
    if (status != ANSWERED) {
        end_waiting();
        free_batch(batch);
        return status;
    }
    find_order(batch);
    return ANSWERED;
}

void free_batch(struct batch *batch)
{
    unsigned n;
    for (n = 1; n <= FILES; n++)
        free(batch->files[n].bytes);
    free(batch->order);
    memset(batch, 0, sizeof *batch);
}
