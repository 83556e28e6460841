/* Numbers, dates and lists of holidays, as people type them. Whether a date is real is the library's to say. */
#include "desk.h"

#include <errno.h>
#include <stdlib.h>
#include <string.h>

/* A number is digits and nothing else, at most UINT64_MAX. */
int typed_number(const char *text, size_t length, uint64_t *number)
{
    size_t i;
    *number = 0;
    for (i = 0; i < length; i++) {
        unsigned digit = (unsigned)((unsigned char)text[i] - '0');
        if (digit > 9 || *number > (UINT64_MAX - digit) / 10)
            return 0;
        *number = *number * 10 + digit;
    }
    return length > 0;
}

enum status argument_number(const char *argument, uint64_t *number)
{
    if (typed_number(argument, strlen(argument), number))
        return ANSWERED;
    if (*argument != 0 && argument[strspn(argument, "0123456789")] == 0)
        COMPLAIN("%s is larger than any number that can be asked about", "%s je větší než jakékoli číslo, na které se lze zeptat", argument);
    else
        COMPLAIN("\"%s\" is no number", "\"%s\" není číslo", plain(argument));
    return WRONG_USE;
}

/* Three numbers with `between` twice between them. */
static int three_numbers(const char *text, size_t length, char between, uint64_t *first, uint64_t *second, uint64_t *third)
{
    const char *one = memchr(text, between, length), *two;
    if (one == NULL)
        return 0;
    two = memchr(one + 1, between, length - (size_t)(one + 1 - text));
    return two != NULL && typed_number(text, (size_t)(one - text), first) && typed_number(one + 1, (size_t)(two - one - 1), second) &&
           typed_number(two + 1, length - (size_t)(two + 1 - text), third);
}

/* 10.6.2001 or 2001-06-10. */
static int typed_date(const char *text, size_t length, struct date *date)
{
    return three_numbers(text, length, '.', &date->day, &date->month, &date->year) ||
           three_numbers(text, length, '-', &date->year, &date->month, &date->day);
}

enum status argument_date(const char *argument, struct date *date)
{
    if (typed_date(argument, strlen(argument), date))
        return ANSWERED;
    COMPLAIN("\"%s\" is no date: dates are typed as 10.6.2001 or 2001-06-10", "\"%s\" není datum: datum se píše jako 10.6.2001 nebo 2001-06-10",
             plain(argument));
    return WRONG_USE;
}

/* The day number that one line of a list names: a real date, or a number of the calendar's. A number past it is a slip, as 05072001 is, JDF's own way to write
   a date: the library takes it, as it takes any list, and the holiday that was meant would be none. */
static int typed_day(const char *text, size_t length, uint64_t *day)
{
    struct date date;
    slovdrim_day_answer answer;
    if (typed_number(text, length, day))
        return slovdrim_date(*day).number == SLOVDRIM_ANSWER;
    if (!typed_date(text, length, &date))
        return 0;
    answer = slovdrim_day(date.day, date.month, date.year);
    *day = answer.day;
    return answer.number == SLOVDRIM_ANSWER;
}

static int is_blank(char c)
{
    return c == ' ' || c == '\t' || c == '\r';
}

/* One line without its comment and the blanks around it. */
static const char *bare_line(const char *line, size_t *length)
{
    const char *comment = memchr(line, '#', *length);
    if (comment != NULL)
        *length = (size_t)(comment - line);
    while (*length > 0 && is_blank(line[*length - 1]))
        --*length;
    while (*length > 0 && is_blank(*line)) {
        line++;
        --*length;
    }
    return line;
}

/* All lines of a list. A line that names no day ends it: a list with a slip in it isn't the list that was meant. */
static enum status read_days(const char *text, size_t length, struct holidays *holidays)
{
    size_t number, at = 0;
    for (number = 1; at < length; number++) {
        const char *end = memchr(text + at, '\n', length - at);
        size_t whole = end == NULL ? length - at : (size_t)(end - text) - at, bare = whole;
        const char *line = bare_line(text + at, &bare);
        if (bare > 0 && !typed_day(line, bare, &holidays->days[holidays->count++])) {
            COMPLAIN("%s, line %zu names no day: dates are written as 10.6.2001 or 2001-06-10, or as a day number up to %d",
                     "%s, řádek %zu neurčuje žádný den: píše se datum jako 10.6.2001 nebo 2001-06-10, nebo číslo dne, nejvýše %d", plain(holidays->path),
                     number, SLOVDRIM_LAST_DAY);
            return WRONG_USE;
        }
        at += whole + 1;
    }
    return ANSWERED;
}

static size_t count_lines(const struct file *file)
{
    size_t i, lines = 1;
    for (i = 0; i < file->length; i++)
        lines += file->bytes[i] == '\n';
    return lines;
}

static enum status days_of(const struct file *file, struct holidays *holidays)
{
    /* Editors of some systems begin a text in UTF-8 with these three bytes. */
    size_t mark = file->length >= 3 && memcmp(file->bytes, "\xef\xbb\xbf", 3) == 0 ? 3 : 0;
    if (file->length == MOST_BYTES) {
        COMPLAIN("%s is too long for a list of holidays", "soubor %s je na seznam svátků příliš dlouhý", plain(holidays->path));
        return WRONG_USE;
    }
    holidays->days = malloc(count_lines(file) * sizeof *holidays->days);
    if (holidays->days == NULL)
        return no_memory();
    return read_days((const char *)file->bytes + mark, file->length - mark, holidays);
}

/* The list of a file, or the empty one for NULL. */
enum status read_holidays(const char *path, struct holidays *holidays)
{
    struct file file;
    enum status status;
    int error;
    holidays->path = path;
    holidays->days = NULL;
    holidays->count = 0;
    if (path == NULL)
        return ANSWERED;
    switch (read_bytes(path, &file)) {
    case READ_WHOLE:
        break;
    case NO_MEMORY:
        return no_memory();
    default:
        error = errno;
        COMPLAIN("\"%s\" can't be read: %s", "\"%s\" nelze přečíst: %s", plain(path), why_not(error));
        return WRONG_USE;
    }
    status = days_of(&file, holidays);
    free(file.bytes);
    return status;
}

/* A list that knows no holiday of the year that is asked about is perhaps last year's. It is taken, but not in silence. */
void warn_of_year(const struct holidays *holidays, const struct date *date)
{
    size_t i;
    if (holidays->path == NULL)
        return;
    for (i = 0; i < holidays->count; i++)
        if (slovdrim_date(holidays->days[i]).year == date->year)
            return;
    COMPLAIN("%s has no holiday of the year %" PRIu64, "v seznamu %s není žádný svátek roku %" PRIu64, plain(holidays->path), date->year);
}

/* A real date with its weekday, and whether it is a holiday. */
void show_date(FILE *to, const struct date *date, const struct holidays *holidays)
{
    uint64_t day = slovdrim_day(date->day, date->month, date->year).day;
    fprintf(to, "%s %" PRIu64 ".%" PRIu64 ".%" PRIu64, weekday_name(slovdrim_weekday(day).weekday), date->day, date->month, date->year);
    if (slovdrim_holiday(day, holidays->days, holidays->count).holiday)
        tell(to, ", a holiday", ", svátek");
}
