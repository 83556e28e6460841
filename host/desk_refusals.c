/* A batch's own refusal: the line that jdfcheck writes, then what it means, and the text of the record that it names. */
#include "desk.h"

enum { SHOWN_OF_A_TRIP = 60, SHOWN_OF_A_LONG_TEXT = 1000 };

/* Numbers 1 to 11 are of the batch, those above of the question. */
int of_the_batch(uint64_t number)
{
    return number != SLOVDRIM_ANSWER && number <= SLOVDRIM_STOPS_WRONG;
}

static struct text without_line_end(struct text record)
{
    while (record.length > 0 && (record.bytes[record.length - 1] == '\n' || record.bytes[record.length - 1] == '\r'))
        record.length--;
    return record;
}

/* A text to the end of the line; of a very long one its beginning, and that is said. */
static void show_line(const char *quote, struct text text)
{
    struct text part = text;
    if (part.length > SHOWN_OF_A_LONG_TEXT)
        part.length = SHOWN_OF_A_LONG_TEXT;
    fputs(quote, stdout);
    show(stdout, part);
    fputs(quote, stdout);
    if (part.length < text.length)
        TELL(stdout, " (the first %zu bytes of %zu)", " (prvních %zu bajtů z celkových %zu)", part.length, text.length);
    putchar('\n');
}

static void show_record(uint64_t number, struct text record)
{
    TELL(stdout, "record %" PRIu64 ": ", "záznam %" PRIu64 ": ", number);
    show_line("", without_line_end(record));
}

static void show_field(uint64_t number, struct text record)
{
    TELL(stdout, "field %" PRIu64 ": ", "pole %" PRIu64 ": ", number);
    show_line("\"", field_of(record, number));
}

/* The file, and as much of the place as the refusal has. */
static void show_place(struct refusal r)
{
    printf("%s.txt", kinds[r.file].name);
    if (r.record != 0)
        TELL(stdout, ", record %" PRIu64, ", záznam %" PRIu64, r.record);
    if (r.field != 0)
        TELL(stdout, ", field %" PRIu64 " (%s)", ", pole %" PRIu64 " (%s)", r.field, field_name(r.file, r.field));
    fputs(": ", stdout);
}

/* Numbers 2 and 3: what stands before the offset is the beginning of a legal file, so each LF in it ends a record. */
static void show_begun_record(const struct file *file, uint64_t offset)
{
    struct text begun = {file->bytes, 0};
    uint64_t i, start = 0, record = 1;
    for (i = 0; i < offset; i++)
        if (file->bytes[i] == '\n') {
            start = i + 1;
            record++;
        }
    begun.bytes += start;
    begun.length = (size_t)(offset - start);
    TELL(stdout, "record %" PRIu64 " up to there: ", "záznam %" PRIu64 " do tohoto místa: ", record);
    show_line("", begun);
}

static void tell_not_legal(const struct file *file, uint64_t offset)
{
    TELL(stdout, "at offset %" PRIu64 " no legal file goes on with the byte 0x%02x.\n",
         "na pozici %" PRIu64 " nemůže žádný správný soubor pokračovat bajtem 0x%02x.\n", offset, file->bytes[offset]);
    show_begun_record(file, offset);
}

static void tell_ends_inside(const struct file *file, uint64_t offset)
{
    TELL(stdout, "the file ends inside a record, after %" PRIu64 " bytes. Perhaps it was not copied whole.\n",
         "soubor končí uvnitř záznamu, po %" PRIu64 " bajtech. Možná nebyl zkopírován celý.\n", offset);
    show_begun_record(file, offset);
}

static void tell_wrong_version(const struct file *file, uint64_t record)
{
    if (record != 0) {
        tell(stdout, "the batch is not of JDF 1.8.\n", "dávka není ve formátu JDF 1.8.\n");
        show_record(record, first_record(file));
    } else {
        TELL(stdout, "it should have one record, \"1.8\", and has %" PRIu64 ".\n", "má mít jediný záznam, \"1.8\", ale má jich %" PRIu64 ".\n",
             slovdrim_records(SLOVDRIM_VERZEJDF, file->bytes, file->length).records);
    }
}

static void tell_rule(uint64_t file)
{
    switch (file) {
    case SLOVDRIM_ZASTAVKY:
        tell(stdout, "the state is CZ, so the district must be given.\n", "stát je CZ, proto musí být uveden okres.\n");
        break;
    case SLOVDRIM_DOPRAVCI:
        tell(stdout, "the kind of the firm is 2, so the person's name must be given.\n", "druh firmy je 2, proto musí být uvedeno jméno fyzické osoby.\n");
        break;
    case SLOVDRIM_LINKY:
        tell(stdout, "a from-date is after its to-date.\n", "datum od je pozdější než datum do.\n");
        break;
    case SLOVDRIM_ZASSPOJE:
        tell(stdout, "arrival, departure and kilometres don't go together.\n", "příjezd, odjezd a kilometry si neodpovídají.\n");
        break;
    case SLOVDRIM_CASKODY:
        tell(stdout, "mark, type and dates of the time code don't go together.\n", "označení, typ a data časového kódu si neodpovídají.\n");
        break;
    default:
        tell(stdout, "code, type and dates don't go together, or none of them is given.\n", "kód, typ a data si neodpovídají, nebo není nic z toho uvedeno.\n");
    }
}

static void tell_key_used(const struct file *file, struct refusal r, struct text record)
{
    unsigned keys = kinds[r.file].keys;
    uint64_t key[3] = {number_at(record, 1), number_at(record, 2), number_at(record, 3)}, number = 1;
    struct text earlier = find(file, keys, key[0], key[1], key[2]), at;
    for (at = first_record(file); at.length > 0 && at.bytes != earlier.bytes; at = next_record(file, at))
        number++;
    TELL(stdout, "record %" PRIu64 " has this key already.\n", "tento klíč už má záznam %" PRIu64 ".\n", number);
    show_record(number, earlier);
}

/* The file that a field links to. Fields that link by two numbers are reported at the second. */
static unsigned linked_file(uint64_t file, uint64_t field)
{
    if (field == 1)
        return SLOVDRIM_LINKY;
    switch (file) {
    case SLOVDRIM_LINKY:
        return SLOVDRIM_DOPRAVCI;
    case SLOVDRIM_ZASLINKY:
        return field == 4 ? SLOVDRIM_ZASTAVKY : SLOVDRIM_PEVNYKOD;
    case SLOVDRIM_ZASSPOJE:
        return field == 2 ? SLOVDRIM_SPOJE : field == 3 ? SLOVDRIM_ZASLINKY : field == 4 ? SLOVDRIM_ZASTAVKY : SLOVDRIM_PEVNYKOD;
    case SLOVDRIM_ALTDOP:
        return field == 2 ? SLOVDRIM_SPOJE : field == 3 ? SLOVDRIM_DOPRAVCI : SLOVDRIM_PEVNYKOD;
    case SLOVDRIM_CASKODY:
    case SLOVDRIM_MISTENKY:
        return SLOVDRIM_SPOJE;
    default:
        return SLOVDRIM_PEVNYKOD;
    }
}

/* Two codes of one record in Zasspoje must have the same sign; what is refused there is the second. */
static int differs_from_first(const struct batch *batch, struct refusal r, struct text record, struct text sign)
{
    struct text first = field_of(find(&batch->files[SLOVDRIM_PEVNYKOD], 1, number_at(record, 6), 0, 0), 2);
    return r.file == SLOVDRIM_ZASSPOJE && r.field == 7 && first.length == 1 && sign.length == 1 && first.bytes[0] != sign.bytes[0];
}

static void tell_sign(const struct batch *batch, struct refusal r, struct text record)
{
    uint64_t code = number_at(record, r.field);
    struct text sign = field_of(find(&batch->files[SLOVDRIM_PEVNYKOD], 1, code, 0, 0), 2);
    TELL(stdout, "the code %" PRIu64 " has the sign ", "kód %" PRIu64 " má označení ", code);
    show(stdout, sign);
    if (differs_from_first(batch, r, record, sign))
        tell(stdout, ", which differs from that of the first code.\n", ", které se liší od označení prvního kódu.\n");
    else
        tell(stdout, ", which can't stand here.\n", ", které zde není přípustné.\n");
}

/* The records of a trip in another file, in that file's order. */
static void show_trip_records(const struct file *file, struct text trip)
{
    struct text record;
    uint64_t number = 0, shown = 0;
    for (record = first_record(file); record.length > 0; record = next_record(file, record)) {
        number++;
        if (number_at(record, 1) != number_at(trip, 1) || number_at(record, 2) != number_at(trip, 2))
            continue;
        if (shown++ == SHOWN_OF_A_TRIP) {
            puts("...");
            return;
        }
        show_record(number, record);
    }
}

static void tell_trip(const struct batch *batch, struct refusal r, struct text trip)
{
    unsigned file = r.number == SLOVDRIM_DAYS_WRONG ? SLOVDRIM_CASKODY : SLOVDRIM_ZASSPOJE;
    if (r.number == SLOVDRIM_DAYS_WRONG)
        tell(stdout, "the trip's time codes and day signs don't go together.\n", "časové kódy a značky dnů nelze u spoje takto spojit.\n");
    else
        tell(stdout, "the trip's stops, times or kilometres are wrong.\n", "zastávky, časy nebo kilometry spoje jsou chybné.\n");
    show_record(r.record, trip);
    TELL(stdout, "its records in %s.txt:\n", "jeho záznamy v %s.txt:\n", kinds[file].name);
    show_trip_records(&batch->files[file], trip);
}

/* Numbers 5 to 9, which name a record, and the field if they name one. */
static void tell_record(const struct batch *batch, struct refusal r)
{
    const struct file *file = &batch->files[r.file];
    struct text record = record_at(file, r.record);
    switch (r.number) {
    case SLOVDRIM_NOT_OF_ITS_KIND:
        tell(stdout, "the field isn't what JDF 1.8 asks for here.\n", "pole neodpovídá tomu, co zde JDF 1.8 požaduje.\n");
        break;
    case SLOVDRIM_RULE_BROKEN:
        tell_rule(r.file);
        break;
    case SLOVDRIM_KEY_USED:
        tell_key_used(file, r, record);
        break;
    case SLOVDRIM_LINK_TO_NOTHING:
        TELL(stdout, "%s.txt has no such record.\n", "v %s.txt takový záznam není.\n", kinds[linked_file(r.file, r.field)].name);
        break;
    default:
        tell_sign(batch, r, record);
    }
    show_record(r.record, record);
    if (r.field != 0)
        show_field(r.field, record);
}

enum status refuse_batch(const struct batch *batch, struct refusal r)
{
    const struct file *file = &batch->files[r.file];
    printf("REFUSED %" PRIu64 " file %" PRIu64 " record %" PRIu64 " field %" PRIu64 " at %" PRIu64 "\n", r.number, r.file, r.record, r.field, r.offset);
    show_place(r);
    switch (r.number) {
    case SLOVDRIM_TOO_LONG:
        TELL(stdout, "the file has more than %d bytes.\n", "soubor má více než %d bajtů.\n", SLOVDRIM_LONGEST);
        break;
    case SLOVDRIM_NOT_LEGAL:
        tell_not_legal(file, r.offset);
        break;
    case SLOVDRIM_ENDS_INSIDE:
        tell_ends_inside(file, r.offset);
        break;
    case SLOVDRIM_WRONG_VERSION:
        tell_wrong_version(file, r.record);
        break;
    case SLOVDRIM_DAYS_WRONG:
    case SLOVDRIM_STOPS_WRONG:
        tell_trip(batch, r, record_at(file, r.record));
        break;
    default:
        tell_record(batch, r);
    }
    return REFUSED;
}

enum status refuse_day(const struct date *date)
{
    TELL(stdout, "REFUSED %d\n%" PRIu64 ".%" PRIu64 ".%" PRIu64 " is no day of the years 1900 to 2099. Ask for the date again.\n",
         "REFUSED %d\n%" PRIu64 ".%" PRIu64 ".%" PRIu64 " není platné datum z let 1900 až 2099. Zeptejte se na datum znovu.\n", SLOVDRIM_NO_SUCH_DAY, date->day,
         date->month, date->year);
    return REFUSED;
}

enum status refuse_trip(uint64_t line, uint64_t trip)
{
    TELL(stdout,
         "REFUSED %d\nThe batch has no line %" PRIu64 " with a trip %" PRIu64 ". Compare both numbers with the timetable; desk trips finds trips by their stops.\n",
         "REFUSED %d\nV dávce není linka %" PRIu64 " se spojem %" PRIu64 ". Porovnejte obě čísla s jízdním řádem; desk trips najde spoje podle zastávek.\n",
         SLOVDRIM_NO_SUCH_TRIP, line, trip);
    return REFUSED;
}
