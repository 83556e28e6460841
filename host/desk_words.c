/* Czech or English, and the words that several parts say. */
#include "desk.h"

#include <stdlib.h>
#include <string.h>

int speaks_czech;

/* The first of the three that is set and not empty decides. They are read as text: no locale need be installed. */
void choose_language(void)
{
    static const char *const names[] = {"LC_ALL", "LC_MESSAGES", "LANG"};
    size_t i;
    for (i = 0; i < sizeof names / sizeof names[0]; i++) {
        const char *value = getenv(names[i]);
        if (value != NULL && *value != 0) {
            speaks_czech = strncmp(value, "cs", 2) == 0 && strchr("_.@", value[2]) != NULL;
            return;
        }
    }
}

const char *either(const char *english, const char *czech)
{
    return speaks_czech ? czech : english;
}

void tell(FILE *to, const char *english, const char *czech)
{
    fputs(either(english, czech), to);
}

enum status no_memory(void)
{
    end_waiting();
    tell(stderr, "desk: not enough memory\n", "desk: nedostatek paměti\n");
    return WRONG_USE;
}

/* 1 is Monday. */
const char *weekday_name(uint64_t weekday)
{
    static const char *const english[] = {"", "Monday", "Tuesday", "Wednesday", "Thursday", "Friday", "Saturday", "Sunday"};
    static const char *const czech[] = {"", "pondělí", "úterý", "středa", "čtvrtek", "pátek", "sobota", "neděle"};
    return weekday > 7 ? "" : either(english[weekday], czech[weekday]);
}

void show_help(FILE *to)
{
    tell(to,
         "desk: questions about a timetable batch in JDF 1.8, thirteen files VerzeJDF.txt, Zastavky.txt .. in the directory DIR\n"
         "\n"
         "  desk check DIR                             is the batch accepted, and if not, why\n"
         "  desk sale DIR LINE TRIP DATE FROM TO LIST  may a ticket be sold; FROM and TO are tariff numbers\n"
         "  desk trips DIR FROM TO DATE LIST           all trips that may be sold; FROM and TO are stop numbers\n"
         "  desk stops DIR LINE TRIP                   the stops of a trip, as it travels\n"
         "  desk stop DIR TOWN [PART [PLACE]]          the number of a stop by its whole name\n"
         "\n"
         "LIST is --holidays FILE or --no-holidays. The file has a date on each line, or a day number; # begins a comment.\n"
         "DATE is written as 10.6.2001 or 2001-06-10. After -- nothing is an option.\n"
         "Exit status: 0 answered, 1 refused, 2 wrong use or a file that can't be read.\n",
         "desk: dotazy na dávku jízdních řádů ve formátu JDF 1.8, třináct souborů VerzeJDF.txt, Zastavky.txt atd. v adresáři DIR\n"
         "\n"
         "  desk check DIR                             zda je dávka přijata, a pokud ne, proč\n"
         "  desk sale DIR LINE TRIP DATE FROM TO LIST  zda lze prodat jízdenku; linka, spoj, datum, tarifní čísla odkud a kam\n"
         "  desk trips DIR FROM TO DATE LIST           všechny spoje, na které ji lze prodat; čísla zastávek odkud a kam, datum\n"
         "  desk stops DIR LINE TRIP                   zastávky spoje v pořadí jízdy; linka, spoj\n"
         "  desk stop DIR TOWN [PART [PLACE]]          číslo zastávky podle celého názvu; obec, část obce, bližší místo\n"
         "\n"
         "LIST je --holidays FILE (soubor se seznamem svátků) nebo --no-holidays (bez svátků). Na každém řádku souboru je datum nebo číslo dne; znakem #\n"
         "začíná poznámka.\n"
         "DATE se píše jako 10.6.2001 nebo 2001-06-10. Za -- už nic není přepínač.\n"
         "Návratový kód: 0 zodpovězeno, 1 odmítnuto, 2 chybné použití nebo soubor, který nelze přečíst.\n");
}
