/* The names of the fields, the Czech ones as in the tables of JDF 1.8. */
#include "desk.h"

enum { MOST_FIELDS = 13 };

static const char *const english[FILES + 1][MOST_FIELDS] = {
    [SLOVDRIM_VERZEJDF] = {"version of JDF"},
    [SLOVDRIM_ZASTAVKY] = {"stop number", "town", "part of the town", "place", "district", "state", "code 1", "code 2", "code 3", "code 4", "code 5", "code 6"},
    [SLOVDRIM_PEVNYKOD] = {"code number", "sign of the code", "reserve"},
    [SLOVDRIM_DOPRAVCI] = {"IČO", "DIČ", "name of the firm", "kind of the firm", "name of the person", "address", "telephone", "telephone of the dispatcher",
                           "telephone for information", "fax", "e-mail"},
    [SLOVDRIM_LINKY] = {"line number", "name of the line", "IČO of the carrier", "type of the line", "reserve", "licence number", "licence from", "licence to",
                        "valid from", "valid to"},
    [SLOVDRIM_SPOJE] = {"line number", "trip number", "code 1", "code 2", "code 3", "code 4", "code 5", "code 6", "code 7", "code 8", "code 9", "code 10"},
    [SLOVDRIM_ZASLINKY] = {"line number", "tariff number", "reserve", "stop number", "code 1", "code 2", "code 3"},
    [SLOVDRIM_ZASSPOJE] = {"line number", "trip number", "tariff number", "stop number", "stand", "code 1", "code 2", "kilometres", "arrival", "departure"},
    [SLOVDRIM_UDAJE] = {"line number", "number of the text", "text"},
    [SLOVDRIM_CASKODY] = {"line number", "trip number", "number of the time code", "mark of the time code", "type of the time code", "from date", "to date",
                          "note"},
    [SLOVDRIM_ALTDOP] = {"line number", "trip number", "IČO of the carrier", "code 1", "code 2", "code 3", "code 4", "code 5", "code 6",
                         "type of the time code", "reserve", "from date", "to date"},
    [SLOVDRIM_ALTLINKY] = {"line number", "other number of the line", "state"},
    [SLOVDRIM_MISTENKY] = {"line number", "trip number", "text"},
};

static const char *const czech[FILES + 1][MOST_FIELDS] = {
    [SLOVDRIM_VERZEJDF] = {"číslo verze JDF"},
    [SLOVDRIM_ZASTAVKY] = {"číslo zastávky", "název obce", "část obce", "bližší místo", "okres", "stát", "pev. kód 1", "pev. kód 2", "pev. kód 3", "pev. kód 4",
                           "pev. kód 5", "pev. kód 6"},
    [SLOVDRIM_PEVNYKOD] = {"číslo pevného kódu", "označení pevného kódu", "rezerva"},
    [SLOVDRIM_DOPRAVCI] = {"IČO", "DIČ", "obchodní jméno", "druh firmy", "jméno fyz. osoby", "sídlo", "telefon sídla", "telefon dispečink",
                           "telefon informace", "fax", "e-mail"},
    [SLOVDRIM_LINKY] = {"číslo linky", "název linky", "IČO dopravce", "typ linky", "rezerva", "číslo licence", "platnost lic. od", "platnost lic. do",
                        "platnost JŘ od", "platnost JŘ do"},
    [SLOVDRIM_SPOJE] = {"číslo linky", "číslo spoje", "pev. kód 1", "pev. kód 2", "pev. kód 3", "pev. kód 4", "pev. kód 5", "pev. kód 6", "pev. kód 7",
                        "pev. kód 8", "pev. kód 9", "pev. kód 10"},
    [SLOVDRIM_ZASLINKY] = {"číslo linky", "číslo tarifní", "rezerva", "číslo zastávky", "pev. kód 1", "pev. kód 2", "pev. kód 3"},
    [SLOVDRIM_ZASSPOJE] = {"číslo linky", "číslo spoje", "číslo tarifní", "číslo zastávky", "číslo stanoviště", "pev. kód 1", "pev. kód 2", "kilometry",
                           "čas příjezdu", "čas odjezdu"},
    [SLOVDRIM_UDAJE] = {"číslo linky", "číslo údaje", "text"},
    [SLOVDRIM_CASKODY] = {"číslo linky", "číslo spoje", "číslo časového kódu", "označení časového kódu", "typ časového kódu", "datum od", "datum do",
                          "poznámka"},
    [SLOVDRIM_ALTDOP] = {"číslo linky", "číslo spoje", "IČO dopravce", "pev. kód 1", "pev. kód 2", "pev. kód 3", "pev. kód 4", "pev. kód 5", "pev. kód 6",
                         "typ časového kódu", "rezerva", "datum od", "datum do"},
    [SLOVDRIM_ALTLINKY] = {"číslo linky", "alt. číslo linky", "stát"},
    [SLOVDRIM_MISTENKY] = {"číslo linky", "číslo spoje", "text"},
};

const char *field_name(uint64_t file, uint64_t field)
{
    if (file < 1 || file > FILES || field < 1 || field > kinds[file].fields)
        return "";
    return either(english[file][field - 1], czech[file][field - 1]);
}
