/* A batch into SQLite: a table for each file, with its key as PRIMARY KEY and its links as FOREIGN KEYs, which are tried when the one transaction ends. The
   files are cut by the plain C's reader, numbers are bound as integers and texts where they stand; the database is in memory. Kinds of fields, rules, signs
   and trips are not tried. */
#include <sqlite3.h>
#include <stdio.h>
#include <stdlib.h>
#include <string.h>

#include "plain_batch.h"
#include "sqlite_import.h"

#define TO(columns, table, others) ", FOREIGN KEY(" columns ") REFERENCES " table "(" others ") DEFERRABLE INITIALLY DEFERRED"
#define CODE(f) TO("c" #f, "Pevnykod", "c1")
#define LINE TO("c1", "Linky", "c1")
#define TRIP TO("c1, c2", "Spoje", "c1, c2")
#define CARRIER TO("c3", "Dopravci", "c1")
#define STOP TO("c4", "Zastavky", "c1")

struct import {
    unsigned file;
    const char *name;
    unsigned numbers; /* a bit for each field that is a number */
    const char *rest; /* of its CREATE TABLE, behind the columns */
};

#define FIELDS(from, to) ((2u << (to)) - (1u << (from)))

/* Those that others link to come first. */
static const struct import imports[] = {
    {VERZEJDF, "VerzeJDF", 0, ")"},
    {PEVNYKOD, "Pevnykod", FIELDS(1, 1), ", PRIMARY KEY(c1))"},
    {DOPRAVCI, "Dopravci", FIELDS(1, 1), ", PRIMARY KEY(c1))"},
    {ZASTAVKY, "Zastavky", FIELDS(1, 1) | FIELDS(7, 12), ", PRIMARY KEY(c1)" CODE(7) CODE(8) CODE(9) CODE(10) CODE(11) CODE(12) ")"},
    {LINKY, "Linky", FIELDS(1, 1) | FIELDS(3, 3), ", PRIMARY KEY(c1)" CARRIER ")"},
    {SPOJE, "Spoje", FIELDS(1, 12),
     ", PRIMARY KEY(c1, c2)" LINE CODE(3) CODE(4) CODE(5) CODE(6) CODE(7) CODE(8) CODE(9) CODE(10) CODE(11) CODE(12) ") WITHOUT ROWID"},
    {ZASLINKY, "Zaslinky", FIELDS(1, 2) | FIELDS(4, 7), ", PRIMARY KEY(c1, c2)" LINE STOP CODE(5) CODE(6) CODE(7) ") WITHOUT ROWID"},
    {ZASSPOJE, "Zasspoje", FIELDS(1, 4) | FIELDS(6, 8),
     ", PRIMARY KEY(c1, c2, c3)" TRIP TO("c1, c3", "Zaslinky", "c1, c2") STOP CODE(6) CODE(7) ") WITHOUT ROWID"},
    {UDAJE, "Udaje", FIELDS(1, 2), ", PRIMARY KEY(c1, c2)" LINE ") WITHOUT ROWID"},
    {CASKODY, "Caskody", FIELDS(1, 3), ", PRIMARY KEY(c1, c2, c3)" TRIP ") WITHOUT ROWID"},
    {ALTDOP, "Altdop", FIELDS(1, 9), TRIP CARRIER CODE(4) CODE(5) CODE(6) CODE(7) CODE(8) CODE(9) ")"},
    {ALTLINKY, "Altlinky", FIELDS(1, 1), LINE ")"},
    {MISTENKY, "Mistenky", FIELDS(1, 2), LINE TRIP ")"},
};
enum { IMPORTS = sizeof imports / sizeof *imports };

static void run(sqlite3 *database, const char *sql)
{
    if (sqlite3_exec(database, sql, NULL, NULL, NULL) != SQLITE_OK) {
        fprintf(stderr, "bench: SQLite: %s: %s\n", sql, sqlite3_errmsg(database));
        exit(2);
    }
}

static void create(sqlite3 *database, const struct import *import)
{
    char sql[4096];
    unsigned f;
    int n = sprintf(sql, "CREATE TABLE %s(", import->name);
    for (f = 1; f <= plain_width[import->file]; f++)
        n += sprintf(sql + n, "%sc%u %s", f == 1 ? "" : ", ", f, (import->numbers >> f & 1) != 0 ? "INTEGER" : "TEXT");
    sprintf(sql + n, "%s", import->rest);
    run(database, sql);
}

static sqlite3_stmt *prepare(sqlite3 *database, const struct import *import)
{
    char sql[256];
    sqlite3_stmt *insert;
    unsigned f;
    int n = sprintf(sql, "INSERT INTO %s VALUES(?", import->name);
    for (f = 2; f <= plain_width[import->file]; f++)
        n += sprintf(sql + n, ",?");
    sprintf(sql + n, ")");
    if (sqlite3_prepare_v2(database, sql, -1, &insert, NULL) != SQLITE_OK) {
        fprintf(stderr, "bench: SQLite: %s\n", sqlite3_errmsg(database));
        exit(2);
    }
    return insert;
}

/* An empty code is no link, and so is the trip 0 of Mistenky. */
static void bind_number(sqlite3_stmt *insert, const struct import *import, unsigned f, struct plain_text text)
{
    int64_t n = 0;
    size_t i;
    for (i = 0; i < text.length; i++)
        n = 10 * n + text.at[i] - '0';
    if (text.length == 0 || (import->file == MISTENKY && f == 2 && n == 0))
        sqlite3_bind_null(insert, (int)f);
    else
        sqlite3_bind_int64(insert, (int)f, n);
}

/* Whether every record went in. */
static int insert_file(sqlite3 *database, const struct import *import, const struct table *table)
{
    sqlite3_stmt *insert = prepare(database, import);
    size_t r;
    unsigned f;
    int stands = 1;
    for (r = 0; r < table->records && stands; r++) {
        const struct field *fields = fields_of(table, r);
        for (f = 1; f <= table->width; f++) {
            struct plain_text text = text_of(table, fields, f);
            if ((import->numbers >> f & 1) != 0)
                bind_number(insert, import, f, text);
            else
                sqlite3_bind_text(insert, (int)f, (const char *)text.at, (int)text.length, SQLITE_STATIC);
        }
        stands = sqlite3_step(insert) == SQLITE_DONE;
        sqlite3_reset(insert);
    }
    sqlite3_finalize(insert);
    return stands;
}

static int import_all(sqlite3 *database, const struct plain_batch *batch)
{
    unsigned i;
    int stands = 1;
    run(database, "PRAGMA journal_mode = OFF; PRAGMA synchronous = OFF; PRAGMA foreign_keys = ON");
    for (i = 0; i < IMPORTS; i++)
        create(database, &imports[i]);
    run(database, "BEGIN");
    for (i = 0; i < IMPORTS && stands; i++)
        stands = insert_file(database, &imports[i], &batch->tables[imports[i].file]);
    return stands && sqlite3_exec(database, "COMMIT", NULL, NULL, NULL) == SQLITE_OK;
}

int sqlite_import(uint8_t *const *bytes, const size_t *lengths)
{
    struct plain_answer answer;
    struct plain_batch *batch = plain_read(bytes, lengths, &answer);
    sqlite3 *database;
    int stands;
    if (answer.number != 0 || sqlite3_open_v2(":memory:", &database, SQLITE_OPEN_READWRITE | SQLITE_OPEN_CREATE | SQLITE_OPEN_NOMUTEX, NULL) != SQLITE_OK) {
        fprintf(stderr, "bench: SQLite wasn't opened\n");
        exit(2);
    }
    stands = import_all(database, batch);
    sqlite3_close(database);
    plain_free(batch);
    return stands;
}
