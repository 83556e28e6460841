/* SQLite's import of a batch: see sqlite_import.c. */
#ifndef BENCH_SQLITE_IMPORT_H
#define BENCH_SQLITE_IMPORT_H

#include <stddef.h>
#include <stdint.h>

/* Imports a batch of legal files into a database in memory. 1 if its keys are unique and its links met, 0 if not. */
int sqlite_import(uint8_t *const *bytes, const size_t *lengths);

#endif
