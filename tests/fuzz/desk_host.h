/* Stands before each source of the desk host when it is fuzzed: the calls of the library that return a struct through memory go through by_value.c, since the proved
   code compiled for this machine wants the place of the answer as its first argument; and memory comes from desk_memory.c, which can refuse it and counts it. */
#ifndef SLOVDRIM_FUZZ_DESK_HOST_H
#define SLOVDRIM_FUZZ_DESK_HOST_H

/* As the sources that need it have it: no header may be read before. */
#define _POSIX_C_SOURCE 200809L

#define SLOVDRIM_OTHER_MACHINE
#define slovdrim_records by_value_records
#define slovdrim_stretch by_value_stretch
#define slovdrim_fields by_value_fields
#define slovdrim_check by_value_check
#define slovdrim_check_hinted by_value_check_hinted
#define slovdrim_runs by_value_runs
#define slovdrim_trip_stop by_value_trip_stop
#define slovdrim_sale by_value_sale
#define slovdrim_sale_hinted by_value_sale_hinted
#define slovdrim_sales by_value_sales
#define slovdrim_stop by_value_stop
#define slovdrim_stop_hinted by_value_stop_hinted
#define slovdrim_order by_value_order
#define slovdrim_date by_value_date
#define slovdrim_week by_value_week

#include <stdlib.h>

void *desk_malloc(size_t size);
void *desk_realloc(void *memory, size_t size);
void desk_free(void *memory);
#define malloc desk_malloc
#define realloc desk_realloc
#define free desk_free

#endif
