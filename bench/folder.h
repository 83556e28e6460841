/* The plain C's answers on a batch in a folder: see folder.c. */
#ifndef BENCH_FOLDER_H
#define BENCH_FOLDER_H

void folder_show(const char *folder);

#endif
