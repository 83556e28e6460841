/* The desk host's memory: the nth request can be refused, and what is never given back is seen. */
#include "desk_memory.h"

#include <stdlib.h>

void *desk_malloc(size_t size);
void *desk_realloc(void *memory, size_t size);
void desk_free(void *memory);

static unsigned refused_at, requests;
static long held;

void refuse_memory(unsigned nth)
{
    refused_at = nth;
    requests = 0;
    held = 0;
}

int was_refused(void)
{
    return refused_at != 0 && requests >= refused_at;
}

long memory_held(void)
{
    return held;
}

void *desk_realloc(void *memory, size_t size)
{
    void *given;
    if (++requests == refused_at)
        return NULL;
    given = realloc(memory, size);
    held += given != NULL && memory == NULL;
    return given;
}

void *desk_malloc(size_t size)
{
    return desk_realloc(NULL, size);
}

void desk_free(void *memory)
{
    held -= memory != NULL;
    free(memory);
}
