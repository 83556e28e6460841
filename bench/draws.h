/* Numbers by seed, the same on every machine. Each file that includes this has a state of its own, which its maker sets to the seed; it isn't 0. */
#ifndef BENCH_DRAWS_H
#define BENCH_DRAWS_H

#include <stdint.h>

static uint64_t state;

/* Each call changes what the next one gives: no two stand in one expression or argument list, whose order a compiler chooses. */
static uint64_t below(uint64_t end)
{
    state ^= state << 13;
    state ^= state >> 7;
    state ^= state << 17;
    return (state >> 11) % end;
}

#endif
