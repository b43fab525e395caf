/* random.h - random numbers from a seed, the same on every machine. */
#ifndef RANDOM_H
#define RANDOM_H

#include <stdbool.h>
#include <stdint.h>

typedef struct {
    uint64_t state;
} randoms;

/* splitmix64: neighbouring seeds give unlike numbers, so a case's seed may be its number. */
static inline uint64_t random_next(randoms *r)
{
    uint64_t x = r->state += UINT64_C(0x9E3779B97F4A7C15);
    x = (x ^ x >> 30) * UINT64_C(0xBF58476D1CE4E5B9);
    x = (x ^ x >> 27) * UINT64_C(0x94D049BB133111EB);
    return x ^ x >> 31;
}

/* 0 to n - 1. */
static inline uint32_t random_below(randoms *r, uint32_t n)
{
    return (uint32_t)((random_next(r) >> 32) * n >> 32);
}

static inline int32_t random_between(randoms *r, int32_t least, int32_t most)
{
    return least + (int32_t)random_below(r, (uint32_t)(most - least) + 1);
}

static inline bool random_chance(randoms *r, uint32_t percent)
{
    return random_below(r, 100) < percent;
}

#endif
