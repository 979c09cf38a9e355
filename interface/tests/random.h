// A repeatable stream of random numbers (splitmix64).
#ifndef RANDOM_H
#define RANDOM_H

#include <stdbool.h>
#include <stdint.h>

typedef struct {
    uint64_t state;
} random_stream;

static inline uint32_t random_word(random_stream *r)
{
    uint64_t z = r->state += UINT64_C(0x9e3779b97f4a7c15);
    z = (z ^ z >> 30) * UINT64_C(0xbf58476d1ce4e5b9);
    z = (z ^ z >> 27) * UINT64_C(0x94d049bb133111eb);
    return (uint32_t)((z ^ z >> 31) >> 32);
}

static inline uint32_t random_below(random_stream *r, uint32_t n)
{
    return (uint32_t)((uint64_t)random_word(r) * n >> 32);
}

// A word with any number of leading zeros.
static inline uint32_t random_short_word(random_stream *r)
{
    uint32_t word = random_word(r);
    return word >> random_below(r, 32);
}

static inline bool random_percent(random_stream *r, uint32_t percent) { return random_below(r, 100) < percent; }

#endif
