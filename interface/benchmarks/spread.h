// Average and most of some numbers.
#ifndef SPREAD_H
#define SPREAD_H

#include <stdint.h>
#include <stdio.h>

typedef struct {
    uint64_t sum, count, most;
} spread;

static inline void spread_add(spread *s, uint64_t number)
{
    s->sum += number;
    s->count++;
    if (number > s->most)
        s->most = number;
}

// Nodes, what it is, average, most.
static inline void spread_print(uint32_t nodes, const char *what, const char *update, const char *order, const spread *s)
{
    printf("%u\t%s%s%s\t%.1f\t%llu\n", nodes, what, update, order, (double)s->sum / (double)s->count,
           (unsigned long long)s->most);
}

#endif
