#include "workload.h"

const workload workloads[WORKLOADS] = {
    {2600, 13000, 300, 1, "", random_key, false},
    {600, 3000, 300, 1, "", random_key, false},
    {60, 250, 30, 10, "", random_key, false},
    {4, 8, 3, 100, "", random_key, false},
    {600, 2500, 300, 1, ", sequential keys", sequential_key, true},
    {600, 2500, 300, 1, ", clustered keys", clustered_key, true},
};

// Each step can be undone, so different i give different keys, and only 0 gives 0.
uint32_t random_key(uint32_t i)
{
    uint32_t key = i + 1;
    key = (key ^ key >> 16) * 0x85ebca6b;
    key = (key ^ key >> 13) * 0xc2b2ae35;
    return key ^ key >> 16;
}

uint32_t sequential_key(uint32_t i) { return i + 1; }

// The few clusters that are used do not meet: the benchmarks stop where a key that should be absent is held.
uint32_t clustered_key(uint32_t i) { return random_key(i / 32) / 32 * 32 + i % 32; }

uint32_t held_key(const workload *w, uint32_t i)
{
    return w->key((uint32_t)((w->oldest_first ? i : (uint64_t)i * 7919) % w->pairs));
}

uint32_t absent_key(const workload *w, uint32_t i) { return w->key(w->pairs + i); }
