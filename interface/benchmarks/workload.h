// The keys of the benchmarks: the same for every table and store measured.
#ifndef WORKLOAD_H
#define WORKLOAD_H

#include <stdbool.h>
#include <stddef.h>
#include <stdint.h>

// A key for each i; keys for different i are different, and no key is 0.
typedef uint32_t key_order(uint32_t i);

// So many pairs are on the card. From there the inserts are made, or all pairs are deleted.
typedef struct {
    uint32_t nodes;
    uint32_t pairs;
    uint32_t inserts;
    uint32_t rounds;   // how often either is measured
    const char *order; // behind the names of the rows
    key_order *key;
    bool oldest_first; // pairs are found and deleted in the order in which they were inserted, else in another one
} workload;

// Random keys on cards of four sizes; on 600 nodes also sequential keys, and clusters of 32 neighbours.
// No card has more pairs than MOST_KEYS; so many finds are measured.
enum { WORKLOADS = 6, RANDOM_WORKLOADS = 4, MOST_KEYS = 13000, FINDS = 3000 };
extern const workload workloads[WORKLOADS];

key_order random_key, sequential_key, clustered_key;

// The keys held are those of 0 to pairs - 1; the next ones are absent.
uint32_t held_key(const workload *w, uint32_t i);
uint32_t absent_key(const workload *w, uint32_t i);

#endif
