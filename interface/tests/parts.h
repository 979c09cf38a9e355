// The parts of the test. A smaller scale makes fewer random events and formats no card of 600 nodes, for runs under a
// memory checker.
#ifndef PARTS_H
#define PARTS_H

#include <stdint.h>

typedef struct {
    uint32_t percent; // of the random events
} scale;

// Gives the number of traces.
uint32_t test_traces(const char *path);
void test_lists(scale s);
void test_cuts(scale s);
void test_hook(scale s);
void test_changed(scale s);
void test_damage(scale s);
void test_lengths(void);
void test_agreement(scale s);

#endif
