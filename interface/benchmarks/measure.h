// Measures rows of calls. Compiled with COUNT_INSTRUCTIONS, valgrind's callgrind counts the instructions of each call;
// else the clock is read around each batch of calls.
#ifndef MEASURE_H
#define MEASURE_H

#include <stdint.h>
#include <stdio.h>
#include <time.h>

#include "even_stack.h"

static uint64_t measured_calls;
static double measured_ns;
static double clock_cost; // of an empty batch

#ifdef COUNT_INSTRUCTIONS

#include <valgrind/callgrind.h>
#define CALL(...)                                                                                                      \
    do {                                                                                                               \
        CALLGRIND_TOGGLE_COLLECT;                                                                                      \
        __VA_ARGS__;                                                                                                   \
        CALLGRIND_TOGGLE_COLLECT;                                                                                      \
        measured_calls++;                                                                                              \
    } while (0)
static void batch_begin(void) {}
static void batch_end(void) {}

#else

#define CALL(...)                                                                                                      \
    do {                                                                                                               \
        __VA_ARGS__;                                                                                                   \
        measured_calls++;                                                                                              \
    } while (0)
#define CALLGRIND_DUMP_STATS_AT(name)

static double now(void)
{
    struct timespec t;
    clock_gettime(CLOCK_MONOTONIC, &t);
    return 1e9 * (double)t.tv_sec + (double)t.tv_nsec;
}

static void batch_begin(void) { measured_ns -= now() + clock_cost; }
static void batch_end(void) { measured_ns += now(); }

#endif

// A row is printed as nodes, name, calls, nanoseconds a call; callgrind's counts bear "nodes name".
static void row_end(uint32_t nodes, const char *name)
{
    char label[100];
    snprintf(label, sizeof label, "%u %s", nodes, name);
    CALLGRIND_DUMP_STATS_AT(label);
    if (measured_calls != 0)
        printf("%u\t%s\t%llu\t%.1f\n", nodes, name, (unsigned long long)measured_calls,
               measured_ns / (double)measured_calls);
    measured_calls = 0;
    measured_ns = 0;
}

__attribute__((noinline)) static void nothing(void) { __asm__ volatile(""); }

// What the measuring itself costs, at least: taken off the rows by the script (instructions) or here (clock).
static void measure_the_measuring(void)
{
    double cost = 1e9;
    for (int i = 0; i < 1000; i++) {
        measured_ns = 0;
        batch_begin();
        batch_end();
        if (measured_ns < cost)
            cost = measured_ns;
        CALL(nothing());
    }
    row_end(0, "nothing");
    clock_cost = cost;
}

#endif
