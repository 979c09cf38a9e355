// A card and its block, and the calls of ration_table.h run to their ends: what the measuring programs begin from.
#ifndef TABLE_IN_USE_H
#define TABLE_IN_USE_H

#include <stdbool.h>
#include <stdint.h>
#include <stdio.h>
#include <stdlib.h>

#include "ration_table.h"
#include "workload.h"

static uint32_t card[RATION_MOST_CARD_WORDS], state[RATION_STATE_WORDS];
static size_t words;

#define CARD card, words
#define STATE state, RATION_STATE_WORDS

static inline void expect(bool right)
{
    if (!right) {
        fprintf(stderr, "a call did not answer as it should\n");
        exit(1);
    }
}

static inline ration_answer finish(void)
{
    ration_answer answer;
    do
        answer = ration_step(CARD, STATE);
    while (answer.code == RATION_STORED);
    return answer;
}

static inline void insert(uint32_t key)
{
    expect(ration_start_insert(CARD, STATE, key, key + 1).code == RATION_STARTED);
    expect(finish().code == RATION_ABSENT);
}

static inline void delete (uint32_t key)
{
    expect(ration_start_delete(CARD, STATE, key).code == RATION_STARTED);
    expect(finish().code == RATION_VALUE);
}

static inline void format(void)
{
    expect(ration_start_format(CARD, STATE).code == RATION_STARTED);
    expect(finish().code == RATION_READY);
}

static inline void prepare(const workload *w)
{
    words = RATION_CARD_WORDS(w->nodes);
    format();
    for (uint32_t i = 0; i < w->pairs; i++)
        insert(w->key(i));
}

// Random keys until an insert is refused for want of nodes; gives the pairs that the card holds then.
static inline uint32_t prepare_full(uint32_t nodes)
{
    words = RATION_CARD_WORDS(nodes);
    format();
    for (uint32_t i = 0;; i++) {
        ration_answer answer = ration_start_insert(CARD, STATE, random_key(i), i);
        if (answer.code == RATION_NO_ROOM)
            return i;
        expect(answer.code == RATION_STARTED && finish().code == RATION_ABSENT);
    }
}

#endif
