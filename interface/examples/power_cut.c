// Rations 1 to 18 are put on a card; power goes in the middle of the last one.
#include <stdint.h>
#include <stdio.h>
#include <string.h>

#include "ration_table.h"

#define NODES 12
#define CARD card, RATION_CARD_WORDS(NODES)
#define STATE state, RATION_STATE_WORDS

static uint32_t card[RATION_CARD_WORDS(NODES)]; // kept without power
static uint32_t state[RATION_STATE_WORDS];      // lost with power

// Steps until a step answers something else than a store: the final answer, or a refusal.
static ration_answer finish(void)
{
    ration_answer answer;
    do
        answer = ration_step(CARD, STATE);
    while (answer.code == RATION_STORED);
    return answer;
}

int main(void)
{
    if (ration_start_format(CARD, STATE).code != RATION_STARTED)
        return 1;
    if (finish().code != RATION_READY)
        return 1;

    for (uint32_t key = 1; key <= 17; key++) {
        if (ration_start_insert(CARD, STATE, key, 10 * key).code != RATION_STARTED)
            return 1;
        if (finish().code != RATION_ABSENT) // the key was not held before
            return 1;
    }

    // The insert of 18 splits a leaf (73 stores) and then takes a tagged node in (25 stores).
    if (ration_start_insert(CARD, STATE, 18, 180).code != RATION_STARTED)
        return 1;
    for (int stores = 0; stores < 80; stores++)
        if (ration_step(CARD, STATE).code != RATION_STORED)
            return 1;

    memset(state, 0xa5, sizeof state); // power goes: the block may hold anything now

    ration_answer opened = ration_open(CARD, STATE);
    if (opened.code == RATION_STARTED && finish().code != RATION_READY)
        return 1;
    if (opened.code != RATION_STARTED && opened.code != RATION_IDLE)
        return 1;

    ration_answer found = ration_find(CARD, 18);
    if (found.code == RATION_VALUE)
        printf("ration 18: dose record %u\n", (unsigned)found.value);
    else
        printf("ration 18: code %u\n", (unsigned)found.code);
    return found.code == RATION_VALUE && found.value == 180 ? 0 : 1;
}
