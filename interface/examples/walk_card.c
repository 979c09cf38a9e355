// Rations come in any order; the card is walked in the order of their numbers, and each feed family's total asked, also between the
// steps of an update.
#include <stdint.h>
#include <stdio.h>

#include "ration_table.h"

#define NODES 12
#define CARD card, RATION_CARD_WORDS(NODES)
#define STATE state, RATION_STATE_WORDS

static uint32_t card[RATION_CARD_WORDS(NODES)]; // kept without power
static uint32_t state[RATION_STATE_WORDS];      // lost with power

// Steps until a step answers something else than a store: the final answer, or a refusal.
static ration_answer finish(void)
{
    ration_answer answer;
    do
        answer = ration_step(CARD, STATE);
    while (answer.code == RATION_STORED);
    return answer;
}

// Prints every pair with a number from `first` on. A refusal ends the walk, and is told.
static int print_from(uint32_t first)
{
    ration_answer pair = ration_next(CARD, first == 0 ? 0 : first - 1);
    for (; pair.code == RATION_NEXT; pair = ration_next(CARD, pair.key))
        printf(" %u: %u", (unsigned)pair.key, (unsigned)pair.value);
    if (pair.code != RATION_NONE)
        printf(" (%s)", ration_text(pair.code));
    printf("\n");
    return pair.code == RATION_NONE;
}

// Prints the total of each feed family that has rations. The state keeps them: the card is not looked at.
static void print_families(void)
{
    for (uint32_t family = 0; family < RATION_FAMILIES; family++) {
        ration_answer total = ration_family_total(STATE, family);
        if (total.code == RATION_TOTAL && total.value > 0)
            printf(" family %u: %u", (unsigned)family, (unsigned)total.value);
    }
    printf("\n");
}

int main(void)
{
    if (ration_start_format(CARD, STATE).code != RATION_STARTED || finish().code != RATION_READY)
        return 1;

    static const uint32_t rations[] = {70, 12, 4294967295, 33, 5, 91, 48, 26, 84, 19, 62, 77, 40, 55};
    for (size_t i = 0; i < sizeof rations / sizeof rations[0]; i++)
        if (ration_start_insert(CARD, STATE, rations[i], (uint32_t)i).code != RATION_STARTED ||
            finish().code != RATION_ABSENT) // the key was not held before
            return 1;

    printf("all rations, each with its dose record:");
    if (!print_from(0))
        return 1;
    printf("what each feed family has:");
    print_families();
    printf("from ration 60 on:");
    if (!print_from(60))
        return 1;

    // A delete's first store takes the pair out. What is walked then is the card at that moment, and the totals are those of its
    // pairs.
    if (ration_start_delete(CARD, STATE, 77).code != RATION_STARTED)
        return 1;
    printf("77 to be deleted, nothing stored yet:");
    if (!print_from(60))
        return 1;
    printf("its family still counts it:");
    print_families();
    if (ration_step(CARD, STATE).code != RATION_STORED)
        return 1;
    printf("one word stored:");
    if (!print_from(60))
        return 1;
    printf("and no longer counts it:");
    print_families();
    return finish().code == RATION_VALUE ? 0 : 1;
}
