// The table under test and the hand-written one are given the same calls: every answer, every word of the card and every family's
// total agree after each. So on random lists, too, the word that each step stores and the place it tells are compared, as in the traces. The
// next pair is asked of both at every moment, and of the table written for speed (baseline/expert.c).
#include <stdbool.h>
#include <string.h>

#include "builder.h"
#include "check.h"
#include "guarded.h"
#include "hand_written.h"
#include "parts.h"

typedef struct {
    desk *desk;
    uint32_t card[RATION_MOST_CARD_WORDS];
    uint32_t state[RATION_STATE_WORDS];
    bool in_progress;
} pair_of_tables;

static pair_of_tables both;
static random_stream stream;

static void agree(ration_answer tested, ration_answer hand_written)
{
    CHECK(memcmp(&tested, &hand_written, sizeof tested) == 0, "%u %u depth %u and %u %u depth %u", tested.code,
          tested.value, tested.depth, hand_written.code, hand_written.value, hand_written.depth);
    CHECK(memcmp(both.card, both.desk->card, 4 * both.desk->words) == 0, "the cards differ");
    for (uint32_t family = 0; family < RATION_FAMILIES; family++) {
        uint32_t total = hand_written_family_total(both.state, RATION_STATE_WORDS, family).value;
        CHECK(both.desk->totals[family] == total, "%u and %u pairs of family %u", both.desk->totals[family], total,
              family);
    }
    if (tested.code == RATION_STARTED)
        both.in_progress = true;
    else if (tested.code != RATION_STORED && !RATION_IS_REFUSAL(tested.code))
        both.in_progress = false;
}

static void step(void)
{
    agree(desk_step(both.desk), hand_written_step(both.card, both.desk->words, both.state, RATION_STATE_WORDS));
}

// A key that stands on the card or one beside it, an end of all numbers, or any.
static uint32_t some_number(void)
{
    uint32_t there = both.card[random_below(&stream, (uint32_t)both.desk->words)];
    switch (random_below(&stream, 8)) {
    case 0: return 0;
    case 1: return UINT32_MAX;
    case 2: return there - 1;
    case 3: return there + 1;
    default: return there;
    }
}

// The next pair by each of the three tables.
static ration_answer next(uint32_t after)
{
    ration_answer tested = ration_next(both.desk->card, both.desk->words, after);
    ration_answer plain = hand_written_next(both.card, both.desk->words, after);
    ration_answer expert = expert_next(both.card, both.desk->words, after);
    CHECK(memcmp(&tested, &plain, sizeof tested) == 0 && memcmp(&tested, &expert, sizeof tested) == 0,
          "next %u: %u %u %u depth %u, %u %u %u depth %u and %u %u %u depth %u", after, tested.code, tested.key,
          tested.value, tested.depth, plain.code, plain.key, plain.value, plain.depth, expert.code, expert.key,
          expert.value, expert.depth);
    return tested;
}

static void walk(void)
{
    for (ration_answer a = next(0); a.code == RATION_NEXT; a = next(a.key))
        ;
}

static void cut(void)
{
    desk_cut(both.desk);
    memset(both.state, 0xff, sizeof both.state);
    agree(desk_open(both.desk), hand_written_open(both.card, both.desk->words, both.state, RATION_STATE_WORDS));
}

// The multiplier spreads the keys over all words, and so over the families.
static void start(uint32_t keys, uint32_t multiplier, uint32_t insert_percent)
{
    uint32_t key = (1 + random_below(&stream, keys)) * multiplier, value = random_word(&stream);
    size_t words = both.desk->words;
    if (random_percent(&stream, insert_percent))
        agree(desk_start_insert(both.desk, key, value),
              hand_written_start_insert(both.card, words, both.state, RATION_STATE_WORDS, key, value));
    else
        agree(desk_start_delete(both.desk, key),
              hand_written_start_delete(both.card, words, both.state, RATION_STATE_WORDS, key));
}

static void work(uint32_t updates, uint32_t keys, uint32_t multiplier)
{
    uint32_t insert_percent = 80;
    for (uint32_t i = 0; i < updates; i++) {
        if (random_below(&stream, keys) == 0)
            insert_percent = 100 - insert_percent;
        start(keys, multiplier, insert_percent);
        while (both.in_progress) {
            if (random_below(&stream, 1000) == 0)
                cut();
            else
                step();
            next(some_number());
        }
    }
    walk();
}

static void begin(uint32_t nodes)
{
    both.desk = desk_new(8 + 24 * (size_t)nodes, RATION_STATE_WORDS);
    both.in_progress = false;
}

void test_agreement(scale s)
{
    stream.state = 600;
    static const uint32_t sizes[] = {4, 5, 6, 12, 60, 600, 2600};
    for (size_t i = 0; i < sizeof sizes / sizeof sizes[0]; i++) {
        if (sizes[i] >= 600 && s.percent < 100)
            continue;
        begin(sizes[i]);
        for (size_t place = 0; place < both.desk->words; place++) {
            both.card[place] = random_word(&stream);
            desk_set(both.desk, place, both.card[place]);
        }
        agree(desk_start_format(both.desk),
              hand_written_start_format(both.card, both.desk->words, both.state, RATION_STATE_WORDS));
        while (both.in_progress)
            step();
        work((sizes[i] >= 600 ? 40 : 60) * s.percent, 6 * sizes[i], i % 2 == 0 ? 1 : 2654435761u);
        desk_free(both.desk);
    }
    static const struct {
        uint32_t nodes, levels, least, most;
    } built[] = {{600, 8, 2, 2}, {600, 2, 11, 11}, {600, 4, 3, 4}, {600, 5, 2, 3}, {2600, 10, 2, 2}, {2600, 3, 11, 11}};
    for (size_t i = 0; i < sizeof built / sizeof built[0]; i++) {
        begin(built[i].nodes);
        CHECK(build_card(both.card, built[i].nodes, built[i].levels, built[i].least, built[i].most, &stream) != 0,
              "card %zu", i);
        uint32_t factor = spread_keys(both.card, built[i].nodes);
        desk_set_card(both.desk, both.card);
        cut();
        work(10 * s.percent, 15000, factor);
        desk_free(both.desk);
    }
}
