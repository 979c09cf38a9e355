// Cards and blocks that no call left so: damaged, garbage, or not belonging together. What document 01 decides is
// compared with the code due; a step makes one store inside the card, answers, or refuses.
#include <string.h>

#include "block.h"
#include "builder.h"
#include "check.h"
#include "due.h"
#include "garbage.h"
#include "parts.h"
#include "reader.h"
#include "worked.h"

static random_stream stream;

// A word such as stands on cards: small numbers, words near those that are there, or anything.
static uint32_t likely_word(const desk *d)
{
    uint32_t there = d->card[random_below(&stream, (uint32_t)d->words)];
    switch (random_below(&stream, 6)) {
    case 0: return 0;
    case 1: return random_below(&stream, 5);
    case 2: return random_below(&stream, read_nodes(d->words) + 3);
    case 3: return there;
    case 4: return there + random_below(&stream, 3) - 1;
    default: return random_word(&stream);
    }
}

static void check_step(desk *d, bool *ended)
{
    uint32_t due = due_step(d);
    ration_answer a = desk_step(d);
    if (due != 0)
        CHECK(a.code == due, "step: %u, due %u", a.code, due);
    else
        CHECK(!RATION_IS_REFUSAL(a.code) || a.code == RATION_BROKEN_WAY, "step: %u", a.code);
    *ended = a.code != RATION_STORED;
}

// How many answers of the next pair were compared on cards that opening refuses with 5, and how many on cards not sound.
static uint64_t next_on_few_free, next_on_unsound;

// Whether a leaf of the card has this pair in a slot.
static bool stands_on_card(const desk *d, uint32_t key, uint32_t value)
{
    for (size_t node = 8; node < d->words; node += 24)
        for (size_t slot = node + 1; slot <= node + 11; slot++)
            if (d->card[node] == 1 && d->card[slot] == key && d->card[slot + 11] == value)
                return true;
    return false;
}

// The next pair after some numbers: the one due on a sound card, which may be one that opening refuses with 5. "On a card
// opening would refuse with 4, it is held only to a pair above the number, none or 9."
static void check_next(desk *d)
{
    bool decided = due_next_read(d), few_free = due_open(d) == RATION_FEW_FREE;
    for (uint32_t i = 0; i < 4; i++) {
        uint32_t after = i == 0 ? random_below(&stream, 2) - 1 : likely_word(d);
        ration_answer a = desk_next(d, after);
        if (decided) {
            ration_answer due = due_next(d, after);
            CHECK(a.code == due.code && a.key == due.key && a.value == due.value, "next %u: %u %u %u, due %u %u %u",
                  after, a.code, a.key, a.value, due.code, due.key, due.value);
            next_on_few_free += few_free;
        } else {
            CHECK(a.code == RATION_NONE || a.code == RATION_BROKEN_WAY ||
                      (a.code == RATION_NEXT && a.key > after && stands_on_card(d, a.key, a.value)),
                  "next %u: %u %u %u", after, a.code, a.key, a.value);
            next_on_unsound++;
        }
    }
}

// Every call on the card and block as they are.
static void try_calls(desk *d, uint32_t steps)
{
    bool ended = false, decided;
    check_next(d);
    for (uint32_t i = 0; i < 3; i++) {
        uint32_t key = random_percent(&stream, 80) ? likely_word(d) : random_word(&stream);
        ration_answer found = desk_find(d, key), due = due_find(d, key);
        CHECK(found.code == due.code && found.value == due.value, "find %u: %u %u, due %u %u", key, found.code,
              found.value, due.code, due.value);
    }
    uint32_t family = random_percent(&stream, 50) ? random_below(&stream, 20) : likely_word(d);
    CHECK(desk_family_total(d, family).code == (family < 16 ? RATION_TOTAL : RATION_NO_FAMILY), "family %u", family);
    for (uint32_t i = 0; i < steps && !ended; i++)
        check_step(d, &ended);

    bool insert = random_percent(&stream, 50);
    uint32_t key = random_percent(&stream, 90) ? likely_word(d) : 0;
    uint32_t due = due_start(d, insert, key, &decided);
    ration_answer a = insert ? desk_start_insert(d, key, 1) : desk_start_delete(d, key);
    CHECK(!decided || a.code == due, "start: %u, due %u", a.code, due);
    ended = false;
    for (uint32_t i = 0; i < steps && !ended; i++)
        check_step(d, &ended);

    due = due_open(d);
    a = desk_open(d);
    CHECK(a.code == due, "open: %u, due %u", a.code, due);
    if (a.code == RATION_STARTED) {
        ended = false;
        for (uint32_t stores = 0; !ended; stores++) {
            CHECK(stores <= 803, "a repair without end");
            check_step(d, &ended);
        }
        CHECK(due_open(d) == RATION_IDLE, "a sound card was not repaired");
    }
}

// One to three words of a card that was sound are changed; most of them where the tree is. The block is the card's own.
static void damaged_cards(uint32_t nodes, uint32_t levels, uint32_t least, uint32_t most, uint32_t tries)
{
    static uint32_t card[RATION_MOST_CARD_WORDS];
    uint32_t used = build_card(card, nodes, levels, least, most, &stream);
    CHECK(used != 0, "no card");
    uint32_t factor = spread_keys(card, nodes);
    worked *w = worked_open(nodes, card);
    worked *damaged = worked_open(nodes, card);
    for (uint32_t i = 0; i < tries; i++) {
        // A card in use, often in the middle of an update.
        uint32_t key = 10 * factor * random_below(&stream, 11 * used);
        if (w->in_progress == NOTHING && random_percent(&stream, 50))
            worked_start_insert(w, key + 1 + random_below(&stream, 9), i);
        else if (w->in_progress == NOTHING)
            worked_start_delete(w, key);
        for (uint32_t steps = random_below(&stream, 90); steps > 0 && w->in_progress != NOTHING; steps--)
            worked_step(w);

        desk_set_card(damaged->desk, w->desk->card);
        desk_set_state(damaged->desk, w->desk->state);
        for (uint32_t words = 1 + random_below(&stream, 3); words > 0; words--) {
            uint32_t place =
                random_percent(&stream, 10) ? random_below(&stream, 8) : random_below(&stream, 8 + 24 * used);
            desk_set(damaged->desk, place, likely_word(damaged->desk));
        }
        try_calls(damaged->desk, 30);
    }
    worked_free(damaged);
    worked_free(w);
}

static void set_garbage_card(desk *d, bool header)
{
    static uint32_t card[RATION_MOST_CARD_WORDS];
    make_garbage_card(card, read_nodes(d->words), header, &stream);
    desk_set_card(d, card);
}

static void set_garbage_state(desk *d, bool likely)
{
    uint32_t state[RATION_STATE_WORDS];
    make_garbage_state(state, read_nodes(d->words), likely, &stream);
    desk_set_state(d, state);
}

static void garbage(uint32_t nodes, uint32_t tries)
{
    desk *d = desk_new(8 + 24 * (size_t)nodes, RATION_STATE_WORDS);
    for (uint32_t i = 0; i < tries; i++) {
        set_garbage_card(d, random_percent(&stream, 80));
        set_garbage_state(d, random_percent(&stream, 80));
        try_calls(d, 40);
    }
    desk_free(d);
}

// The right card with a garbage block, and a garbage card with the right block.
static void mixed(uint32_t nodes, uint32_t tries)
{
    random_stream r = {nodes};
    static uint32_t card[RATION_MOST_CARD_WORDS];
    CHECK(build_card(card, nodes, 1, 2, 11, &r) != 0, "no card");
    desk *d = desk_new(8 + 24 * (size_t)nodes, RATION_STATE_WORDS);
    for (uint32_t i = 0; i < tries; i++) {
        desk_set_card(d, card);
        if (i % 2 == 0) {
            set_garbage_state(d, true);
        } else {
            desk_open(d);
            set_garbage_card(d, true);
        }
        try_calls(d, 200);
    }
    desk_free(d);
}

// Cards whose trees are odd in one place or none, with few free nodes: what opening answers, and where it works, the
// repair and the updates after it.
static void odd_cards(uint32_t levels, uint32_t tries)
{
    static uint32_t card[RATION_MOST_CARD_WORDS];
    for (uint32_t i = 0; i < tries; i++) {
        uint32_t nodes = build_odd_card(card, levels, &stream);
        if (nodes == 0)
            continue;
        desk *d = desk_new(8 + 24 * (size_t)nodes, RATION_STATE_WORDS);
        desk_set_card(d, card);
        uint32_t due = due_open(d);
        CHECK(desk_open(d).code == due, "due %u", due);
        try_calls(d, 100);
        desk_free(d);
        if (RATION_IS_REFUSAL(due))
            continue;
        worked *w = worked_open(nodes, card);
        for (uint32_t updates = 0; updates < 4; updates++) {
            worked_finish(w);
            worked_check(w);
            uint32_t key = 1 + random_below(&stream, 2 * w->book.pairs + 2);
            if (random_percent(&stream, 50))
                worked_start_insert(w, key, 1);
            else
                worked_start_delete(w, key);
        }
        worked_free(w);
    }
}

// An update that stores nothing, on a card whose only key is 7: a start, and the final answer with the first step.
static void check_update(desk *d, bool insert, uint32_t key, bool passes, uint32_t final)
{
    ration_answer a = insert ? desk_start_insert(d, key, 1) : desk_start_delete(d, key);
    CHECK(a.code == (passes ? RATION_STARTED : RATION_BROKEN_WAY), "key %u: %u", key, a.code);
    if (passes)
        CHECK(desk_step(d).code == final, "key %u: not %u", key, final);
}

// "more than 10 internal nodes": ten pass, an eleventh is refused. So every depth is told by every call.
static void chains(void)
{
    for (uint32_t internal_nodes = 0; internal_nodes < 17; internal_nodes++) {
        desk *d = desk_new(8 + 24 * 20, RATION_STATE_WORDS);
        uint32_t card[8 + 24 * 20];
        build_chain(card, 20, internal_nodes, 7, &stream);
        desk_set_card(d, card);
        d->state[BLOCK_NODES] = d->state_copy[BLOCK_NODES] = 20;
        bool passes = internal_nodes <= 12;
        CHECK(desk_find(d, 7).code == (passes ? RATION_VALUE : RATION_BROKEN_WAY), "%u nodes", internal_nodes);
        CHECK(desk_next(d, 0).code == (passes ? RATION_NEXT : RATION_BROKEN_WAY), "%u nodes", internal_nodes);
        check_update(d, true, 7, passes, RATION_VALUE);
        check_update(d, false, 8, passes, RATION_ABSENT);
        set_garbage_state(d, true);
        d->state[BLOCK_DOING] = d->state_copy[BLOCK_DOING] = 0;
        try_calls(d, 10);
        desk_free(d);
    }
}

// Another depth is written into the block within an update: the final answer tells it, whatever it is.
static void any_depth(uint32_t tries)
{
    static uint32_t card[RATION_CARD_WORDS(20)];
    uint32_t state[RATION_STATE_WORDS];
    CHECK(build_card(card, 20, 1, 3, 9, &stream) != 0, "no card");
    desk *d = desk_new(RATION_CARD_WORDS(20), RATION_STATE_WORDS);
    for (uint32_t i = 0; i < tries; i++) {
        uint32_t key = 1 + random_below(&stream, 500);
        desk_set_card(d, card);
        CHECK(desk_open(d).code == RATION_IDLE, "not opened");
        ration_answer a = random_percent(&stream, 50) ? desk_start_insert(d, key, i) : desk_start_delete(d, key);
        CHECK(a.code == RATION_STARTED, "key %u: %u", key, a.code);
        if (random_percent(&stream, 50) && desk_step(d).code != RATION_STORED)
            continue;
        memcpy(state, d->state, sizeof state);
        state[BLOCK_DEPTH] = random_percent(&stream, 50) ? random_word(&stream) : random_below(&stream, 20);
        desk_set_state(d, state);
        do
            a = desk_step(d);
        while (a.code == RATION_STORED);
        CHECK(a.code == RATION_VALUE || a.code == RATION_ABSENT, "key %u: %u", key, a.code);
        CHECK(a.depth == state[BLOCK_DEPTH], "depth %u, due %u", a.depth, state[BLOCK_DEPTH]);
    }
    desk_free(d);
}

// Other totals are written into a block: an update counts from there, and goes round at the ends of all numbers.
static void any_totals(uint32_t tries)
{
    static uint32_t card[RATION_CARD_WORDS(20)];
    uint32_t state[RATION_STATE_WORDS];
    CHECK(build_card(card, 20, 1, 3, 9, &stream) != 0, "no card");
    spread_keys(card, 20);
    desk *d = desk_new(RATION_CARD_WORDS(20), RATION_STATE_WORDS);
    for (uint32_t i = 0; i < tries; i++) {
        desk_set_card(d, card);
        CHECK(desk_open(d).code == RATION_IDLE, "not opened");
        memcpy(state, d->state, sizeof state);
        bool insert = random_percent(&stream, 50);
        for (uint32_t family = 0; family < RATION_FAMILIES; family++)
            state[BLOCK_TOTALS + family] = insert ? UINT32_MAX : 0;
        desk_set_state(d, state);
        ration_answer a = desk_next(d, random_word(&stream));
        uint32_t held = a.code == RATION_NEXT ? a.key : desk_next(d, 0).key, family = RATION_FAMILY(held);
        a = insert ? desk_start_insert(d, held + 1, i) : desk_start_delete(d, held);
        CHECK(a.code == RATION_STARTED, "key %u: %u", held, a.code);
        do
            a = desk_step(d);
        while (a.code == RATION_STORED);
        CHECK(a.code == (insert ? RATION_ABSENT : RATION_VALUE), "key %u: %u", held, a.code);
        CHECK(d->totals[family] == (insert ? 0 : UINT32_MAX), "%u pairs of family %u", d->totals[family], family);
    }
    desk_free(d);
}

void test_damage(scale s)
{
    stream.state = 12;
    any_depth(20 * s.percent);
    any_totals(20 * s.percent);
    odd_cards(1, 100 * s.percent);
    odd_cards(2, 50 * s.percent);
    odd_cards(3, 20 * s.percent);
    for (uint32_t i = 0; i < s.percent; i++)
        chains();
    damaged_cards(12, 1, 2, 5, 200 * s.percent);
    damaged_cards(20, 2, 2, 3, 200 * s.percent);
    damaged_cards(60, 2, 3, 6, 150 * s.percent);
    damaged_cards(60, 4, 2, 2, 150 * s.percent);
    damaged_cards(600, 8, 2, 2, 10 * s.percent);
    damaged_cards(2600, 10, 2, 2, 2 * s.percent);
    garbage(4, 100 * s.percent);
    garbage(6, 100 * s.percent);
    garbage(12, 100 * s.percent);
    garbage(60, 30 * s.percent);
    garbage(600, 2 * s.percent);
    garbage(2600, s.percent / 2);
    mixed(20, 100 * s.percent);
    mixed(60, 50 * s.percent);
    CHECK(next_on_few_free > 0 && next_on_unsound > 0, "no such card");
    printf("  next pairs: %llu on cards refused with 5, %llu on cards not sound\n",
           (unsigned long long)next_on_few_free, (unsigned long long)next_on_unsound);
}
