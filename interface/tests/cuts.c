// Power goes after every store of chosen lists, and again within the repairs.
#include "builder.h"
#include "check.h"
#include "due.h"
#include "parts.h"
#include "worked.h"

static random_stream stream;
static uint64_t cuts;

// After a cut the repair is run to its end, cut again now and then.
static void recover(worked *copy, const worked *w)
{
    worked_copy_cut(copy, w);
    cuts++;
    while (copy->in_progress != NOTHING) {
        worked_next(copy, worked_number(copy, &stream));
        if (random_below(&stream, 60) == 0) {
            worked_cut(copy);
            cuts++;
        } else {
            worked_step(copy);
        }
    }
    worked_check(copy);
    worked_walk(copy);
}

// The repair is cut after each of its steps in turn, begun again and run to its end.
static void recover_everywhere(worked *copy, const worked *w)
{
    bool whole = false;
    for (uint32_t steps = 0; !whole; steps++) {
        worked_copy_cut(copy, w);
        for (uint32_t i = 0; i < steps && copy->in_progress != NOTHING; i++)
            worked_step(copy);
        whole = copy->in_progress == NOTHING;
        worked_cut(copy);
        cuts += 2;
        worked_finish(copy);
        worked_check(copy);
    }
}

// Finishes the update in progress, with a cut on a copy before it and after each of its stores.
static void finish_with_cuts(worked *w, worked *copy, bool everywhere)
{
    recover(copy, w);
    while (w->in_progress != NOTHING) {
        worked_step(w);
        if (everywhere)
            recover_everywhere(copy, w);
        else
            recover(copy, w);
    }
    worked_check(w);
}

// Keys of updates: positive inserts, negative deletes.
static void work_chosen(worked *w, const int *updates, size_t count, bool everywhere)
{
    worked *copy = worked_open(read_nodes(w->desk->words), w->desk->card);
    for (size_t i = 0; i < count; i++) {
        uint32_t key = (uint32_t)(updates[i] > 0 ? updates[i] : -updates[i]);
        if (updates[i] > 0 ? worked_start_insert(w, key, 10 * key) : worked_start_delete(w, key))
            finish_with_cuts(w, copy, everywhere);
    }
    worked_free(copy);
}

// The multiplier spreads the keys over all words, and so over the families.
static void work_random(worked *w, uint32_t updates, uint32_t keys, uint32_t multiplier, uint32_t insert_percent)
{
    worked *copy = worked_open(read_nodes(w->desk->words), w->desk->card);
    for (uint32_t i = 0; i < updates; i++) {
        uint32_t key = (1 + random_below(&stream, keys)) * multiplier;
        bool insert = random_percent(&stream, insert_percent);
        if (insert ? worked_start_insert(w, key, random_word(&stream)) : worked_start_delete(w, key))
            finish_with_cuts(w, copy, false);
    }
    worked_free(copy);
}

// Deletes of keys that are held.
static void work_held(worked *w, uint32_t updates)
{
    worked *copy = worked_open(read_nodes(w->desk->words), w->desk->card);
    for (uint32_t i = 0; i < updates; i++)
        if (worked_start_delete(w, w->book.keys[random_below(&stream, w->book.pairs)]))
            finish_with_cuts(w, copy, false);
    worked_free(copy);
}

// A card that holds a table is formatted and power goes after each number of stores: "Cut before its first store, it
// leaves the card alone; before its last store, opening refuses with 2."
static void cut_formatting(void)
{
    static uint32_t card[RATION_CARD_WORDS(6)];
    CHECK(build_card(card, 6, 1, 2, 2, &stream) != 0, "no card");
    desk *d = desk_new(RATION_CARD_WORDS(6), RATION_STATE_WORDS);
    for (size_t stores = 0; stores <= d->words + 1; stores++) {
        bool decided;
        desk_set_card(d, card);
        CHECK(desk_start_format(d).code == RATION_STARTED, "formatting refused");
        for (size_t i = 0; i < stores; i++)
            CHECK(desk_step(d).code == RATION_STORED, "store %zu", i);
        uint32_t due = stores == 0 || stores == d->words + 1 ? RATION_BUSY : RATION_NOT_FORMATTED;
        CHECK(due_start(d, true, 10, &decided) == due && desk_start_insert(d, 10, 1).code == due,
              "insert while formatting");
        CHECK(desk_find(d, 10).code == due_find(d, 10).code, "find while formatting");
        due_next_read(d);
        CHECK(desk_next(d, 0).code == due_next(d, 0).code, "next while formatting");
        if (stores == 0)
            CHECK(desk_find(d, 10).code == RATION_VALUE, "the card was changed");
        desk_cut(d);
        CHECK(desk_open(d).code == (due == RATION_BUSY ? RATION_IDLE : RATION_NOT_FORMATTED), "%zu stores", stores);
    }
    desk_free(d);
}

void test_cuts(scale s)
{
    stream.state = 7;
    cut_formatting();

    // The bench cards of document 01, with a second level added.
    static const int bench[] = {1,  2,  3,  4,   5,  6, 7, 8, 9, 10, 11, 12, -1, -2, -3, -4,
                                -5, -7, -8, -10, -9, 1, 2, 3, 4, 5,  7,  8,  9,  10, 13, 14};
    worked *w = worked_format(6, &stream);
    work_chosen(w, bench, sizeof bench / sizeof bench[0], false);
    worked_free(w);

    // A leaf split below the root, whose tagged node is taken in, and its merging again.
    static const int tagged[] = {1,  2,  3,  4,   5,   6,   7,   8,   9,   10,  11,  12,  13, 14, 15,
                                 16, 17, 18, -18, -17, -16, -15, -14, -13, -12, -11, -10, -9, -8};
    w = worked_format(12, &stream);
    work_chosen(w, tagged, sizeof tagged / sizeof tagged[0], s.percent == 100);
    worked_free(w);

    static const struct {
        uint32_t nodes, updates, keys, multiplier, insert_percent;
    } lists[] = {{4, 100, 14, 1, 50},  {5, 100, 14, 2654435761u, 50},   {6, 200, 30, 2654435761u, 50},
                 {12, 200, 80, 1, 60}, {60, 200, 300, 2654435761u, 70}, {60, 100, 300, 1, 20}};
    for (size_t i = 0; i < sizeof lists / sizeof lists[0]; i++) {
        w = worked_format(lists[i].nodes, &stream);
        work_random(w, lists[i].updates * s.percent / 100, lists[i].keys, lists[i].multiplier, lists[i].insert_percent);
        worked_free(w);
    }

    // The longest ways: deletes that merge through 8 and 10 levels, inserts that split through full ones.
    static const struct {
        uint32_t nodes, levels, least, most, insert_percent;
    } built[] = {{600, 8, 2, 2, 0},   {600, 2, 11, 11, 100},  {600, 3, 5, 8, 50},
                 {2600, 10, 2, 2, 0}, {2600, 3, 11, 11, 100}, {2600, 4, 5, 6, 50}};
    static uint32_t card[RATION_MOST_CARD_WORDS];
    uint32_t most = 0;
    for (size_t i = 0; i < sizeof built / sizeof built[0] && s.percent == 100; i++) {
        CHECK(build_card(card, built[i].nodes, built[i].levels, built[i].least, built[i].most, &stream) != 0,
              "card %zu", i);
        uint32_t factor = spread_keys(card, built[i].nodes);
        w = worked_open(built[i].nodes, card);
        worked *copy = worked_open(built[i].nodes, card);
        for (uint32_t n = 0; n < 6; n++) {
            uint32_t key = 10 * factor * (1 + random_below(&stream, w->book.pairs));
            if (random_percent(&stream, built[i].insert_percent) ? worked_start_insert(w, key + 5, 1)
                                                                 : worked_start_delete(w, key))
                finish_with_cuts(w, copy, false);
        }
        most = w->most_stores > most ? w->most_stores : most;
        worked_free(copy);
        worked_free(w);
    }
    // A card of the most nodes, filled until a key that is absent is refused for want of nodes.
    if (s.percent == 100) {
        w = worked_format(RATION_MOST_NODES, &stream);
        while (worked_start_insert(w, 1 + random_below(&stream, UINT32_MAX), 1))
            worked_finish(w);
        CHECK(w->book.pairs > 5 * RATION_MOST_NODES, "only %u pairs", w->book.pairs);
        worked_check(w);
        work_random(w, 20, UINT32_MAX, 1, 50);
        work_held(w, 20);
        worked_free(w);
    }
    printf("  %llu cuts; the longest update on built cards %u stores\n", (unsigned long long)cuts, most);
}
