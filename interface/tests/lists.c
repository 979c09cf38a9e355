// Random lists of calls, refused ones and cuts among them, at several sizes of cards.
#include "block.h"
#include "builder.h"
#include "check.h"
#include "parts.h"
#include "worked.h"

enum { FAMILY_ENDS = 0 };

// Which keys a list uses, and how it is worked.
typedef struct {
    uint32_t nodes;
    uint32_t events;
    uint32_t keys; // how many different ones
    uint32_t
        multiplier; // spreads them over all words; FAMILY_ENDS for keys beside the first and the last of each family
    uint32_t check_every;
} list_shape;

static uint32_t random_key(const list_shape *l, random_stream *r)
{
    if (l->multiplier == FAMILY_ENDS)
        return random_below(r, 16) * 268435456 + random_below(r, 7) - 3;
    static const uint32_t ends[] = {0, 1, 2, UINT32_MAX - 1, UINT32_MAX};
    if (random_percent(r, 1))
        return ends[random_below(r, 5)];
    return (1 + random_below(r, l->keys)) * l->multiplier;
}

// The dump of a card is read back as the same words.
static void check_dump(worked *w)
{
    const uint8_t *bytes;
    const uint32_t *words;
    size_t length = RATION_DUMP_BYTES(read_nodes(w->desk->words));
    CHECK(desk_write_dump(w->desk, length + 3, &bytes).value == length, "dump's length");
    static uint8_t dump[RATION_MOST_DUMP_BYTES];
    for (size_t i = 0; i < length; i++)
        dump[i] = bytes[i];
    CHECK(guarded_read_dump(dump, length, w->desk->words, &words).value == w->desk->words, "card's length");
    for (size_t i = 0; i < w->desk->words; i++)
        CHECK(words[i] == w->desk->card[i], "word %zu of the dump", i);
}

static void one_event(worked *w, const list_shape *l, uint32_t insert_percent, random_stream *r)
{
    uint32_t dice = random_below(r, 1000), key = random_key(l, r), value = random_word(r);
    uint32_t steady = w->in_progress == NOTHING ? 300 : 900; // below it the likely call of the moment
    if (dice < steady && w->in_progress != NOTHING)
        worked_step(w);
    else if (dice < steady && random_percent(r, insert_percent))
        worked_start_insert(w, key, value);
    else if (dice < steady)
        worked_start_delete(w, key);
    else if (dice < 960 && random_percent(r, 50))
        worked_find(w, key);
    else if (dice < 960)
        worked_next(w, random_percent(r, 50) ? key : worked_number(w, r));
    else if (dice < 970)
        worked_start_insert(w, key, value);
    else if (dice < 980)
        worked_start_delete(w, key);
    else if (dice < 990)
        worked_step(w);
    else if (dice < 992)
        worked_cut(w);
    else if (dice < 993)
        check_dump(w);
    else
        worked_find(w, key);
}

static void work_list(worked *w, const list_shape *l, random_stream *r)
{
    uint32_t insert_percent = 80;
    for (uint32_t i = 0; i < l->events; i++) {
        if (random_below(r, l->nodes * 40) == 0)
            insert_percent = 100 - insert_percent; // growing and shrinking in turn
        one_event(w, l, insert_percent, r);
        if (i % l->check_every == 0)
            worked_check(w);
        if (i % (10 * l->check_every) == 0)
            worked_walk(w);
    }
    worked_finish(w);
    worked_check(w);
    worked_walk(w);
}

// Three leaves under the root, whose ranges meet at these two keys; the first has keys just below the one, the last just from the other
// on, and that between them its first and its last number.
static void open_three_leaves(uint32_t first, uint32_t second)
{
    uint32_t card[RATION_CARD_WORDS(7)] = {1, 7, 8, 24, 1};
    const uint32_t keys[4][2] = {{first, second}, {first - 1, first - 2}, {first, second - 1}, {second, second + 1}};
    for (uint32_t node = 0; node < 4; node++) {
        uint32_t *words = card + 8 + 24 * node;
        words[0] = node == 0 ? 2 : 1;
        for (uint32_t i = 0; i < 3; i++) {
            if (i < 2)
                words[1 + i] = keys[node][i];
            if (node == 0)
                words[12 + i] = 2 + i;
        }
    }
    worked *w = worked_open(7, card);
    CHECK(w->in_progress == NOTHING && w->book.pairs == 6, "not opened");
    worked_free(w);
}

// Opening counts the pairs of leaves whose ranges begin and end at or beside the first number of a family.
static void open_at_family_ends(void)
{
    for (uint32_t family = 1; family < 15; family++)
        for (uint32_t i = 0; i < 25; i++) {
            open_three_leaves(family * 268435456 + i / 5 - 2, (family + 1) * 268435456 + i % 5 - 2);
            if (i > 0)
                open_three_leaves(family * 268435456 - 2, family * 268435456 + i);
        }
}

void test_lists(scale s)
{
    open_at_family_ends();
    static const list_shape shapes[] = {
        {4, 60000, 20, 1, 1},
        {5, 60000, 20, 2654435761u, 1},
        {6, 120000, 40, 1, 1},
        {6, 60000, 40, 2654435761u, 1},
        {12, 200000, 120, 1, 2},
        {12, 100000, 80, 2654435761u, 2},
        {12, 100000, 112, FAMILY_ENDS, 2},
        {60, 300000, 500, 1, 20},
        {60, 200000, 400, 2654435761u, 20},
        {60, 60000, 112, FAMILY_ENDS, 20},
        {600, 150000, 5000, 2654435761u, 500},
        {2600, 60000, 20000, 2654435761u, 500},
    };
    for (size_t i = 0; i < sizeof shapes / sizeof shapes[0]; i++) {
        list_shape l = shapes[i];
        random_stream r = {1994 + i};
        if (l.nodes >= 600 && s.percent < 100)
            continue;
        l.events = l.events / 100 * s.percent;
        worked *w = worked_format(l.nodes, &r);
        work_list(w, &l, &r);
        worked_free(w);
    }

    // Cards that are full or deep from the start.
    static const struct {
        uint32_t nodes, levels, least, most;
    } built[] = {{600, 8, 2, 2}, {600, 2, 11, 11}, {600, 4, 3, 4},    {600, 3, 7, 7},
                 {600, 5, 2, 3}, {2600, 10, 2, 2}, {2600, 3, 11, 11}, {2600, 7, 2, 3}};
    for (size_t i = 0; i < sizeof built / sizeof built[0]; i++) {
        static uint32_t card[RATION_MOST_CARD_WORDS];
        random_stream r = {2026 + i};
        uint32_t used = build_card(card, built[i].nodes, built[i].levels, built[i].least, built[i].most, &r);
        CHECK(used != 0, "card %zu", i);
        uint32_t factor = spread_keys(card, built[i].nodes);
        list_shape l = {built[i].nodes, 40000 / 100 * s.percent, 50 * built[i].nodes, factor, 500};
        worked *w = worked_open(built[i].nodes, card);
        work_list(w, &l, &r);
        worked_free(w);
    }
}
