// The calls of ration_table.h measured on cards of several sizes.
#include <string.h>

#include "measure.h"
#include "table_in_use.h"

static uint32_t base_card[RATION_MOST_CARD_WORDS], base_state[RATION_STATE_WORDS];

static void keep(void)
{
    memcpy(base_card, card, sizeof card);
    memcpy(base_state, state, sizeof state);
}

static void restore(void)
{
    memcpy(card, base_card, sizeof card);
    memcpy(state, base_state, sizeof state);
}

static void end_row(const workload *w, const char *name)
{
    char whole[80];
    snprintf(whole, sizeof whole, "%s%s", name, w->order);
    row_end(w->nodes, whole);
}

typedef uint32_t which_key(const workload *w, uint32_t i);

static const uint32_t *keys_of(const workload *w, which_key *which)
{
    static uint32_t keys[MOST_KEYS];
    for (uint32_t i = 0; i < MOST_KEYS; i++)
        keys[i] = which(w, i);
    return keys;
}

static void measure_finds(const workload *w, which_key *which, const char *name)
{
    const uint32_t *keys = keys_of(w, which);
    batch_begin();
    for (uint32_t i = 0; i < FINDS; i++)
        CALL(ration_find(CARD, keys[i]));
    batch_end();
    end_row(w, name);
}

// The leaf that a number leads to.
static uint32_t leaf_of(uint32_t number)
{
    uint32_t m = card[4];
    for (;;) {
        const uint32_t *node = card + 8 + 24 * (m - 1);
        if (node[0] == 1)
            return m;
        uint32_t i = 0;
        while (i < 10 && node[13 + i] != 0 && node[1 + i] <= number)
            i++;
        m = node[12 + i];
    }
}

static void measure_next(const workload *w, const uint32_t *numbers, uint32_t count, const char *name)
{
    uint32_t rounds = count == 0 ? 0 : count < FINDS ? FINDS / count : 1;
    batch_begin();
    for (uint32_t round = 0; round < rounds; round++)
        for (uint32_t i = 0; i < count; i++)
            CALL(ration_next(CARD, numbers[i]));
    batch_end();
    end_row(w, name);
}

// The pair after each key that is held, where it is in the key's own leaf and where it is in the next one; and a walk from 0 to "none".
static void measure_nexts(const workload *w)
{
    static uint32_t own[MOST_KEYS], other[MOST_KEYS], walk[MOST_KEYS];
    uint32_t own_count = 0, other_count = 0, walk_count = 0;
    for (uint32_t i = 0; i < w->pairs; i++) {
        uint32_t key = held_key(w, i);
        ration_answer next = ration_next(CARD, key);
        if (next.code == RATION_NEXT && leaf_of(next.key) == leaf_of(key))
            own[own_count++] = key;
        else if (next.code == RATION_NEXT)
            other[other_count++] = key;
    }
    for (ration_answer a = {.code = RATION_NEXT}; a.code == RATION_NEXT && walk_count < MOST_KEYS;) {
        walk[walk_count++] = a.key;
        a = ration_next(CARD, a.key);
    }
    expect(walk_count >= w->pairs);
    measure_next(w, own, own_count, "next, in the number's own leaf");
    measure_next(w, other, other_count, "next, in the leaf after it");
    measure_next(w, walk, walk_count, "next, each of a walk");
}

static void measure_updates(const workload *w, which_key *which, uint32_t count, void update(uint32_t),
                            const char *name)
{
    const uint32_t *keys = keys_of(w, which);
    for (uint32_t round = 0; round < w->rounds; round++) {
        restore();
        batch_begin();
        for (uint32_t i = 0; i < count; i++)
            CALL(update(keys[i]));
        batch_end();
    }
    end_row(w, name);
}

// How many stores the insert or the delete of a key takes from the base card on.
static uint32_t stores_of(bool is_insert, uint32_t key)
{
    uint32_t stores = 0;
    restore();
    ration_answer a = is_insert ? ration_start_insert(CARD, STATE, key, 1) : ration_start_delete(CARD, STATE, key);
    expect(a.code == RATION_STARTED);
    while (ration_step(CARD, STATE).code == RATION_STORED)
        stores++;
    return stores;
}

// Steps of the insert of each key, after so many others.
static void measure_step_after(const workload *w, const uint32_t *keys, uint32_t count, int steps_before, int steps,
                               const char *name)
{
    for (uint32_t i = 0; i < count; i++) {
        restore();
        ration_start_insert(CARD, STATE, keys[i], 1);
        for (int step = 0; step < steps_before; step++)
            ration_step(CARD, STATE);
        batch_begin();
        for (int step = 0; step < steps; step++)
            CALL(ration_step(CARD, STATE));
        batch_end();
    }
    end_row(w, name);
}

static void measure_starts(const workload *w, const uint32_t *keys, uint32_t count)
{
    for (uint32_t i = 0; i < count; i++) {
        restore();
        batch_begin();
        CALL(ration_start_insert(CARD, STATE, keys[i], 1));
        batch_end();
    }
    end_row(w, "start of an insert");
    for (uint32_t i = 0; i < count; i++) {
        restore();
        uint32_t key = held_key(w, i);
        batch_begin();
        CALL(ration_start_delete(CARD, STATE, key));
        batch_end();
    }
    end_row(w, "start of a delete");
}

// The one store of the deletes that take no more: it decides them.
static void measure_deletes(const workload *w)
{
    for (uint32_t i = 0, measured = 0; i < w->pairs && measured < 40; i++) {
        uint32_t key = held_key(w, i);
        if (stores_of(false, key) != 1)
            continue;
        restore();
        ration_start_delete(CARD, STATE, key);
        batch_begin();
        CALL(ration_step(CARD, STATE));
        batch_end();
        measured++;
    }
    end_row(w, "step that plans a delete (1 store)");
}

static void measure_totals(const workload *w)
{
    batch_begin();
    for (uint32_t i = 0; i < FINDS; i++)
        CALL(ration_family_total(STATE, i % RATION_FAMILIES));
    batch_end();
    end_row(w, "a family's total");
}

static void measure_steps(const workload *w)
{
    // Absent keys whose insert puts a pair in, and some whose insert begins with a split.
    enum { KEYS = 40 };
    uint32_t pairs[KEYS], splits[KEYS], pair_count = 0, split_count = 0;
    for (uint32_t i = 0; i < 500 && (pair_count < KEYS || split_count < KEYS); i++) {
        uint32_t key = absent_key(w, i), stores = stores_of(true, key);
        if (stores == 2 && pair_count < KEYS)
            pairs[pair_count++] = key;
        if (stores >= 73 && split_count < KEYS)
            splits[split_count++] = key;
    }

    measure_starts(w, pairs, pair_count);
    measure_step_after(w, pairs, pair_count, 0, 1, "step that plans a pair (2 stores)");
    measure_step_after(w, splits, split_count, 0, 1, "step that plans a split (73 stores)");
    measure_step_after(w, splits, split_count, 1, 71, "store of a plan in hand");
    measure_step_after(w, pairs, pair_count, 1, 1, "last store of a plan, a pair's key");
    measure_step_after(w, splits, split_count, 72, 1, "last store of a plan, frees a node");
    measure_step_after(w, pairs, pair_count, 2, 1, "final answer");
}

static void measure_opening(const workload *w, const char *name)
{
    batch_begin();
    for (int i = 0; i < 10; i++)
        CALL(expect(ration_open(CARD, STATE).code == RATION_IDLE));
    batch_end();
    end_row(w, name);
}

static void measure_formatting(const workload *w)
{
    batch_begin();
    for (int i = 0; i < 3; i++)
        CALL(expect(ration_start_format(CARD, STATE).code == RATION_STARTED));
    batch_end();
    end_row(w, "start of a formatting");
    batch_begin();
    for (int i = 0; i < 3; i++)
        CALL(format());
    batch_end();
    end_row(w, "formatting, whole");
}

static void measure_dumps(const workload *w)
{
    static uint8_t dump[RATION_MOST_DUMP_BYTES];
    static uint32_t copy[RATION_MOST_CARD_WORDS];
    size_t bytes = RATION_DUMP_BYTES(w->nodes);
    batch_begin();
    for (int i = 0; i < 3; i++)
        CALL(expect(ration_write_dump(CARD, dump, sizeof dump).value == bytes));
    batch_end();
    end_row(w, "writing a dump");
    batch_begin();
    for (int i = 0; i < 3; i++)
        CALL(expect(ration_read_dump(dump, bytes, copy, RATION_MOST_CARD_WORDS).value == words));
    batch_end();
    end_row(w, "reading a dump");
    expect(memcmp(copy, card, 4 * words) == 0);
}

static void measure(void)
{
    measure_the_measuring();
    for (const workload *w = workloads; w < workloads + WORKLOADS; w++) {
        bool random = w < workloads + RANDOM_WORKLOADS;
        prepare(w);
        keep();
        measure_finds(w, held_key, "find, key held");
        if (random)
            measure_finds(w, absent_key, "find, key absent");
        measure_nexts(w);
        measure_updates(w, absent_key, w->inserts, insert, "insert, whole");
        measure_updates(w, held_key, w->pairs, delete, "delete, whole");
        if (!random)
            continue;
        measure_steps(w);
        measure_deletes(w);
        restore();
        measure_totals(w);
        measure_opening(w, "opening");
        if (w->nodes >= 600) {
            prepare_full(w->nodes);
            measure_opening(w, "opening a full card");
        }
        measure_dumps(w);
        measure_formatting(w);
    }
}

int main(void)
{
    on_an_even_stack(measure);
    return 0;
}
