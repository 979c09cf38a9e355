// What the table writes for a durable update: its stores, each on the card before the next, and their bytes, 4 for each.
#include "spread.h"
#include "table_in_use.h"

static uint32_t stores_to_the_end(void)
{
    uint32_t stores = 0;
    while (ration_step(CARD, STATE).code == RATION_STORED)
        stores++;
    return stores;
}

static uint32_t stores_of_insert(uint32_t key)
{
    expect(ration_start_insert(CARD, STATE, key, 1).code == RATION_STARTED);
    return stores_to_the_end();
}

static uint32_t stores_of_delete(uint32_t key)
{
    expect(ration_start_delete(CARD, STATE, key).code == RATION_STARTED);
    return stores_to_the_end();
}

static void measure(const workload *w, uint32_t stores_of(uint32_t), uint32_t key(const workload *, uint32_t),
                    uint32_t updates, const char *name)
{
    spread stores = {0}, bytes = {0};
    for (uint32_t i = 0; i < updates; i++) {
        uint32_t made = stores_of(key(w, i));
        spread_add(&stores, made);
        spread_add(&bytes, 4 * made);
    }
    spread_print(w->nodes, "stores in order, or syncs, of ", name, w->order, &stores);
    spread_print(w->nodes, "bytes written by ", name, w->order, &bytes);
}

int main(void)
{
    for (const workload *w = workloads; w < workloads + WORKLOADS; w++) {
        prepare(w);
        measure(w, stores_of_insert, absent_key, w->inserts, "an insert");
        measure(w, stores_of_delete, held_key, w->pairs, "a delete");
    }
    return 0;
}
