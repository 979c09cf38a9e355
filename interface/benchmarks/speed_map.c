// The standard library's map of Rust (btree.rs), measured with the same keys.
#include "measure.h"
#include "workload.h"

typedef struct map map;
map *map_new(void);
map *map_copy(const map *m);
void map_free(map *m);
uint32_t map_find(const map *m, uint32_t key);
uint32_t map_next(const map *m, uint32_t after);
uint32_t map_insert(map *m, uint32_t key, uint32_t value);
uint32_t map_delete(map *m, uint32_t key);

static void measure_one(const workload *w)
{
    static uint32_t held[MOST_KEYS], absent[MOST_KEYS];
    for (uint32_t i = 0; i < MOST_KEYS; i++) {
        held[i] = held_key(w, i);
        absent[i] = absent_key(w, i);
    }
    map *base = map_new();
    for (uint32_t i = 0; i < w->pairs; i++)
        map_insert(base, w->key(i), w->key(i) + 1);
    batch_begin();
    for (uint32_t i = 0; i < FINDS; i++)
        CALL(map_find(base, held[i]));
    batch_end();
    row_end(w->nodes, "find, key held");
    batch_begin();
    for (uint32_t i = 0; i < FINDS; i++)
        CALL(map_find(base, absent[i]));
    batch_end();
    row_end(w->nodes, "find, key absent");
    static uint32_t walk[MOST_KEYS];
    for (uint32_t i = 0; i + 1 < w->pairs; i++)
        walk[i + 1] = map_next(base, walk[i]);
    batch_begin();
    for (uint32_t i = 0; i < w->pairs; i++)
        CALL(map_next(base, walk[i]));
    batch_end();
    row_end(w->nodes, "next, each of a walk");
    for (uint32_t round = 0; round < w->rounds; round++) {
        map *m = map_copy(base);
        batch_begin();
        for (uint32_t i = 0; i < w->inserts; i++)
            CALL(map_insert(m, absent[i], 1));
        batch_end();
        map_free(m);
    }
    row_end(w->nodes, "insert, whole");
    for (uint32_t round = 0; round < w->rounds; round++) {
        map *m = map_copy(base);
        batch_begin();
        for (uint32_t i = 0; i < w->pairs; i++)
            CALL(map_delete(m, held[i]));
        batch_end();
        map_free(m);
    }
    row_end(w->nodes, "delete, whole");
    map_free(base);
}

static void measure(void)
{
    measure_the_measuring();
    for (int i = 0; i < RANDOM_WORKLOADS; i++)
        measure_one(&workloads[i]);
}

int main(void)
{
    on_an_even_stack(measure);
    return 0;
}
