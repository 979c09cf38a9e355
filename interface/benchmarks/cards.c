// What the cards measured are like: name, nodes, nodes used, pairs, internal levels.
#include "table_in_use.h"

// The nodes from this one down, and on the leftmost way the levels, read off the card.
static uint32_t used_nodes(uint32_t number, uint32_t *levels)
{
    const uint32_t *node = card + 24 * (size_t)number - 16;
    uint32_t used = 1, below = 0, other;
    *levels = 0;
    if (node[0] == 1)
        return used;
    for (int i = 0; i < 11 && node[12 + i] != 0; i++)
        used += used_nodes(node[12 + i], i == 0 ? &below : &other);
    *levels = below + 1;
    return used;
}

static void describe(const char *name, uint32_t nodes, uint32_t pairs)
{
    uint32_t levels, used = used_nodes(card[4], &levels);
    printf("%s\t%u\t%u\t%u\t%u\n", name, nodes, used, pairs, levels);
}

int main(void)
{
    for (int i = 0; i < WORKLOADS; i++) {
        prepare(&workloads[i]);
        describe(i < RANDOM_WORKLOADS ? "random keys" : workloads[i].order + 2, workloads[i].nodes, workloads[i].pairs);
    }
    for (uint32_t nodes = 600; nodes <= RATION_MOST_NODES; nodes += RATION_MOST_NODES - 600) {
        uint32_t pairs = prepare_full(nodes);
        describe("full: random keys until an insert is refused 8", nodes, pairs);
    }
    return 0;
}
