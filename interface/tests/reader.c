#include "reader.h"

#include <string.h>

#include "ration_table.h"

uint32_t read_nodes(size_t words)
{
    for (uint32_t n = 4; n <= RATION_MOST_NODES; n++)
        if (words == 8 + 24 * (size_t)n)
            return n;
    return 0;
}

uint32_t read_header(const uint32_t *card, size_t words)
{
    uint32_t n = read_nodes(words);
    const uint32_t right[8] = {1, n, 8, 24, n == 0 ? 0 : card[4], 0, 0, 0};
    if (n == 0)
        return 1;
    if (card[0] != 1)
        return 2;
    return memcmp(card, right, sizeof right) == 0 ? 0 : 3;
}

static const uint32_t *node_of(const uint32_t *card, uint32_t m) { return &card[8 + 24 * (m - 1)]; }

// "its children being those before the first 0"
static int children_of(const uint32_t *node)
{
    int c = 0;
    for (int i = 12; i <= 22 && node[i] != 0; i++)
        c++;
    return c;
}

landing read_landing(const uint32_t *card, size_t words, uint32_t key)
{
    landing l = {.refused = true};
    uint32_t n = read_nodes(words);
    uint32_t m = card[4];
    while (m >= 1 && m <= n && (node_of(card, m)[0] == 2 || node_of(card, m)[0] == 3)) {
        const uint32_t *node = node_of(card, m);
        int c = children_of(node);
        if (c == 0 || ++l.depth > 12)
            return l;
        int i = 0;
        for (int k = 1; k <= c - 1 && node[k] <= key; k++)
            i++;
        l.run = c == 11 ? l.run + 1 : 0;
        m = node[12 + i];
    }
    if (m < 1 || m > n || node_of(card, m)[0] != 1)
        return l;
    l.refused = false;
    l.full = true;
    for (int slot = 10; slot >= 0; slot--) {
        uint32_t word = node_of(card, m)[1 + slot];
        if (word == 0)
            l.full = false;
        if (word == key) {
            l.held = true;
            l.value = node_of(card, m)[12 + slot];
        }
    }
    return l;
}

// A node to be read, with the keys that may stand below it: from low, included, to end, excluded.
typedef struct {
    uint32_t node;
    uint64_t low, end;
    int untagged_above;
    uint32_t run;
} waiting;

static bool zero(const uint32_t *words, int from, int to)
{
    for (int i = from; i <= to; i++)
        if (words[i] != 0)
            return false;
    return true;
}

static bool read_leaf(const waiting *w, const uint32_t *node, bool root, table_reading *t)
{
    uint32_t before = t->pairs;
    for (int slot = 0; slot < 11; slot++) {
        uint32_t key = node[1 + slot];
        if (key == 0)
            continue;
        if (key < w->low || key >= w->end)
            return false;
        for (uint32_t i = before; i < t->pairs; i++)
            if (t->keys[i] == key)
                return false;
        t->keys[t->pairs] = key;
        t->values[t->pairs] = node[12 + slot];
        t->pairs++;
    }
    if (!root && t->pairs - before < 2)
        t->faults++;
    return node[23] == 0 && (root || t->pairs > before);
}

static bool read_internal(const waiting *w, const uint32_t *node, bool root, table_reading *t, waiting *queue,
                          uint32_t *end)
{
    int c = children_of(node);
    bool tagged = node[0] == 3;
    if (c < (root ? 2 : 1) || (tagged && (root || c != 2)))
        return false;
    if (!zero(node, c, 11) || !zero(node, 12 + c, 23))
        return false;
    if (tagged || c < 2)
        t->faults++;
    if (tagged)
        t->run = w->run;
    for (int k = 1; k <= c - 1; k++) {
        if (node[k] < w->low || node[k] >= w->end)
            return false;
        if (k > 1 && node[k] <= node[k - 1])
            return false;
    }
    for (int i = 0; i < c; i++) {
        if (*end > RATION_MOST_NODES) // more than all nodes waiting: one of them twice
            return false;
        queue[(*end)++] = (waiting){.node = node[12 + i],
                                    .low = i == 0 ? w->low : node[i],
                                    .end = i == c - 1 ? w->end : node[i + 1],
                                    .untagged_above = w->untagged_above + (tagged ? 0 : 1),
                                    .run = c == 11 ? w->run + 1 : 0};
    }
    return true;
}

void read_table(const uint32_t *card, size_t words, table_reading *t)
{
    static waiting queue[RATION_MOST_NODES + 1];
    uint32_t n = read_nodes(words), begin = 0, end = 0;
    int leaf_depth = -1;
    t->sound = false;
    t->faults = t->run = t->pairs = 0;
    t->free = n;
    memset(t->reached, 0, sizeof t->reached);

    queue[end++] = (waiting){.node = card[4], .low = 1, .end = UINT64_C(1) << 32};
    while (begin < end) {
        bool root = begin == 0;
        waiting w = queue[begin++];
        if (w.node < 1 || w.node > n || t->reached[w.node])
            return;
        t->reached[w.node] = true;
        t->free--;
        const uint32_t *node = node_of(card, w.node);
        if (node[0] == 1) {
            if (!read_leaf(&w, node, root, t))
                return;
            if (leaf_depth >= 0 && leaf_depth != w.untagged_above)
                return;
            leaf_depth = w.untagged_above;
        } else if (node[0] == 2 || node[0] == 3) {
            if (!read_internal(&w, node, root, t, queue, &end))
                return;
        } else {
            return;
        }
    }
    t->sound = t->faults <= 1;
}

uint32_t read_opening(const uint32_t *card, size_t words, table_reading *t)
{
    uint32_t refusal = read_header(card, words);
    if (refusal != 0)
        return refusal;
    read_table(card, words, t);
    if (!t->sound)
        return RATION_NOT_SOUND;
    if (t->free < 3 + t->run)
        return RATION_FEW_FREE;
    return t->faults == 0 ? RATION_IDLE : RATION_STARTED;
}
