#include "builder.h"

#include <string.h>

#include "ration_table.h"

typedef struct {
    uint32_t *card;
    uint32_t nodes, used, key, least, most;
    random_stream *random;
} building;

// Builds a part and gives its root, or 0 where the nodes run out; *smallest is its smallest key.
static uint32_t build_part(building *b, uint32_t levels, uint32_t *smallest)
{
    if (b->used == b->nodes)
        return 0;
    uint32_t number = ++b->used;
    uint32_t *node = &b->card[8 + 24 * (number - 1)];
    uint32_t count = b->least + random_below(b->random, b->most - b->least + 1);
    node[0] = levels == 0 ? 1 : 2;
    for (uint32_t i = 0; i < count; i++) {
        if (levels == 0) {
            b->key += 10;
            node[1 + i] = b->key;
            node[12 + i] = b->key + 1;
            if (i == 0)
                *smallest = b->key;
        } else {
            uint32_t key;
            node[12 + i] = build_part(b, levels - 1, &key);
            if (node[12 + i] == 0)
                return 0;
            if (i == 0)
                *smallest = key;
            else
                node[i] = key;
        }
    }
    return number;
}

static void write_header(uint32_t *card, uint32_t nodes, uint32_t root)
{
    const uint32_t header[8] = {1, nodes, 8, 24, root, 0, 0, 0};
    memcpy(card, header, sizeof header);
}

uint32_t build_card(uint32_t *card, uint32_t nodes, uint32_t levels, uint32_t least, uint32_t most,
                    random_stream *random)
{
    building b = {.card = card, .nodes = nodes, .least = least, .most = most, .random = random};
    uint32_t smallest;
    memset(card, 0, 4 * (8 + 24 * (size_t)nodes));
    uint32_t root = build_part(&b, levels, &smallest);
    write_header(card, nodes, root);
    return root == 0 ? 0 : b.used;
}

static uint32_t build_odd_part(building *b, uint32_t levels, bool root)
{
    if (b->used == b->nodes)
        return 0;
    uint32_t number = ++b->used;
    uint32_t *node = &b->card[8 + 24 * (number - 1)];
    bool odd = random_below(b->random, 30) == 0;
    bool tagged = odd && random_percent(b->random, 60);
    bool full = random_percent(b->random, 30);

    if (levels == 0 && !tagged) {
        uint32_t count = odd ? random_below(b->random, 2) : full ? 11 : 2 + random_below(b->random, 3);
        node[0] = 1;
        for (uint32_t i = 0; i < count; i++) {
            b->key += 1 + random_below(b->random, 2);
            node[1 + i] = b->key;
            node[12 + i] = random_word(b->random);
        }
        return number;
    }

    uint32_t count = odd ? 1 : full ? 11 : 2 + random_below(b->random, 2);
    if (tagged)
        count = random_percent(b->random, 80) ? 2 : 1 + random_below(b->random, 11);
    node[0] = tagged && !(root && random_percent(b->random, 50)) ? 3 : 2;
    uint32_t below = tagged ? levels : levels - 1;
    for (uint32_t i = 0; i < count; i++) {
        if (i > 0) {
            node[i] = b->key + 1 + random_below(b->random, 2); // the routing key: all that follows is not below it
            b->key = node[i] - 1;
        }
        node[12 + i] = build_odd_part(b, random_below(b->random, 200) == 0 ? below + 1 : below, false);
        if (node[12 + i] == 0)
            return 0;
    }
    return number;
}

uint32_t build_odd_card(uint32_t *card, uint32_t levels, random_stream *random)
{
    building b = {.card = card, .nodes = RATION_MOST_NODES, .random = random};
    memset(card, 0, 4 * RATION_MOST_CARD_WORDS);
    uint32_t root = build_odd_part(&b, levels, true);
    uint32_t nodes = b.used + random_below(random, 8);
    if (root == 0 || nodes < 4 || nodes > RATION_MOST_NODES)
        return 0;
    write_header(card, nodes, root);
    return nodes;
}

void build_chain(uint32_t *card, uint32_t nodes, uint32_t internal_nodes, uint32_t key, random_stream *random)
{
    memset(card, 0, 4 * (8 + 24 * (size_t)nodes));
    write_header(card, nodes, 1);
    for (uint32_t m = 1; m <= internal_nodes; m++) {
        card[8 + 24 * (m - 1)] = 2 + random_below(random, 2);
        card[8 + 24 * (m - 1) + 12] = m + 1;
    }
    uint32_t *leaf = &card[8 + 24 * internal_nodes];
    leaf[0] = 1;
    leaf[1] = key;
    leaf[12] = internal_nodes;
}

uint32_t spread_keys(uint32_t *card, uint32_t nodes)
{
    uint32_t greatest = 0;
    for (uint32_t place = 8; place < 8 + 24 * nodes; place++)
        if ((place - 8) % 24 >= 1 && (place - 8) % 24 <= 11 && card[place] > greatest)
            greatest = card[place];
    uint32_t factor = UINT32_MAX / (greatest + 10); // keys a little greater than the greatest are numbers too
    for (uint32_t place = 8; place < 8 + 24 * nodes; place++)
        if ((place - 8) % 24 >= 1 && (place - 8) % 24 <= 11)
            card[place] *= factor;
    return factor;
}
