// Builds sound cards of a chosen shape, without the table's calls.
#ifndef BUILDER_H
#define BUILDER_H

#include <stdint.h>

#include "random.h"

// A balanced table with so many internal levels over its leaves: each internal node has `least` to `most` children,
// each leaf `least` to `most` pairs. Keys are multiples of 10 with value key + 1. Gives the number of nodes used, or 0
// where they are not enough.
uint32_t build_card(uint32_t *card, uint32_t nodes, uint32_t levels, uint32_t least, uint32_t most,
                    random_stream *random);

// A table with now and then something odd: a tagged node, a node with too few children or pairs, leaves at different
// depths, a tagged node with other than 2 children; else sound, with ranges as narrow as the keys allow. The card has
// as many nodes as are used and up to 7 more; gives that number, or 0 where the most are not enough.
uint32_t build_odd_card(uint32_t *card, uint32_t levels, random_stream *random);

// Internal nodes one below the other, each with one child, and a leaf with one pair.
void build_chain(uint32_t *card, uint32_t nodes, uint32_t internal_nodes, uint32_t key, random_stream *random);

// Multiplies every key of a card that was built by one number, so that they lie in all families; gives that number.
uint32_t spread_keys(uint32_t *card, uint32_t nodes);

#endif
