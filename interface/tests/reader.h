// What document 01 says of a card, read off its words. Written apart from the table, so that the two can be
// compared: the tree is read level by level from a queue, without ranges handed down a recursion.
#ifndef READER_H
#define READER_H

#include <stdbool.h>
#include <stddef.h>
#include <stdint.h>

enum { MOST_PAIRS = 2600 * 11 };

// The number of nodes of a card of so many words; 0 where no card has that length.
uint32_t read_nodes(size_t words);

// The refusal 1, 2 or 3 that a call on this card is due; 0 for none.
uint32_t read_header(const uint32_t *card, size_t words);

// Where a key leads on a card whose header is right.
typedef struct {
    bool refused; // 9 is due
    bool held;
    uint32_t value;
    bool full;      // no empty slot in the leaf
    uint32_t run;   // 11-child nodes without a break straight above the leaf
    uint32_t depth; // internal nodes passed, tagged ones too
} landing;

landing read_landing(const uint32_t *card, size_t words, uint32_t key);

// The table of a card whose header is right.
typedef struct {
    bool sound;
    uint32_t faults;
    uint32_t run; // 11-child nodes without a break straight above a tagged node
    uint32_t free;
    bool reached[2601];
    uint32_t pairs;
    uint32_t keys[MOST_PAIRS];
    uint32_t values[MOST_PAIRS];
} table_reading;

void read_table(const uint32_t *card, size_t words, table_reading *t);

// The code that opening this card is due; t is filled where the header is right.
uint32_t read_opening(const uint32_t *card, size_t words, table_reading *t);

#endif
