// Every call is made on guarded memory and looked at afterwards: the words around what was lent are as they were,
// the code is one of that call's, a refusal changed nothing, and only a step that says so stored a word, exactly
// one, inside the card and in the place that it told. The depth is the one that reader.c counts on the number's way
// on the card as it was when the call began, an update when it was started; 0 where an answer carries none. After each
// call that can change the block all totals by family are asked: opened they are those of the pairs that reader.c reads off the
// card, refused or formatting 0; a step changes none but that of an update's key, by 1 and with a store, and no other call changes
// one.
#ifndef GUARDED_H
#define GUARDED_H

#include <stddef.h>
#include <stdint.h>

#include "ration_table.h"

// A card with a state block. The copies hold what the words were after the last call.
typedef struct {
    size_t words, state_words;
    uint32_t *card, *state;
    uint32_t *card_copy, *state_copy;
    uint32_t depth; // of the way of the update begun last; else what was written into the block from outside
    uint32_t totals[RATION_FAMILIES]; // as the table told them after the last call, or written from outside
} desk;

// How many words stand on guard on each side. With 0 the memory lent is a heap block of exactly its size, so that a
// memory checker sees every access beside it.
extern size_t guard_words;

// All calls made so far, but the totals asked after each of them, and how often each code was answered.
enum { START_FORMAT, OPEN, FIND, NEXT, START_INSERT, START_DELETE, STEP, FAMILY_TOTAL, READ_DUMP, WRITE_DUMP, CALLS };
enum { CODES = RATION_TOTAL + 1 };
extern uint64_t events;
extern uint64_t answered[CALLS][CODES];

// How often each call told each depth that a card can have.
enum { DEPTHS = 13 };
extern uint64_t told[CALLS][DEPTHS];

// How often a step changed each family's total: up, and down.
extern uint64_t counted_in[RATION_FAMILIES], counted_out[RATION_FAMILIES];

// A card of 0s with a block of 0s, the idle state for N = 0.
desk *desk_new(size_t words, size_t state_words);
void desk_free(desk *d);

// Words written from outside.
void desk_set(desk *d, size_t place, uint32_t word);
void desk_set_card(desk *d, const uint32_t *words);
void desk_set_state(desk *d, const uint32_t *words);

// Power goes: the block holds other words.
void desk_cut(desk *d);

ration_answer desk_start_format(desk *d);
ration_answer desk_open(desk *d);
ration_answer desk_find(desk *d, uint32_t key);
ration_answer desk_next(desk *d, uint32_t after);
ration_answer desk_start_insert(desk *d, uint32_t key, uint32_t value);
ration_answer desk_start_delete(desk *d, uint32_t key);
ration_answer desk_step(desk *d);
ration_answer desk_family_total(desk *d, uint32_t family);

// Walks a card from 0 to RATION_NONE; gives the number of its pairs, at most MOST_WALKED. They stand at *pairs until the next walk.
enum { MOST_WALKED = RATION_MOST_NODES * 11 };
typedef struct {
    uint32_t key, value;
} walked_pair;
size_t desk_walk(desk *d, const walked_pair **pairs);

// Reads a dump over words that are each 7 before, or writes one over bytes that are each 7 before. The result
// stands at *result, of the length lent, until the next of these two calls.
ration_answer guarded_read_dump(const uint8_t *dump, size_t dump_bytes, size_t words_lent, const uint32_t **result);
ration_answer desk_write_dump(desk *d, size_t bytes_lent, const uint8_t **result);

#endif
