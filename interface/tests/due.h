// The codes that document 01 decides for any card and any block ("Refusal by place"), read off the words.
#ifndef DUE_H
#define DUE_H

#include <stdbool.h>

#include "guarded.h"

// Find: code and value.
ration_answer due_find(const desk *d, uint32_t key);

// The next pair: due_next_read reads the card, and tells whether it is one whose answers are decided: refused with 1, 2 or 3,
// or sound. due_next then gives the answer due to a number.
bool due_next_read(const desk *d);
ration_answer due_next(const desk *d, uint32_t after);

// Opening.
uint32_t due_open(const desk *d);

// Starting an update: RATION_STARTED or the refusal. Of a block with free bits that stand for no node of the card
// document 01 does not say whether they count; then *room_decided is false where refusal 8 hangs on them.
uint32_t due_start(const desk *d, bool insert, uint32_t key, bool *room_decided);

// A step: the refusal 1, 2, 3 or 10 that is due before the tree is looked at; 0 where none is. Then a step makes one
// store inside the card, answers, or refuses with 9.
uint32_t due_step(const desk *d);

// Reading a dump: code and value.
ration_answer due_read_dump(const uint8_t *dump, size_t dump_bytes, size_t words_lent);

#endif
