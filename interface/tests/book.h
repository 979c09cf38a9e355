// The book of document 01 ("The book and the cut"): pairs, and the update in hand with its count of steps. It is
// fed nothing but the cut and what the calls were and answered; it never sees a card.
#ifndef BOOK_H
#define BOOK_H

#include <stdbool.h>
#include <stdint.h>

#include "reader.h"

typedef struct {
    uint32_t pairs;
    uint32_t keys[MOST_PAIRS]; // rising
    uint32_t values[MOST_PAIRS];
    enum { EMPTY_HAND, INSERT_IN_HAND, DELETE_IN_HAND } hand;
    uint32_t key, value;
    uint32_t deciding_step; // a delete's first, an insert's second, or its 73rd where its leaf was full
    uint32_t steps;
    bool entered;
} book;

void book_begin(book *b);
void book_insert_started(book *b, uint32_t key, uint32_t value, bool leaf_full);
void book_delete_started(book *b, uint32_t key);

// A step that was not refused; final where it gave a final answer.
void book_stepped(book *b, bool final);
void book_cut(book *b);

// The map that the book begins with where a card was opened.
void book_begin_with(book *b, const table_reading *t);

bool book_holds(const book *b, uint32_t key, uint32_t *value);

// Whether a key above this number is held; the smallest of them with its value.
bool book_next(const book *b, uint32_t after, uint32_t *key, uint32_t *value);

// How many pairs of a family the book has.
uint32_t book_total(const book *b, uint32_t family);

// Whether the pairs read off a card are exactly the book's.
bool book_agrees(const book *b, const table_reading *t);

#endif
