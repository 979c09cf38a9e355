// A table worked by the calls alone, beside the book. Every answer is compared with the one due, and after each start, step and cut
// each family's total with the book's pairs.
#ifndef WORKED_H
#define WORKED_H

#include "book.h"
#include "guarded.h"
#include "random.h"

typedef struct {
    desk *desk;
    book book;
    enum { NOTHING, UPDATE, REPAIR } in_progress;
    ration_answer due; // the final answer of what is in progress
    uint32_t stores;   // of what is in progress
    uint32_t most_stores;
} worked;

// How many updates told a depth that their key's way no longer had at the end: one less, and one more.
extern uint64_t told_before_growth, told_before_shrinking;

// A card of other words, formatted to "ready".
worked *worked_format(uint32_t nodes, random_stream *random);

// A card opened; its words are copied.
worked *worked_open(uint32_t nodes, const uint32_t *card);

// Another one with the same card and book, whose power has just gone.
void worked_copy_cut(worked *copy, const worked *w);

void worked_free(worked *w);

// The calls; false where they were rightly refused.
bool worked_start_insert(worked *w, uint32_t key, uint32_t value);
bool worked_start_delete(worked *w, uint32_t key);
void worked_find(worked *w, uint32_t key);
void worked_next(worked *w, uint32_t after);
void worked_step(worked *w);

// Steps until nothing is in progress.
void worked_finish(worked *w);

// Power goes and the card is opened.
void worked_cut(worked *w);

// A number to ask the next pair of: an end of all numbers, a key that is held or one beside it, or any.
uint32_t worked_number(const worked *w, random_stream *random);

// A walk gives the book's pairs, all of them and in their order.
void worked_walk(worked *w);

// "At most one fault", the map is the book's, and where the state is idle the table is balanced and the free bits are
// those of the nodes not reached.
void worked_check(const worked *w);

#endif
