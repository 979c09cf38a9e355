#include "book.h"

#include <string.h>

// How many keys of the book are below this one.
static uint32_t below(const book *b, uint32_t key)
{
    uint32_t low = 0, high = b->pairs;
    while (low < high) {
        uint32_t middle = (low + high) / 2;
        if (b->keys[middle] < key)
            low = middle + 1;
        else
            high = middle;
    }
    return low;
}

bool book_holds(const book *b, uint32_t key, uint32_t *value)
{
    uint32_t i = below(b, key);
    if (i == b->pairs || b->keys[i] != key)
        return false;
    *value = b->values[i];
    return true;
}

bool book_next(const book *b, uint32_t after, uint32_t *key, uint32_t *value)
{
    uint32_t i = after == UINT32_MAX ? b->pairs : below(b, after + 1);
    if (i == b->pairs)
        return false;
    *key = b->keys[i];
    *value = b->values[i];
    return true;
}

uint32_t book_total(const book *b, uint32_t family)
{
    uint32_t end = family == 15 ? b->pairs : below(b, (family + 1) << 28);
    return end - below(b, family << 28);
}

// "an insert adds its pair unless the key is there"
static void add(book *b, uint32_t key, uint32_t value)
{
    uint32_t i = below(b, key), held;
    if (book_holds(b, key, &held))
        return;
    memmove(&b->keys[i + 1], &b->keys[i], 4 * (b->pairs - i));
    memmove(&b->values[i + 1], &b->values[i], 4 * (b->pairs - i));
    b->keys[i] = key;
    b->values[i] = value;
    b->pairs++;
}

// "a delete takes its key's pair out"
static void take_out(book *b, uint32_t key)
{
    uint32_t i = below(b, key), held;
    if (!book_holds(b, key, &held))
        return;
    b->pairs--;
    memmove(&b->keys[i], &b->keys[i + 1], 4 * (b->pairs - i));
    memmove(&b->values[i], &b->values[i + 1], 4 * (b->pairs - i));
}

void book_begin(book *b)
{
    b->pairs = 0;
    b->hand = EMPTY_HAND;
}

void book_begin_with(book *b, const table_reading *t)
{
    book_begin(b);
    for (uint32_t i = 0; i < t->pairs; i++)
        add(b, t->keys[i], t->values[i]);
}

void book_insert_started(book *b, uint32_t key, uint32_t value, bool leaf_full)
{
    b->hand = INSERT_IN_HAND;
    b->key = key;
    b->value = value;
    b->deciding_step = leaf_full ? 73 : 2;
    b->steps = 0;
    b->entered = false;
}

void book_delete_started(book *b, uint32_t key)
{
    b->hand = DELETE_IN_HAND;
    b->key = key;
    b->deciding_step = 1;
    b->steps = 0;
    b->entered = false;
}

void book_stepped(book *b, bool final)
{
    if (b->hand == EMPTY_HAND)
        return; // a step of opening's repair
    b->steps++;
    if (!b->entered && (b->steps == b->deciding_step || final)) {
        if (b->hand == INSERT_IN_HAND)
            add(b, b->key, b->value);
        else
            take_out(b, b->key);
        b->entered = true;
    }
    if (final)
        b->hand = EMPTY_HAND;
}

void book_cut(book *b) { b->hand = EMPTY_HAND; }

bool book_agrees(const book *b, const table_reading *t)
{
    if (b->pairs != t->pairs)
        return false;
    for (uint32_t i = 0; i < t->pairs; i++) {
        uint32_t value;
        if (!book_holds(b, t->keys[i], &value) || value != t->values[i])
            return false;
    }
    return true;
}
