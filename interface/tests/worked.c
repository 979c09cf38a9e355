#include "worked.h"

#include <stdlib.h>
#include <string.h>

#include "block.h"
#include "check.h"

// "an update takes at most 73 x 11 = 803 stores", with 600 nodes "at most 73 x 9 = 657"; a repair begins where an update was cut.
enum { MOST_STORES = 803, MOST_STORES_AT_600 = 657 };

uint64_t told_before_growth, told_before_shrinking;

static table_reading reading;

static worked *worked_new(uint32_t nodes)
{
    worked *w = calloc(1, sizeof *w);
    CHECK(w != NULL, "no memory");
    w->desk = desk_new(8 + 24 * (size_t)nodes, RATION_STATE_WORDS);
    return w;
}

void worked_free(worked *w)
{
    desk_free(w->desk);
    free(w);
}

// "each total in any other state equals the pairs of that family in the map, also between steps and during a repair"
static void check_totals(const worked *w)
{
    for (uint32_t family = 0; family < RATION_FAMILIES; family++) {
        uint32_t due = book_total(&w->book, family);
        CHECK(w->desk->totals[family] == due, "%u pairs of family %u, in the book %u", w->desk->totals[family], family,
              due);
    }
}

static void open_card(worked *w)
{
    uint32_t code = read_opening(w->desk->card, w->desk->words, &reading);
    ration_answer a = desk_open(w->desk);
    CHECK(a.code == code, "opened with %u, due %u", a.code, code);
    CHECK(code == RATION_IDLE || code == RATION_STARTED, "opening refused with %u", code);
    w->in_progress = code == RATION_IDLE ? NOTHING : REPAIR;
    w->due = (ration_answer){.code = RATION_READY};
    w->stores = 0;
}

worked *worked_format(uint32_t nodes, random_stream *random)
{
    worked *w = worked_new(nodes);
    size_t words = w->desk->words;
    for (size_t i = 0; i < words; i++)
        desk_set(w->desk, i, random_word(random));
    desk_set(w->desk, 0, 2);
    desk_cut(w->desk);
    CHECK(desk_start_format(w->desk).code == RATION_STARTED, "formatting refused");
    for (size_t stores = 0; stores <= words; stores++) {
        CHECK(desk_find(w->desk, 1).code == RATION_NOT_FORMATTED, "a find while formatting");
        CHECK(desk_step(w->desk).code == RATION_STORED, "store %zu of the formatting", stores);
    }
    CHECK(desk_step(w->desk).code == RATION_READY, "formatting not ready");
    book_begin(&w->book);
    check_totals(w);
    worked_check(w);
    return w;
}

worked *worked_open(uint32_t nodes, const uint32_t *card)
{
    worked *w = worked_new(nodes);
    desk_set_card(w->desk, card);
    desk_cut(w->desk);
    open_card(w);
    book_begin_with(&w->book, &reading);
    check_totals(w);
    return w;
}

void worked_copy_cut(worked *copy, const worked *w)
{
    desk_set_card(copy->desk, w->desk->card);
    copy->book = w->book;
    worked_cut(copy);
}

void worked_cut(worked *w)
{
    desk_cut(w->desk);
    book_cut(&w->book);
    open_card(w);
    CHECK(book_agrees(&w->book, &reading), "after a cut the map is not the book's");
    check_totals(w);
}

static bool is_free_bit(const desk *d, uint32_t node) { return d->state[BLOCK_FREE + node / 32] >> node % 32 & 1; }

void worked_check(const worked *w)
{
    const desk *d = w->desk;
    CHECK(read_header(d->card, d->words) == 0, "header");
    read_table(d->card, d->words, &reading);
    CHECK(reading.sound, "not sound");
    CHECK(book_agrees(&w->book, &reading), "the map is not the book's");
    if (w->in_progress != NOTHING)
        return;
    CHECK(reading.faults == 0, "idle and not balanced");
    CHECK(reading.free >= 3, "idle with %u free nodes", reading.free);
    for (uint32_t node = 1; node <= read_nodes(d->words); node++)
        CHECK(is_free_bit(d, node) == !reading.reached[node], "free bit of node %u", node);
}

// What starting an update is due before its way down is looked at; 0 for nothing.
static uint32_t early_refusal(const worked *w, uint32_t key)
{
    return w->in_progress != NOTHING ? RATION_BUSY : key == 0 ? RATION_KEY_ZERO : 0;
}

static void started(worked *w, uint32_t key)
{
    uint32_t value;
    w->in_progress = UPDATE;
    w->stores = 0;
    w->due = (ration_answer){.code = RATION_ABSENT};
    if (book_holds(&w->book, key, &value))
        w->due = (ration_answer){.code = RATION_VALUE, .value = value};
}

bool worked_start_insert(worked *w, uint32_t key, uint32_t value)
{
    const desk *d = w->desk;
    uint32_t code = early_refusal(w, key);
    landing l = {.full = false};
    if (code == 0) {
        l = read_landing(d->card, d->words, key);
        CHECK(!l.refused, "no way down on a sound card");
        code = RATION_STARTED;
        if (!l.held && l.full) {
            read_table(d->card, d->words, &reading);
            if (reading.free < l.run + 5)
                code = RATION_NO_ROOM;
        }
    }
    ration_answer a = desk_start_insert(w->desk, key, value);
    CHECK(a.code == code, "insert of %u: %u, due %u", key, a.code, code);
    check_totals(w);
    if (code != RATION_STARTED)
        return false;
    started(w, key);
    book_insert_started(&w->book, key, value, l.full);
    return true;
}

bool worked_start_delete(worked *w, uint32_t key)
{
    uint32_t code = early_refusal(w, key);
    ration_answer a = desk_start_delete(w->desk, key);
    CHECK(a.code == (code == 0 ? RATION_STARTED : code), "delete of %u: %u", key, a.code);
    check_totals(w);
    if (code != 0)
        return false;
    started(w, key);
    book_delete_started(&w->book, key);
    return true;
}

void worked_find(worked *w, uint32_t key)
{
    uint32_t value = 0;
    uint32_t code = key == 0 ? RATION_KEY_ZERO : book_holds(&w->book, key, &value) ? RATION_VALUE : RATION_ABSENT;
    ration_answer a = desk_find(w->desk, key);
    CHECK(a.code == code && a.value == value, "find %u: %u %u, due %u %u", key, a.code, a.value, code, value);
}

void worked_next(worked *w, uint32_t after)
{
    uint32_t key = 0, value = 0;
    uint32_t code = book_next(&w->book, after, &key, &value) ? RATION_NEXT : RATION_NONE;
    ration_answer a = desk_next(w->desk, after);
    CHECK(a.code == code && a.key == key && a.value == value, "next after %u: %u %u %u, due %u %u %u", after, a.code,
          a.key, a.value, code, key, value);
}

uint32_t worked_number(const worked *w, random_stream *random)
{
    uint32_t held = w->book.pairs == 0 ? 1 : w->book.keys[random_below(random, w->book.pairs)];
    switch (random_below(random, 8)) {
    case 0: return 0;
    case 1: return UINT32_MAX;
    case 2: return held - 1;
    case 3: return held + 1;
    case 4: return random_word(random);
    default: return held;
    }
}

void worked_walk(worked *w)
{
    const walked_pair *pairs;
    size_t count = desk_walk(w->desk, &pairs);
    CHECK(count == w->book.pairs, "%zu pairs walked, %u due", count, w->book.pairs);
    for (size_t i = 0; i < count; i++)
        CHECK(pairs[i].key == w->book.keys[i] && pairs[i].value == w->book.values[i], "pair %zu of the walk: %u %u", i,
              pairs[i].key, pairs[i].value);
}

// The way of an update's key at its end may be another than the one whose depth it tells.
static void count_changed_depth(const worked *w, ration_answer final)
{
    if (w->in_progress != UPDATE)
        return;
    uint32_t depth = read_landing(w->desk->card, w->desk->words, w->book.key).depth;
    told_before_growth += depth > final.depth;
    told_before_shrinking += depth < final.depth;
}

void worked_step(worked *w)
{
    ration_answer a = desk_step(w->desk);
    if (w->in_progress == NOTHING) {
        CHECK(a.code == RATION_NOTHING_TO_STEP, "idle step: %u", a.code);
        check_totals(w);
        return;
    }
    if (a.code == RATION_STORED) {
        w->stores++;
        uint32_t most = w->desk->words <= RATION_CARD_WORDS(600) ? MOST_STORES_AT_600 : MOST_STORES;
        CHECK(w->stores <= most, "more than %u stores", most);
        if (w->stores > w->most_stores)
            w->most_stores = w->stores;
        book_stepped(&w->book, false);
        check_totals(w);
        return;
    }
    CHECK(a.code == w->due.code && a.value == w->due.value, "final answer %u %u, due %u %u", a.code, a.value,
          w->due.code, w->due.value);
    count_changed_depth(w, a);
    book_stepped(&w->book, true);
    check_totals(w);
    w->in_progress = NOTHING;
}

void worked_finish(worked *w)
{
    while (w->in_progress != NOTHING)
        worked_step(w);
}
