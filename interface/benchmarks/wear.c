// The wear of a card: how often words of each node are stored, and how many of these stores change the word, over many
// updates with power going again and again. Done twice with the same updates and cuts: "before", where the search for
// free nodes begins at node 1 after formatting and after every opening, and "after", as the table has it. The node that
// the search begins after stands in the block, where any word will do; so one table shows both.
//
// Prints a line for each card, and after it one for each of its nodes:
//   nodes, "card", what it holds, pairs and nodes in use on average, updates, restarts, repairs, new roots
//   nodes, node, stores before, changed words before, stores after, changed words after
#include <string.h>

#include "block.h"
#include "random.h"
#include "spread.h"
#include "table_in_use.h"

enum { UPDATES = 60000, UPDATES_A_RESTART = 20 };
enum { HEADER_WORDS = 8, NODE_WORDS = 24 };

// About so many pairs are held. Keys come at random out of twice as many; or, as with rations numbered in their order,
// an insert takes the next number and a delete the oldest.
typedef struct {
    uint32_t nodes, pairs;
    bool sequential;
} use;

static const use uses[] = {{24, 30, false}, {60, 40, false},   {60, 70, false},
                           {60, 70, true},  {600, 800, false}, {600, 800, true}};

// Node 0 is the header, of which only the root's word is stored.
typedef struct {
    uint32_t stores[RATION_MOST_NODES + 1], changed[RATION_MOST_NODES + 1];
    spread pairs, nodes_in_use; // after each restart
    uint32_t repairs;
    bool is_before;
} wear;

static wear before, after;

// ---- What the table should hold

static uint32_t book[UPDATES + 1]; // the value of each key, 0 where it is absent
static uint32_t held, oldest, newest;

static void empty_book(void)
{
    memset(book, 0, sizeof book);
    held = oldest = newest = 0;
}

static void write_book(uint32_t key, uint32_t value)
{
    held += (value != 0);
    held -= (book[key] != 0);
    book[key] = value;
    while (oldest < newest && book[oldest] == 0)
        oldest++;
}

// Each pair of the table is the book's; they are as many, so each of the book is the table's.
static void check_pairs(void)
{
    uint32_t pairs = 0;
    ration_answer a = ration_next(CARD, 0);
    for (; a.code == RATION_NEXT; a = ration_next(CARD, a.key)) {
        expect(a.key <= UPDATES && a.value != 0 && a.value == book[a.key]);
        pairs++;
    }
    expect(a.code == RATION_NONE && pairs == held);
}

// ---- Stores

static ration_answer step_counted(wear *w)
{
    static uint32_t known[RATION_MOST_CARD_WORDS]; // the card without the store that is made now
    ration_answer answer = ration_step(CARD, STATE);
    if (answer.code == RATION_STORED) {
        uint32_t place = answer.value;
        uint32_t node = place < HEADER_WORDS ? 0 : (place - HEADER_WORDS) / NODE_WORDS + 1;
        w->stores[node]++;
        w->changed[node] += card[place] != known[place];
        known[place] = card[place];
    }
    return answer;
}

static ration_answer steps_counted(wear *w, uint32_t most)
{
    ration_answer answer = {.code = RATION_STORED};
    for (uint32_t i = 0; i < most && answer.code == RATION_STORED; i++)
        answer = step_counted(w);
    return answer;
}

// The search begins after the node given last; as if none was, it begins at node 1.
static void begin_search(const wear *w)
{
    if (w->is_before)
        state[BLOCK_LAST] = 0;
}

// Formatting stores every word of the card, in the same way before and after; wear counts from its end.
static void format_uncounted(wear *w, bool is_before)
{
    expect(ration_start_format(CARD, STATE).code == RATION_STARTED);
    expect(steps_counted(w, UINT32_MAX).code == RATION_READY);
    *w = (wear){.is_before = is_before};
    begin_search(w);
}

static uint32_t free_nodes(void)
{
    uint32_t count = 0;
    for (int i = 0; i < BLOCK_FREE_WORDS; i++)
        count += (uint32_t)__builtin_popcount(state[BLOCK_FREE + i]);
    return count;
}

// Power goes, and with it the block; it comes again, and the card is opened and repaired.
static void restart(wear *w)
{
    memset(state, 0xa5, sizeof state);
    ration_answer opened = ration_open(CARD, STATE);
    begin_search(w);
    if (opened.code == RATION_STARTED) {
        w->repairs++;
        opened = steps_counted(w, UINT32_MAX);
        expect(opened.code == RATION_READY);
    } else {
        expect(opened.code == RATION_IDLE);
    }
}

// ---- Updates

// Nothing here depends on which nodes are given, so the same stream of random numbers gives the same updates.
typedef struct {
    bool insert;
    uint32_t key, value;
    uint32_t most_steps; // power goes after these, if the update takes so many
} update;

static bool is_before_restart(uint32_t i) { return (i + 1) % UPDATES_A_RESTART == 0; }

static update choose_update(const use *u, uint32_t i, random_stream *random)
{
    update chosen = {.value = i + 1, .most_steps = UINT32_MAX};
    if (u->sequential) {
        chosen.insert = random_below(random, 2 * u->pairs) >= held;
        chosen.key = chosen.insert ? ++newest : oldest;
    } else {
        chosen.insert = random_percent(random, 50);
        chosen.key = 1 + random_below(random, 2 * u->pairs);
    }
    // Most updates take a store or two, and some about 100.
    if (is_before_restart(i) && random_percent(random, 50))
        chosen.most_steps = random_below(random, random_percent(random, 50) ? 3 : 100);
    return chosen;
}

// True where the update came to its final answer.
static bool make_update(const update *made, wear *w)
{
    uint32_t old = book[made->key];
    ration_answer answer = made->insert ? ration_start_insert(CARD, STATE, made->key, made->value)
                                        : ration_start_delete(CARD, STATE, made->key);
    expect(answer.code == RATION_STARTED);
    answer = steps_counted(w, made->most_steps);
    if (answer.code == RATION_STORED)
        return false;
    expect(answer.code == (old != 0 ? RATION_VALUE : RATION_ABSENT) && answer.value == old);
    return true;
}

// The update is wholly in; where it was cut, wholly in or wholly out.
static void check_update(const update *made, bool is_whole)
{
    uint32_t old = book[made->key], new = !made->insert ? 0 : old != 0 ? old : made->value;
    ration_answer found = ration_find(CARD, made->key);
    expect(found.code == (found.value != 0 ? RATION_VALUE : RATION_ABSENT));
    expect(found.value == new || (!is_whole && found.value == old));
    write_book(made->key, found.value);
}

static void work(const use *u, wear *w, bool is_before)
{
    random_stream random = {u->nodes + u->pairs};
    words = RATION_CARD_WORDS(u->nodes);
    empty_book();
    format_uncounted(w, is_before);
    for (uint32_t i = 0; i < UPDATES; i++) {
        update chosen = choose_update(u, i, &random);
        bool is_whole = make_update(&chosen, w), power_goes = is_before_restart(i);
        if (power_goes)
            restart(w);
        check_update(&chosen, is_whole);
        if (power_goes) {
            check_pairs();
            spread_add(&w->pairs, held);
            spread_add(&w->nodes_in_use, u->nodes - free_nodes());
        }
    }
}

static double average(const spread *s) { return (double)s->sum / (double)s->count; }

static void print_wear(const use *u)
{
    printf("%u\tcard\t%u pairs, %s keys\t%.1f\t%.1f\t%d\t%d\t%u\t%u\n", u->nodes, u->pairs,
           u->sequential ? "sequential" : "random", average(&after.pairs), average(&after.nodes_in_use), UPDATES,
           UPDATES / UPDATES_A_RESTART, after.repairs, after.changed[0]);
    for (uint32_t i = 1; i <= u->nodes; i++)
        printf("%u\t%u\t%u\t%u\t%u\t%u\n", u->nodes, i, before.stores[i], before.changed[i], after.stores[i],
               after.changed[i]);
}

static uint64_t all_stores(const wear *w)
{
    uint64_t stores = 0;
    for (uint32_t i = 0; i <= RATION_MOST_NODES; i++)
        stores += w->stores[i];
    return stores;
}

int main(void)
{
    for (const use *u = uses; u < uses + sizeof uses / sizeof uses[0]; u++) {
        work(u, &before, true);
        work(u, &after, false);
        // Which nodes are given makes no difference to the tree, and so none to the number of stores.
        expect(all_stores(&before) == all_stores(&after));
        print_wear(u);
    }
    return 0;
}
