// The instructions of every single call of a long mixed run, for the most that any one takes: what a controller with a budget of
// cycles for a call asks. Run under callgrind, which says on its log after each call what it has counted so far; before that
// stands the kind of the call.
//
// Which kind a step is cannot be seen from its answer. So the hand-written table makes the same calls on a card of its own, and its
// block, whose words are known, says it; that both answer alike is checked on the way.
#include <string.h>
#include <valgrind/callgrind.h>

#include "builder.h"
#include "even_stack.h"
#include "hand_written.h"
#include "random.h"
#include "table_in_use.h"

static uint32_t known_card[RATION_MOST_CARD_WORDS], known_state[RATION_STATE_WORDS];

#define KNOWN_CARD known_card, words
#define KNOWN_STATE known_state, RATION_STATE_WORDS

// Words of the hand-written table's block.
enum { MADE = 6, PLANNED = 7, CUT_OUT = 8 };

static void say(const char *kind)
{
    VALGRIND_PRINTF("%s\n", kind);
    VALGRIND_MONITOR_COMMAND("status internal");
}

#define COUNTED(...)                                                                                                   \
    do {                                                                                                               \
        CALLGRIND_TOGGLE_COLLECT;                                                                                      \
        __VA_ARGS__;                                                                                                   \
        CALLGRIND_TOGGLE_COLLECT;                                                                                      \
    } while (0)

static void agree(ration_answer a, ration_answer b)
{
    expect(a.code == b.code && a.value == b.value && a.key == b.key && a.depth == b.depth);
}

static const char *kind_of_plan(bool is_first)
{
    switch (known_state[PLANNED]) {
    case 1: return "step that plans a delete (1 store)";
    case 2: return "step that plans a pair (2 stores)";
    case 25: return "step that plans a repair, one new node (25 stores)";
    case 49: return "step that plans a repair, two new nodes (49 stores)";
    default:
        return is_first ? "step that plans a split (73 stores)"
                        : "step that plans a repair, three new nodes (73 stores)";
    }
}

static ration_answer step_to_the_end(bool formatting)
{
    for (bool is_first = true;; is_first = false) {
        bool in_hand = known_state[MADE] < known_state[PLANNED];
        bool last = known_state[MADE] + 1 == known_state[PLANNED], frees = known_state[CUT_OUT] != 0;
        ration_answer a, b = hand_written_step(KNOWN_CARD, KNOWN_STATE);
        COUNTED(a = ration_step(CARD, STATE));
        agree(a, b);
        if (formatting)
            say("step of a formatting");
        else if (a.code != RATION_STORED)
            say("step that gives the final answer");
        else if (in_hand)
            say(last && frees ? "step that makes the last store of a plan and frees"
                              : "step that makes a store of a plan in hand");
        else
            say(kind_of_plan(is_first));
        if (a.code != RATION_STORED)
            return a;
    }
}

static ration_answer insert_counted(uint32_t key)
{
    ration_answer a, b = hand_written_start_insert(KNOWN_CARD, KNOWN_STATE, key, key);
    COUNTED(a = ration_start_insert(CARD, STATE, key, key));
    agree(a, b);
    say("start of an insert");
    return a.code == RATION_STARTED ? step_to_the_end(false) : a;
}

static ration_answer delete_counted(uint32_t key)
{
    ration_answer a, b = hand_written_start_delete(KNOWN_CARD, KNOWN_STATE, key);
    COUNTED(a = ration_start_delete(CARD, STATE, key));
    agree(a, b);
    say("start of a delete");
    return step_to_the_end(false);
}

static void find_counted(uint32_t key)
{
    ration_answer a, b = hand_written_find(KNOWN_CARD, key);
    COUNTED(a = ration_find(CARD, key));
    agree(a, b);
    say("find");
}

static void next_counted(uint32_t after)
{
    ration_answer a, b = hand_written_next(KNOWN_CARD, after);
    COUNTED(a = ration_next(CARD, after));
    agree(a, b);
    say("next");
}

// More inserts than deletes until one is refused for want of nodes, then more deletes until few pairs are left, and so on.
static void update_counted(uint32_t keys, uint32_t pairs, uint32_t few, uint32_t updates)
{
    random_stream random = {updates};
    bool filling = true;
    for (uint32_t i = 0; i < updates; i++) {
        uint32_t key = 1 + random_below(&random, keys);
        if (random_percent(&random, 50))
            key = key / 10 * 10 + 10; // the keys of built cards
        find_counted(key);
        next_counted(key);
        if (random_percent(&random, filling ? 80 : 20)) {
            uint32_t code = insert_counted(key).code;
            pairs += code == RATION_ABSENT;
            filling = filling && code != RATION_NO_ROOM;
        } else {
            pairs -= delete_counted(key).code == RATION_VALUE;
            filling = filling || pairs < few;
        }
    }
    expect(memcmp(card, known_card, 4 * words) == 0);
}

// A small card, from its formatting on, filled and emptied several times.
static void run_small(void)
{
    words = RATION_CARD_WORDS(24);
    agree(ration_start_format(CARD, STATE), hand_written_start_format(KNOWN_CARD, KNOWN_STATE));
    expect(step_to_the_end(true).code == RATION_READY);
    update_counted(200, 0, 5, 2000);
}

// A built card: so many internal levels, and so many children and pairs in its nodes.
static void run_built(uint32_t nodes, uint32_t levels, uint32_t least, uint32_t most, uint32_t keys)
{
    random_stream random = {levels};
    words = RATION_CARD_WORDS(nodes);
    expect(build_card(known_card, nodes, levels, least, most, &random) != 0);
    memcpy(card, known_card, sizeof card);
    expect(ration_open(CARD, STATE).code == RATION_IDLE &&
           hand_written_open(KNOWN_CARD, KNOWN_STATE).code == RATION_IDLE);
    update_counted(keys, 0, 0, 500);
}

__attribute__((noinline)) static void nothing(void) { __asm__ volatile(""); }

static void measure(void)
{
    COUNTED(nothing());
    say("nothing");
    run_small();
    run_built(600, 8, 2, 2, 5000);
    run_built(600, 3, 5, 8, 20000);
    run_built(600, 2, 11, 11, 13000);
    run_built(2600, 10, 2, 2, 20000);
    run_built(2600, 3, 11, 11, 140000);
    VALGRIND_PRINTF("end\n");
}

int main(void)
{
    on_an_even_stack(measure);
    return 0;
}
