// The most stack that each call takes. Each kind of call is made on a stack of its own that was painted before; after a
// long run over sound, odd and garbage cards it is seen how far down the paint was changed.
#include <stdbool.h>
#include <stdint.h>
#include <stdio.h>
#include <stdlib.h>
#include <string.h>
#include <ucontext.h>

#include "builder.h"
#include "garbage.h"
#include "random.h"
#include "ration_table.h"

enum {
    NOTHING,
    START_FORMAT,
    OPEN,
    FIND,
    NEXT,
    START_INSERT,
    START_DELETE,
    STEP,
    FAMILY_TOTAL,
    READ_DUMP,
    WRITE_DUMP,
    KINDS
};
enum { STACK_BYTES = 1 << 18, PAINT = 0xa5 };

static ucontext_t back, contexts[KINDS];
static uint8_t *stacks[KINDS];

// What the calls are made with, and what they answered.
static uint32_t card[RATION_MOST_CARD_WORDS], state[RATION_STATE_WORDS];
static uint8_t dump[RATION_MOST_DUMP_BYTES];
static size_t words;
static uint32_t key;
static int kind;
static ration_answer answer;

static void make_call(void)
{
    switch (kind) {
    case START_FORMAT: answer = ration_start_format(card, words, state, RATION_STATE_WORDS); break;
    case OPEN: answer = ration_open(card, words, state, RATION_STATE_WORDS); break;
    case FIND: answer = ration_find(card, words, key); break;
    case NEXT: answer = ration_next(card, words, key); break;
    case START_INSERT: answer = ration_start_insert(card, words, state, RATION_STATE_WORDS, key, 1); break;
    case START_DELETE: answer = ration_start_delete(card, words, state, RATION_STATE_WORDS, key); break;
    case STEP: answer = ration_step(card, words, state, RATION_STATE_WORDS); break;
    case FAMILY_TOTAL: answer = ration_family_total(state, RATION_STATE_WORDS, key); break;
    case READ_DUMP: answer = ration_read_dump(dump, sizeof dump, card, words); break;
    case WRITE_DUMP: answer = ration_write_dump(card, words, dump, sizeof dump); break;
    }
}

static void make_calls(void)
{
    for (;;) {
        make_call();
        swapcontext(&contexts[kind], &back);
    }
}

static uint32_t call(int wanted)
{
    kind = wanted;
    swapcontext(&back, &contexts[kind]);
    return answer.code;
}

static size_t deepest(int of)
{
    size_t untouched = 0;
    while (stacks[of][untouched] == PAINT)
        untouched++;
    return STACK_BYTES - untouched;
}

static void step_to_the_end(uint32_t most_steps)
{
    for (uint32_t i = 0; i < most_steps && call(STEP) == RATION_STORED; i++)
        ;
}

// Updates and finds on the card as it is, opened before where it can be.
static void work(random_stream *random, uint32_t updates, uint32_t keys)
{
    call(OPEN);
    step_to_the_end(800);
    for (uint32_t i = 0; i < updates; i++) {
        key = random_below(random, keys);
        call(FIND);
        call(NEXT);
        call(FAMILY_TOTAL);
        call(random_percent(random, 50) ? START_INSERT : START_DELETE);
        step_to_the_end(800);
    }
    if (call(WRITE_DUMP) == RATION_LENGTH)
        call(READ_DUMP);
}

static void run_all(void)
{
    random_stream random = {600};
    static const struct {
        uint32_t nodes, levels, least, most;
    } shapes[] = {{600, 8, 2, 2}, {600, 2, 11, 11}, {600, 3, 5, 8},
                  {600, 5, 2, 3}, {2600, 10, 2, 2}, {2600, 3, 11, 11}};
    for (size_t i = 0; i < sizeof shapes / sizeof shapes[0]; i++) {
        words = RATION_CARD_WORDS(shapes[i].nodes);
        build_card(card, shapes[i].nodes, shapes[i].levels, shapes[i].least, shapes[i].most, &random);
        work(&random, 4000, 20000);
    }
    words = RATION_CARD_WORDS(60);
    call(START_FORMAT);
    step_to_the_end(2000);
    work(&random, 20000, 400);
    for (uint32_t i = 0; i < 3000; i++) {
        uint32_t nodes = build_odd_card(card, 1 + i % 3, &random);
        if (nodes == 0)
            continue;
        words = RATION_CARD_WORDS(nodes);
        work(&random, 5, 3000);
    }
    for (uint32_t internal_nodes = 0; internal_nodes < 17; internal_nodes++) {
        words = RATION_CARD_WORDS(20);
        build_chain(card, 20, internal_nodes, 7, &random);
        work(&random, 20, 10);
    }
    for (uint32_t i = 0; i < 3000; i++) {
        uint32_t nodes = i % 100 == 0 ? 600 : i % 100 == 50 ? 2600 : 4 + random_below(&random, 60);
        words = RATION_CARD_WORDS(nodes);
        make_garbage_card(card, nodes, random_percent(&random, 80), &random);
        make_garbage_state(state, nodes, random_percent(&random, 80), &random);
        step_to_the_end(100);
        call(START_INSERT);
        call(START_DELETE);
        step_to_the_end(100);
        work(&random, 5, nodes);
    }
}

int main(void)
{
    for (int i = 0; i < KINDS; i++) {
        stacks[i] = malloc(STACK_BYTES);
        if (stacks[i] == NULL || getcontext(&contexts[i]) != 0)
            return 1;
        memset(stacks[i], PAINT, STACK_BYTES);
        contexts[i].uc_stack.ss_sp = stacks[i];
        contexts[i].uc_stack.ss_size = STACK_BYTES;
        makecontext(&contexts[i], make_calls, 0);
    }
    call(NOTHING);
    run_all();

    static const char *const names[KINDS] = {
        "",     "start_format", "open",      "find",      "next", "start_insert", "start_delete",
        "step", "family_total", "read_dump", "write_dump"};
    for (int i = NOTHING + 1; i < KINDS; i++)
        printf("%s\t%zu\n", names[i], deepest(i) - deepest(NOTHING));
    return 0;
}
