/*
 * The ration table: a dictionary from keys (1 to 4,294,967,295) to values (any 32-bit word) on a card of
 * 32-bit words that keeps them without power. Power may go after any store; the card then opens with
 * exactly the pairs that were in, the update in progress wholly in or wholly out.
 *
 * Document 01 below is the paper "The ration table: cards, tree and repairs", which decides every store
 * and every answer.
 *
 *
 * HOW IT IS WORKED
 *
 * A card with N nodes, 4 to 2,600, is an array of exactly 8 + 24 * N words. Beside it stands a state block
 * of RATION_STATE_WORDS words in ordinary memory, lost with power. Whatever the block holds is for these
 * calls alone.
 *
 *   1. New card: ration_start_format, then ration_step until RATION_READY.
 *      Card in use: ration_open. RATION_IDLE: go on. RATION_STARTED: a repair is in progress, ration_step
 *      until RATION_READY.
 *   2. Update: ration_start_insert or ration_start_delete, then ration_step until the final answer,
 *      RATION_VALUE or RATION_ABSENT. Each step stores one word, RATION_STORED, or gives the answer. An
 *      update takes at most 803 stores, on a card of at most 600 nodes 657.
 *   3. ration_find and ration_next at any time, also between steps and before opening. ration_family_total at any time
 *      once the card is open.
 *   4. Power was cut, or the block was lost: back to ration_open.
 *   5. To abandon an update, call ration_open again, with power on: to the card it is a cut. Go on as in
 *      1; the update is wholly in, where the store that decides it was made, or wholly out.
 *
 *
 * A VALUE CHANGED
 *
 * An insert does not overwrite. To change a value delete the key, to the final answer, and then insert it
 * again; but THESE ARE TWO UPDATES AND NOT ONE CHANGE: power lost between the two leaves the key absent, and
 * the card does not tell what its value was or was to be. Where the key must not be lost, keep key and new
 * value elsewhere, without power too, from before the delete until the insert's final answer; where power
 * went between, make both again after opening. With no other insert between the two the key's leaf has an
 * empty slot, so that the insert is not refused with 8.
 *
 *
 * WHICH MEMORY, WHICH MACHINE
 *
 * - The card is memory that keeps its words without power and in which a single word is rewritten in place,
 *   any number of times: FRAM, MRAM, SRAM with a battery. Not NOR or NAND flash, which must be erased by the
 *   block first. A word must be written whole: power that goes within a write leaves the old word or the new.
 * - A card's words are in the byte order of the machine that works it. A dump is the same on every machine:
 *   carry a table to a machine of another order by ration_write_dump and ration_read_dump.
 * - Pairs until the first insert refused with 8, with keys rising and, in 20 tries each, with keys at random:
 *   12 nodes 47 and 53 to 68; 60 nodes 287 and 362 to 405; 200 nodes 989 and 1,300 to 1,392; 600 nodes 2,987
 *   and 3,996 to 4,172; 2,600 nodes 12,995 and 17,578 to 17,930.
 * - There is no checksum. Opening sees damage that leaves no sound table; a value that wore is a value.
 * - The proved archive is for x86-64 Linux. From the folder above interface/:
 *
 *     interface/make-archive
 *     cc -std=c11 -Iinterface/include controller.c target/staticlib/libration_table.a -o controller
 *
 *   For other machines interface/baseline/table.c is the same table in plain C: it takes the archive's place
 *   in the second line. The tests give both the same calls and compare every answer and, after each call, every
 *   word of the card; it is not proved.
 *
 *
 * WHAT THE CALLER SEES TO
 *
 * - Each word stored is on the card, whole, before the next call. Where what is lent is a copy of the card in
 *   memory, or a cache stands before it, write card[value] to the card's place value after each RATION_STORED;
 *   nothing else has changed. ration_finish_with steps and writes so.
 * - Between ration_open or ration_start_format and the next one nothing else writes the card or the block,
 *   and the card keeps the block it was opened with. Otherwise open the card anew.
 * - Lengths are in elements: words for card, state and words, bytes for dump and bytes.
 * - Pointers are not NULL, not even with length 0, are aligned for their type (4 bytes for words) and valid
 *   for the length given.
 * - What is lent to one call does not overlap: card and state, dump and words, card and bytes.
 * - No two calls at once on one card or one block. Nothing is shared between calls on different cards with
 *   different blocks.
 *
 *
 * WHAT THE CALLS SEE TO
 *
 * - Every call ends and gives one of the codes below, whatever words the card and the block hold. A step on
 *   a card and a block that do not belong together makes one store inside the card, answers, or refuses.
 * - Nothing beyond what is lent is read or written, but for the stack, whose most for each call
 *   interface/run-benchmarks measures. There is no allocation and no input or output.
 * - A refusal changes neither card nor block, with one exception: ration_open and ration_start_format,
 *   refused with 1 to 5, leave in the block an idle state for 0 nodes, which every later call with that
 *   block refuses with 1.
 */

#ifndef RATION_TABLE_H
#define RATION_TABLE_H

#include <stddef.h>
#include <stdint.h>

#ifdef __cplusplus
extern "C" {
#endif

/* Sizes. */
#define RATION_STATE_WORDS 276                     /* the state block, in words */
#define RATION_FAMILIES 16                         /* the feed families, 0 to 15 */
#define RATION_FAMILY(key) ((uint32_t)(key) >> 28) /* the family of a key */
#define RATION_LEAST_NODES 4
#define RATION_MOST_NODES 2600
#define RATION_CARD_WORDS(nodes) (8 + 24 * (nodes)) /* a card, in words */
#define RATION_MOST_CARD_WORDS 62408                /* a card of 2,600 nodes */
#define RATION_DUMP_BYTES(nodes) ((4 * RATION_CARD_WORDS(nodes) + 511) / 512 * 512)
#define RATION_MOST_DUMP_BYTES 249856 /* a dump of 2,600 nodes */

/*
 * The answer of every call. value counts with RATION_VALUE, RATION_STORED, RATION_LENGTH, RATION_NEXT and RATION_TOTAL,
 * key with RATION_NEXT alone, depth with RATION_VALUE, RATION_ABSENT, RATION_NEXT and RATION_NONE; with any other code
 * they are 0, so that a refusal carries none of them.
 *
 * depth is how many internal nodes stood on the given number's way down to its leaf when the call began, tagged ones
 * counted: 0 where the root is that leaf, and at most 12, since a longer way is refused with 9.
 *   find: on the way of the key, held or absent.
 *   next: on the way of the number given, also where the pair is in another leaf, and where there is none; 0 leads to
 *     the first leaf.
 *   step, with the final answer of an update: on the way of its key when it was started, held or absent. So an insert
 *     that splits the root and a delete that takes a level away tell the depth of before. The block keeps it from the
 *     start on: where something else wrote the block, it may be any number.
 */
typedef struct ration_answer {
    uint32_t code;
    uint32_t value;
    uint32_t key;
    uint32_t depth;
} ration_answer;

/* Codes of calls that worked. */
#define RATION_VALUE 64   /* find: the value held. step: the final answer; the value that was held before */
#define RATION_ABSENT 65  /* find: the key is not held. step: the final answer; it was not held before */
#define RATION_STORED 66  /* step: one word was stored, card[value], and value is its place; go on stepping */
#define RATION_READY 67   /* step: the formatting or the repair is done; the state is idle */
#define RATION_IDLE 68    /* open: nothing is in progress */
#define RATION_STARTED 69 /* the formatting, the update, or (open) a repair is in progress; now step */
#define RATION_LENGTH 70  /* read_dump, write_dump: value is the length of the result, in words or bytes */
#define RATION_NEXT 72    /* next: the pair with the smallest key above the number, its key and its value */
#define RATION_NONE 73    /* next: no key above the number is held */
#define RATION_TOTAL 75   /* family_total: value is how many pairs the family has */

/*
 * Refusals: 1 to 12 as document 01 numbers them, 13 as document 02, "What customers ask next", and RATION_NO_STATE.
 * Where several are due, the order of the refusals listed with the call decides.
 */

/* The length is not 8 + 24 * N with N 4 to 2,600, or the block is not that of a card of this length.
   Check the length; open the card with this block. */
#define RATION_WRONG_LENGTH 1

/* Word 0 is not 1: the card is blank, or a formatting was cut. Format it. */
#define RATION_NOT_FORMATTED 2

/* Words 1, 2, 3 or 5 to 7 are not those of a card of this length: something else wrote it, or it was cut
   short. Restore a dump, or format it, which loses what it holds. */
#define RATION_WRONG_HEADER 3

/* Opening: the tree on the card is not sound: the card is worn or something else wrote it. Restore a dump or
   format. A cut of power alone never leads here. */
#define RATION_NOT_SOUND 4

/* Opening: the tree is sound but has too few free nodes for its repair. These calls never leave a card so.
   ration_find and ration_next still answer; move the pairs to a larger card. */
#define RATION_FEW_FREE 5

/* The key is 0, which is no key. */
#define RATION_KEY_ZERO 6

/* Something is in progress: step to its final answer first. */
#define RATION_BUSY 7

/* Starting an insert: the key's leaf is full and too few nodes are free to split it. Delete pairs, or move to
   a larger card. Deletes, and inserts of a key that is held, are never refused so. */
#define RATION_NO_ROOM 8

/* The way down the tree, or the store that is due, is not one of a sound card, or a node is wanting: the card
   was changed by something else, or the block is not its own. Open the card anew. */
#define RATION_BROKEN_WAY 9

/* A step with nothing in progress. */
#define RATION_NOTHING_TO_STEP 10

/* Reading a dump: its length is 0, not a multiple of 512 or above 249,856, its word 1 is not 4 to 2,600 or
   does not fit the length, or a padding byte is not 0. It is no dump, or a damaged one. */
#define RATION_WRONG_DUMP 11

/* What is lent for the result is too short: lend RATION_CARD_WORDS(N) words or RATION_DUMP_BYTES(N) bytes. */
#define RATION_TOO_SHORT 12

/* The family is above 15. The family of a key is RATION_FAMILY(key). */
#define RATION_NO_FAMILY 13

/* The block has not RATION_STATE_WORDS words. Comes before all others; nothing was read or written. */
#define RATION_NO_STATE 71

#define RATION_IS_REFUSAL(code) ((code) <= 13 || (code) == RATION_NO_STATE)

/* A few words for each code, for a log. */
static inline const char *ration_text(uint32_t code)
{
    switch (code) {
    case RATION_VALUE: return "the value held";
    case RATION_ABSENT: return "absent";
    case RATION_STORED: return "one word was stored";
    case RATION_READY: return "ready";
    case RATION_IDLE: return "idle";
    case RATION_STARTED: return "started";
    case RATION_LENGTH: return "the length of the result";
    case RATION_NEXT: return "the next pair";
    case RATION_NONE: return "no key above the number";
    case RATION_TOTAL: return "the pairs of the family";
    case RATION_WRONG_LENGTH: return "the length is no card's, or the state is another card's";
    case RATION_NOT_FORMATTED: return "the card is not formatted";
    case RATION_WRONG_HEADER: return "the card's header is wrong";
    case RATION_NOT_SOUND: return "the table on the card is not sound";
    case RATION_FEW_FREE: return "too few free nodes for the repair";
    case RATION_KEY_ZERO: return "0 is no key";
    case RATION_BUSY: return "something is in progress";
    case RATION_NO_ROOM: return "too few free nodes for the insert";
    case RATION_BROKEN_WAY: return "the card was changed by something else";
    case RATION_NOTHING_TO_STEP: return "nothing is in progress";
    case RATION_WRONG_DUMP: return "no dump, or a damaged one";
    case RATION_TOO_SHORT: return "too short for the result";
    case RATION_NO_FAMILY: return "there is no such family";
    case RATION_NO_STATE: return "the state block has another length";
    default: return "no code of the ration table";
    }
}

/*
 * Starts to format the card: nothing is stored yet. The formatting takes 8 + 24 * N + 1 steps that store and
 * one that answers RATION_READY. Cut before its first store the card is as it was; cut between its first and
 * its last store opening refuses with 2, and the card has to be formatted again.
 * Answers RATION_STARTED. Refusals: RATION_NO_STATE, 1.
 */
ration_answer ration_start_format(const uint32_t *card, size_t card_words, uint32_t *state, size_t state_words);

/*
 * Opens the card: checks the whole tree and puts the state into the block; stores nothing on the card.
 * Answers RATION_IDLE, or RATION_STARTED where a cut left something to repair. Its steps may be cut and the
 * card opened again any number of times.
 * Refusals, in this order: RATION_NO_STATE, 1, 2, 3, 4, 5.
 */
ration_answer ration_open(const uint32_t *card, size_t card_words, uint32_t *state, size_t state_words);

/*
 * Looks a key up on the card as it is at this moment. Needs no block.
 * Answers RATION_VALUE or RATION_ABSENT, with the depth. Refusals, in this order: 1, 2, 3, 6, 9.
 */
ration_answer ration_find(const uint32_t *card, size_t card_words, uint32_t key);

/*
 * The pair with the smallest key above a number, on the card as it is at this moment. The number is any from 0 up and
 * need not be a key. Needs no block; may come between steps, as ration_find may: the update in progress is then
 * wholly in or wholly out.
 * Answers RATION_NEXT, with that key and its value, or RATION_NONE exactly where no key above the number is held; both
 * with the depth of the number's own way. So it is on a card that ration_open refuses with 5, too; on one that
 * ration_open refuses with 4 it answers some pair above the number, RATION_NONE or 9. Refusals, in this order: 1, 2, 3,
 * 9; never 6: 0 asks for the first pair.
 *
 * A walk from 0 gives each pair of a card that stays as it is once, with keys rising (examples/walk_card.c):
 *
 *     for (a = ration_next(card, words, 0); a.code == RATION_NEXT; a = ration_next(card, words, a.key))
 *
 * It ends on every card, since the keys rise; a.code is then RATION_NONE or a refusal. Where an update is made
 * meanwhile it still gives each pair that is held all the time, once.
 */
ration_answer ration_next(const uint32_t *card, size_t card_words, uint32_t after);

/*
 * Starts to insert a pair: nothing is stored yet. A key that is held keeps its value, which the first step
 * then answers with RATION_VALUE; before you delete it, to insert it again with another, see A VALUE CHANGED.
 * Else the final answer is RATION_ABSENT. The pair is in with the second store, where the leaf is full with
 * the 73rd.
 * Answers RATION_STARTED. Refusals, in this order: RATION_NO_STATE, 1, 2, 3, 7, 6, 9, 8.
 */
ration_answer ration_start_insert(const uint32_t *card, size_t card_words, uint32_t *state, size_t state_words,
                                  uint32_t key, uint32_t value);

/*
 * Starts to delete a key: nothing is stored yet. The final answer is RATION_VALUE with the value deleted, or
 * RATION_ABSENT. The pair is out with the first store.
 * Answers RATION_STARTED. Refusals, in this order: RATION_NO_STATE, 1, 2, 3, 7, 6, 9.
 */
ration_answer ration_start_delete(const uint32_t *card, size_t card_words, uint32_t *state, size_t state_words,
                                  uint32_t key);

/*
 * One step of what is in progress: stores one word, RATION_STORED with its place, or gives the final answer and
 * makes the state idle: RATION_READY of a formatting or a repair, RATION_VALUE or RATION_ABSENT of an update, with the
 * depth of its key's way when it was started.
 * Refusals, in this order: RATION_NO_STATE, 1, 2, 3, 10, 9; of a formatting's steps only RATION_NO_STATE
 * and 1.
 */
ration_answer ration_step(uint32_t *card, size_t card_words, uint32_t *state, size_t state_words);

/*
 * Steps what is in progress to its final answer or to a refusal, which is answered, and hands each word stored to
 * write_word, with its place. For a card behind a bus, of which `card` is a copy in memory: write_word brings the
 * word to the card and answers, once it is there whole, anything but 0. A 0 ends the loop, and the answer is
 * then RATION_STORED, of that word. The copy is ahead of the card from then on: read the card into it anew, or
 * bring the word to the card after all, and call ration_open; to the card it is a cut.
 * This loop is not proved; the steps that it makes are.
 */
static inline ration_answer ration_finish_with(uint32_t *card, size_t card_words, uint32_t *state, size_t state_words,
                                               int (*write_word)(void *context, size_t place, uint32_t word),
                                               void *context)
{
    ration_answer answer;
    do
        answer = ration_step(card, card_words, state, state_words);
    while (answer.code == RATION_STORED && write_word(context, answer.value, card[answer.value]));
    return answer;
}

/*
 * How many pairs of a feed family the table holds. "The top 4 bits of a ration number are its family, 0 to 15" (document
 * 02, W-204): RATION_FAMILY(key). The block keeps the 16 totals, so that this call reads one word of it and no card,
 * however many pairs there are.
 * Answers RATION_TOTAL. Refusals, in this order: RATION_NO_STATE, 13. "that question checks nothing else": not whether
 * the block is that of a card, nor whether something is in progress.
 *
 * What it answers
 *   after opening, also during a repair: the pairs of the family that the card holds. Opening counts them, and a repair
 *     moves pairs but puts none in and takes none out.
 *   between the steps of an update: what ration_find and ration_next find at that moment. An insert is counted with its
 *     second store, where the leaf was full with its 73rd, a delete with its first, and no other step changes a total;
 *     a key that was held already, and a delete of one that was not, change none.
 *   from ration_start_format until RATION_READY: 0, also where the card still holds the pairs of before; then 0, since
 *     the card is empty.
 *   after ration_open or ration_start_format was refused: 0.
 * With a block that was lost, or that something else wrote, the total may be any number: open the card first.
 */
ration_answer ration_family_total(const uint32_t *state, size_t state_words, uint32_t family);

/*
 * Reads a dump (a card's words as bytes, low byte first, padded with zero bytes to a multiple of 512) into
 * words. The words lent beyond the result are untouched. Whether the result is a sound card is for
 * ration_open to say, called with the length that this call answers.
 * Answers RATION_LENGTH, in words. Refusals, in this order: 11, 12.
 */
ration_answer ration_read_dump(const uint8_t *dump, size_t dump_bytes, uint32_t *words, size_t words_lent);

/*
 * Writes the dump of a card, which may have an update in progress. The bytes lent beyond the result are
 * untouched.
 * Answers RATION_LENGTH, in bytes. Refusals, in this order: 1, 2, 3, 12.
 */
ration_answer ration_write_dump(const uint32_t *card, size_t card_words, uint8_t *bytes, size_t bytes_lent);

#ifdef __cplusplus
}
#endif

/*
WORKED EXAMPLE (examples/power_cut.c)

// Rations 1 to 18 are put on a card; power goes in the middle of the last one.
#include <stdint.h>
#include <stdio.h>
#include <string.h>

#include "ration_table.h"

#define NODES 12
#define CARD card, RATION_CARD_WORDS(NODES)
#define STATE state, RATION_STATE_WORDS

static uint32_t card[RATION_CARD_WORDS(NODES)]; // kept without power
static uint32_t state[RATION_STATE_WORDS];      // lost with power

// Steps until a step answers something else than a store: the final answer, or a refusal.
static ration_answer finish(void)
{
    ration_answer answer;
    do
        answer = ration_step(CARD, STATE);
    while (answer.code == RATION_STORED);
    return answer;
}

int main(void)
{
    if (ration_start_format(CARD, STATE).code != RATION_STARTED)
        return 1;
    if (finish().code != RATION_READY)
        return 1;

    for (uint32_t key = 1; key <= 17; key++) {
        if (ration_start_insert(CARD, STATE, key, 10 * key).code != RATION_STARTED)
            return 1;
        if (finish().code != RATION_ABSENT) // the key was not held before
            return 1;
    }

    // The insert of 18 splits a leaf (73 stores) and then takes a tagged node in (25 stores).
    if (ration_start_insert(CARD, STATE, 18, 180).code != RATION_STARTED)
        return 1;
    for (int stores = 0; stores < 80; stores++)
        if (ration_step(CARD, STATE).code != RATION_STORED)
            return 1;

    memset(state, 0xa5, sizeof state); // power goes: the block may hold anything now

    ration_answer opened = ration_open(CARD, STATE);
    if (opened.code == RATION_STARTED && finish().code != RATION_READY)
        return 1;
    if (opened.code != RATION_STARTED && opened.code != RATION_IDLE)
        return 1;

    ration_answer found = ration_find(CARD, 18);
    if (found.code == RATION_VALUE)
        printf("ration 18: dose record %u\n", (unsigned)found.value);
    else
        printf("ration 18: code %u\n", (unsigned)found.code);
    return found.code == RATION_VALUE && found.value == 180 ? 0 : 1;
}
*/

#endif
