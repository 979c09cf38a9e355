// Wrong lengths of cards, blocks and dumps, and wrong headers.
#include <string.h>

#include "block.h"
#include "check.h"
#include "due.h"
#include "parts.h"
#include "random.h"

enum { NO_PLACE = 9 };

// Every call on a card and a block of these lengths; the words are those of a formatted card as far as they go, but for
// one wrong word.
static void try_lengths(size_t words, size_t state_words, size_t wrong_place)
{
    desk *d = desk_new(words, state_words);
    uint32_t nodes = words < 8 ? 0 : (uint32_t)((words - 8) / 24);
    const uint32_t header[9] = {1, nodes, 8, 24, 1, 0, 0, 0, 1};
    for (size_t i = 0; i < words && i < 9; i++)
        desk_set(d, i, header[i] + (i == wrong_place ? 3 : 0));
    if (state_words > BLOCK_NODES)
        d->state[BLOCK_NODES] = d->state_copy[BLOCK_NODES] = nodes;

    bool decided;
    uint32_t due = due_find(d, 7).code;
    CHECK(desk_find(d, 7).code == due, "find on %zu words", words);
    CHECK(desk_next(d, 0).code == (due <= 3           ? due
                                   : due_next_read(d) ? RATION_NONE
                                                      : RATION_BROKEN_WAY),
          "next on %zu words", words);
    const uint8_t *bytes;
    ration_answer a = desk_write_dump(d, RATION_MOST_DUMP_BYTES, &bytes);
    CHECK(a.code == (due <= 3 ? due : RATION_LENGTH), "dump of %zu words", words);
    a = desk_write_dump(d, 511, &bytes);
    CHECK(a.code == (due <= 3 ? due : RATION_TOO_SHORT), "dump of %zu words over 511 bytes", words);
    CHECK(desk_step(d).code == due_step(d), "step on %zu words, block of %zu", words, state_words);
    static const uint32_t families[] = {0, 15, 16, 17, UINT32_MAX};
    for (size_t i = 0; i < sizeof families / sizeof families[0]; i++) {
        a = desk_family_total(d, families[i]);
        CHECK(a.code == (state_words != RATION_STATE_WORDS ? RATION_NO_STATE
                         : families[i] <= 15               ? RATION_TOTAL
                                                           : RATION_NO_FAMILY) &&
                  a.value == 0,
              "family %u, block of %zu: %u %u", families[i], state_words, a.code, a.value);
    }
    for (uint32_t key = 0; key < 2; key++) {
        due = due_start(d, true, key, &decided);
        CHECK(desk_start_insert(d, key, 1).code == due, "insert on %zu words, block of %zu", words, state_words);
        due = due_start(d, false, key, &decided);
        CHECK(desk_start_delete(d, key).code == due, "delete on %zu words, block of %zu", words, state_words);
    }
    CHECK(desk_open(d).code == due_open(d), "open on %zu words, block of %zu", words, state_words);
    due = state_words != RATION_STATE_WORDS                       ? RATION_NO_STATE
          : words < 104 || words > 62408 || (words - 8) % 24 != 0 ? RATION_WRONG_LENGTH
                                                                  : RATION_STARTED;
    CHECK(desk_start_format(d).code == due, "format of %zu words, block of %zu", words, state_words);
    desk_free(d);
}

static void try_dump(const uint8_t *dump, size_t dump_bytes, size_t words_lent)
{
    const uint32_t *words;
    ration_answer due = due_read_dump(dump, dump_bytes, words_lent);
    ration_answer a = guarded_read_dump(dump, dump_bytes, words_lent, &words);
    CHECK(a.code == due.code && a.value == due.value, "dump of %zu bytes over %zu words: %u %u, due %u %u", dump_bytes,
          words_lent, a.code, a.value, due.code, due.value);
    for (size_t i = 0; a.code == RATION_LENGTH && i < 4 * a.value; i++)
        CHECK((uint8_t)(words[i / 4] >> 8 * (i % 4)) == dump[i], "byte %zu", i);
}

// Dumps of any words but word 1, right and wrong ones.
static void try_dumps(uint32_t nodes)
{
    static uint8_t dump[RATION_MOST_DUMP_BYTES + 1024];
    random_stream r = {nodes};
    size_t words = 8 + 24 * (size_t)nodes, bytes = RATION_DUMP_BYTES(nodes);
    memset(dump, 0, sizeof dump);
    for (size_t i = 0; i < 4 * words; i++)
        dump[i] = (uint8_t)random_word(&r);
    for (int i = 0; i < 4; i++)
        dump[4 + i] = (uint8_t)(nodes >> 8 * i);
    for (size_t lent = words - 1; lent <= words + 1; lent++)
        try_dump(dump, bytes, lent);
    try_dump(dump, bytes, 0);
    for (size_t length = 0; length <= bytes + 1024; length += length < 8 ? 1 : 256)
        try_dump(dump, length, words);
    try_dump(dump, bytes - 1, words);
    try_dump(dump, bytes + 1, words);
    for (size_t i = 4 * words; i < bytes; i += nodes < 12 ? 1 : 37) { // a padding byte that is not 0
        dump[i] = 1;
        try_dump(dump, bytes, words);
        dump[i] = 0;
    }
    for (int i = 0; i < 200; i++) { // another N
        uint32_t other = i % 2 == 0 ? nodes + random_below(&r, 21) - 10 : random_short_word(&r);
        for (int b = 0; b < 4; b++)
            dump[4 + b] = (uint8_t)(other >> 8 * b);
        try_dump(dump, bytes, words);
    }
}

void test_lengths(void)
{
    static const size_t words[] = {0,   1,     7,     8,     32,    80,    103,   104,   105,
                                   128, 14408, 14409, 14432, 62384, 62407, 62408, 62409, 62432};
    static const size_t state_words[] = {0, 1, 178, 240, 256, 275, 276, 277};
    for (size_t i = 0; i < sizeof words / sizeof words[0]; i++)
        for (size_t j = 0; j < sizeof state_words / sizeof state_words[0]; j++)
            try_lengths(words[i], state_words[j], NO_PLACE);
    for (size_t place = 0; place < NO_PLACE; place++)
        try_lengths(104, RATION_STATE_WORDS, place);
    static const uint32_t nodes[] = {4, 5, 6, 20, 21, 60, 599, 600, 601, 602, 603, 2599, 2600};
    for (size_t i = 0; i < sizeof nodes / sizeof nodes[0]; i++)
        try_dumps(nodes[i]);
}
