// ration_finish_with: a card behind a bus is written by the hook alone. After each store it is word for word the copy that the calls
// work on, and the hand-written table, stepped beside, stored the same word in the same place. Writes that fail are cuts.
#include <string.h>

#include "builder.h"
#include "check.h"
#include "hand_written.h"
#include "parts.h"
#include "random.h"

// The copy that is worked, the card itself, and the same table written by hand.
static struct {
    size_t words;
    uint32_t copy[RATION_MOST_CARD_WORDS], state[RATION_STATE_WORDS];
    uint32_t card[RATION_MOST_CARD_WORDS];
    uint32_t by_hand[RATION_MOST_CARD_WORDS], by_hand_state[RATION_STATE_WORDS];
    uint32_t fails_in; // how many writes on one fails; 0 for none
    bool reaches;      // whether the word of a write that fails is on the card all the same
    uint64_t written;
} desk;

static random_stream stream;

#define COPY desk.copy, desk.words, desk.state, RATION_STATE_WORDS
#define BY_HAND desk.by_hand, desk.words, desk.by_hand_state, RATION_STATE_WORDS

static int write_word(void *context, size_t place, uint32_t word)
{
    CHECK(context == &desk, "another context");
    ration_answer by_hand = hand_written_step(BY_HAND);
    CHECK(by_hand.code == RATION_STORED && by_hand.value == place && desk.by_hand[place] == word,
          "%u at place %zu, by hand code %u, %u at place %u", word, place, by_hand.code, desk.by_hand[by_hand.value],
          by_hand.value);
    bool fails = desk.fails_in == 1;
    if (desk.fails_in > 0)
        desk.fails_in--;
    if (fails && !desk.reaches)
        return 0;
    desk.card[place] = word;
    desk.written++;
    CHECK(memcmp(desk.card, desk.copy, 4 * desk.words) == 0, "the card written by the hook is another");
    for (uint32_t family = 0; family < RATION_FAMILIES; family++) {
        uint32_t total = ration_family_total(desk.state, RATION_STATE_WORDS, family).value;
        uint32_t total_by_hand = hand_written_family_total(desk.by_hand_state, RATION_STATE_WORDS, family).value;
        CHECK(total == total_by_hand, "%u pairs of family %u, by hand %u", total, family, total_by_hand);
    }
    return fails ? 0 : 1;
}

// The hook failed: "read the card into it anew .. and call ration_open".
static ration_answer open_again(void)
{
    memcpy(desk.copy, desk.card, 4 * desk.words);
    memcpy(desk.by_hand, desk.card, 4 * desk.words);
    ration_answer a = ration_open(COPY), by_hand = hand_written_open(BY_HAND);
    CHECK(memcmp(&a, &by_hand, sizeof a) == 0, "opened: %u, by hand %u", a.code, by_hand.code);
    return a;
}

// Works what was started to its end; where writes fail, as a controller does that opens the card again. Whether none failed.
static bool finish(uint32_t fail_percent)
{
    bool whole = true;
    for (;;) {
        desk.fails_in = random_percent(&stream, fail_percent) ? 1 + random_below(&stream, 80) : 0;
        desk.reaches = random_percent(&stream, 50);
        ration_answer a = ration_finish_with(COPY, write_word, &desk);
        if (a.code != RATION_STORED) {
            ration_answer by_hand = hand_written_step(BY_HAND);
            CHECK(memcmp(&a, &by_hand, sizeof a) == 0, "final answer %u, by hand %u", a.code, by_hand.code);
            CHECK(!RATION_IS_REFUSAL(a.code), "refused with %u", a.code);
            return whole;
        }
        whole = false;
        a = open_again();
        if (a.code != RATION_STARTED) {
            CHECK(a.code == RATION_IDLE, "opening refused with %u", a.code);
            return whole;
        }
    }
}

static void work(uint32_t updates, uint32_t keys)
{
    for (uint32_t i = 0; i < updates; i++) {
        uint32_t key = 1 + random_below(&stream, keys), value = random_word(&stream);
        bool insert = random_percent(&stream, i < updates / 2 ? 70 : 30);
        ration_answer a = insert ? ration_start_insert(COPY, key, value) : ration_start_delete(COPY, key);
        ration_answer by_hand =
            insert ? hand_written_start_insert(BY_HAND, key, value) : hand_written_start_delete(BY_HAND, key);
        CHECK(memcmp(&a, &by_hand, sizeof a) == 0, "started: %u, by hand %u", a.code, by_hand.code);
        if (a.code == RATION_STARTED)
            finish(30);
    }
}

void test_hook(scale s)
{
    stream.state = 66;
    static const uint32_t sizes[] = {4, 6, 12, 60};
    for (size_t i = 0; i < sizeof sizes / sizeof sizes[0]; i++) {
        desk.words = RATION_CARD_WORDS(sizes[i]);
        for (size_t place = 0; place < desk.words; place++)
            desk.card[place] = desk.copy[place] = desk.by_hand[place] = random_word(&stream);
        CHECK(ration_start_format(COPY).code == RATION_STARTED, "formatting refused");
        CHECK(hand_written_start_format(BY_HAND).code == RATION_STARTED, "formatting refused by hand");
        desk.written = 0;
        CHECK(finish(0) && desk.written == desk.words + 1, "%llu words written", (unsigned long long)desk.written);
        work(10 * s.percent, 6 * sizes[i]);
    }
    // Long repairs: deletes that merge through 8 levels.
    desk.words = RATION_CARD_WORDS(600);
    CHECK(build_card(desk.card, 600, 8, 2, 2, &stream) != 0, "no card");
    CHECK(open_again().code == RATION_IDLE, "a card that was built");
    work(s.percent, 15000);
}
