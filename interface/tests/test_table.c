// Tests a table behind ration_table.h: test_table PERCENT GUARD_WORDS TRACES.. PERCENT below 100 makes fewer random events;
// GUARD_WORDS 0 leaves the watch over memory to a memory checker.
#include <stdbool.h>
#include <stdlib.h>
#include <string.h>

#include "check.h"
#include "guarded.h"
#include "parts.h"
#include "worked.h"

static void print_answers(void)
{
    static const char *const calls[CALLS] = {"start_format", "open", "find",         "next",      "start_insert",
                                             "start_delete", "step", "family_total", "read_dump", "write_dump"};
    static const char *const worked[] = {"value",  "absent",   "stored", "ready", "idle",   "started",
                                         "length", "no state", "next",   "none",  "record", "total"};
    for (int call = 0; call < CALLS; call++) {
        printf("  %-12s", calls[call]);
        for (int code = 1; code < CODES; code++)
            if (answered[call][code] != 0 && code < 64)
                printf(" refused %d: %llu", code, (unsigned long long)answered[call][code]);
            else if (answered[call][code] != 0)
                printf(" %s: %llu", worked[code - 64], (unsigned long long)answered[call][code]);
        printf("\n");
    }
}

// Every answer that documents 01 and 02 give a call a reason for was seen, so that no check above was about nothing.
static void check_all_answers_seen(void)
{
    static const uint8_t seen[CALLS][13] = {
        [START_FORMAT] = {1, 69, 71},
        [OPEN] = {1, 2, 3, 4, 5, 68, 69, 71},
        [FIND] = {1, 2, 3, 6, 9, 64, 65},
        [NEXT] = {1, 2, 3, 9, 72, 73},
        [START_INSERT] = {1, 2, 3, 6, 7, 8, 9, 69, 71},
        [START_DELETE] = {1, 2, 3, 6, 7, 9, 69, 71},
        [STEP] = {1, 2, 3, 9, 10, 64, 65, 66, 67, 71},
        [FAMILY_TOTAL] = {13, 71, 75},
        [READ_DUMP] = {11, 12, 70},
        [WRITE_DUMP] = {1, 2, 3, 12, 70},
    };
    for (int call = 0; call < CALLS; call++) {
        uint64_t listed = 0, all = 0;
        for (int i = 0; seen[call][i] != 0; i++) {
            CHECK(answered[call][seen[call][i]] > 0, "call %d never answered %d", call, seen[call][i]);
            listed += answered[call][seen[call][i]];
        }
        for (int code = 0; code < CODES; code++)
            all += answered[call][code];
        CHECK(listed == all, "call %d answered what is not listed for it", call);
    }
}

// Every depth was told by each call that tells one, and after an update that changed it.
static void check_all_depths_seen(void)
{
    static const int calls[] = {FIND, NEXT, STEP};
    for (size_t i = 0; i < sizeof calls / sizeof calls[0]; i++)
        for (int depth = 0; depth < DEPTHS; depth++)
            CHECK(told[calls[i]][depth] > 0, "call %d never told depth %d", calls[i], depth);
    CHECK(told_before_growth > 0 && told_before_shrinking > 0, "no update changed a depth");
    printf("  depths told of before: %llu updates made their way longer, %llu shorter\n",
           (unsigned long long)told_before_growth, (unsigned long long)told_before_shrinking);
}

// Every family's total went up and down.
static void check_all_families_counted(void)
{
    uint64_t in = 0, out = 0;
    for (uint32_t family = 0; family < RATION_FAMILIES; family++) {
        CHECK(counted_in[family] > 0 && counted_out[family] > 0, "no pair of family %u came and went", family);
        in += counted_in[family];
        out += counted_out[family];
    }
    printf("  totals by family: %llu steps made one greater, %llu less\n", (unsigned long long)in,
           (unsigned long long)out);
}

// Each code has a text of its own, and nothing else has one.
static void check_texts(void)
{
    for (uint32_t code = 0; code <= 80; code++) {
        bool is_code =
            (code >= 1 && code <= 13) || (code >= RATION_VALUE && code <= RATION_NONE) || code == RATION_TOTAL;
        bool has_text = strcmp(ration_text(code), ration_text(UINT32_MAX)) != 0;
        CHECK(has_text == is_code, "code %u: %s", code, ration_text(code));
        for (uint32_t other = 1; is_code && other < code; other++)
            CHECK(strcmp(ration_text(code), ration_text(other)) != 0, "codes %u and %u have one text", code, other);
    }
}

int main(int count, char **arguments)
{
    CHECK(count > 3, "usage: test_table PERCENT GUARD_WORDS TRACES..");
    scale s = {(uint32_t)atoi(arguments[1])};
    guard_words = (size_t)atoi(arguments[2]);
    check_texts();
    uint32_t traces = 0;
    for (int i = 3; i < count; i++)
        traces += test_traces(arguments[i]);
    test_lengths();
    test_lists(s);
    test_cuts(s);
    test_hook(s);
    test_changed(s);
    test_damage(s);
    test_agreement(s);
    check_all_answers_seen();
    print_answers();
    check_all_depths_seen();
    check_all_families_counted();
    printf("C: all right, %u traces, %llu events\n", traces, (unsigned long long)events);
    return 0;
}
