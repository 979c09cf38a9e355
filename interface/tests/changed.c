// A value changed on a card that is full, as the manual says under "A VALUE CHANGED": the key is deleted and inserted again,
// and where power goes within the two both are made again. No start is refused, and the new value is there.
#include "check.h"
#include "parts.h"
#include "worked.h"

static random_stream stream;

// False where power goes before the end, after so many steps.
static bool change(worked *w, uint32_t key, uint32_t value, uint32_t steps)
{
    for (int insert = 0; insert < 2; insert++) {
        bool started = insert ? worked_start_insert(w, key, value) : worked_start_delete(w, key);
        CHECK(started, "key %u refused, insert %d", key, insert);
        for (; w->in_progress != NOTHING; steps--) {
            if (steps == 0)
                return false;
            worked_step(w);
        }
    }
    return true;
}

static void try_changes(uint32_t nodes, uint32_t changes)
{
    worked *w = worked_format(nodes, &stream);
    for (uint32_t refused = 0; refused < 20;)
        if (worked_start_insert(w, 1 + random_below(&stream, UINT32_MAX), random_word(&stream)))
            worked_finish(w);
        else
            refused++;
    for (uint32_t i = 0; i < changes; i++) {
        uint32_t key = w->book.keys[random_below(&stream, w->book.pairs)], value = random_word(&stream), held;
        uint32_t most_steps = random_percent(&stream, 10) ? 300 : 6; // most changes take one store and two
        if (!change(w, key, value, random_below(&stream, most_steps))) {
            worked_cut(w);
            worked_finish(w);
            CHECK(change(w, key, value, UINT32_MAX), "not changed");
        }
        CHECK(book_holds(&w->book, key, &held) && held == value, "key %u: another value", key);
        worked_check(w);
    }
    worked_free(w);
}

void test_changed(scale s)
{
    stream = (random_stream){8};
    static const uint32_t nodes[] = {4, 5, 6, 12, 30, 60};
    for (size_t i = 0; i < sizeof nodes / sizeof nodes[0]; i++)
        try_changes(nodes[i], 3 + 10 * s.percent);
}
