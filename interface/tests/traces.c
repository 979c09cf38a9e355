// Replays traces word for word: the calls of a list, one a line, with the answers and stores that are due. The first line,
// `features`, names the requests of document 02 that the traces are right for. Of the program's `list` lines the pairs are compared
// with a walk over the card, which gives them in rising order too, and the families with the totals of the card opened.
#include <inttypes.h>
#include <stdbool.h>
#include <string.h>

#include "block.h"
#include "check.h"
#include "guarded.h"
#include "parts.h"
#include "reader.h"

// What a trace works on.
typedef struct {
    desk *desk;
    uint64_t stores;
    const uint8_t *dump;
    size_t dump_bytes;
    bool from_node_1;  // W-205 had not landed: after an opening the search for free nodes begins at node 1
    bool depths;       // W-203 had landed: every answer that carries a depth stands there with it
    bool twelve_nodes; // W-210 had landed: a way of 12 internal nodes is no longer refused
    bool families;     // W-204 had landed: `list` has a line for each family that has pairs
    uint32_t traces;
    uint32_t line;
} replay;

static uint32_t crc_of_bytes(const uint8_t *bytes, size_t count)
{
    uint32_t crc = UINT32_MAX;
    for (size_t i = 0; i < count; i++) {
        crc ^= bytes[i];
        for (int bit = 0; bit < 8; bit++)
            crc = crc >> 1 ^ (crc & 1 ? 0xedb88320 : 0);
    }
    return ~crc;
}

static uint32_t crc_of_words(const uint32_t *words, size_t count)
{
    uint8_t *bytes = malloc(4 * count + 1);
    CHECK(bytes != NULL, "no memory");
    for (size_t i = 0; i < 4 * count; i++)
        bytes[i] = (uint8_t)(words[i / 4] >> 8 * (i % 4));
    uint32_t crc = crc_of_bytes(bytes, 4 * count);
    free(bytes);
    return crc;
}

// The fields of a line, one after the other.
static bool next_is(char **at, const char *word)
{
    size_t length = strlen(word);
    if (strncmp(*at, word, length) != 0 || ((*at)[length] != ' ' && (*at)[length] != 0))
        return false;
    *at += length;
    if (**at == ' ')
        ++*at;
    return true;
}

static uint32_t next_number(char **at, int base)
{
    char *end;
    uint32_t number = (uint32_t)strtoul(*at, &end, base);
    CHECK(end != *at && (*end == ' ' || *end == 0), "no number at: %.20s", *at);
    *at = *end == ' ' ? end + 1 : end;
    return number;
}

static uint32_t count_free_bits(const desk *d)
{
    uint32_t count = 0;
    for (int i = 0; i < 32 * BLOCK_FREE_WORDS; i++)
        count += d->state[BLOCK_FREE + i / 32] >> i % 32 & 1;
    return count;
}

// Compares an answer with a trace's result. A store is compared with its place and word; the copy of the card before
// the step, with that store, is the card after it. Where the trace has no depths, guarded.c alone looks at them.
static void check_result(replay *r, desk *d, ration_answer a, char *at, uint32_t *card_before)
{
    uint32_t code = 0, value = 0, key = 0;
    bool has_depth = false;
    if (next_is(&at, "refused"))
        code = next_number(&at, 10);
    else if (next_is(&at, "started"))
        code = RATION_STARTED;
    else if (next_is(&at, "idle"))
        code = RATION_IDLE;
    else if (next_is(&at, "repairing"))
        code = RATION_STARTED;
    else if (next_is(&at, "ready"))
        code = RATION_READY;
    else if (next_is(&at, "absent") || next_is(&at, "answer absent")) {
        code = RATION_ABSENT;
        has_depth = true;
    } else if (next_is(&at, "none")) {
        code = RATION_NONE;
        has_depth = true;
    } else if (next_is(&at, "next")) {
        code = RATION_NEXT;
        key = next_number(&at, 10);
        value = next_number(&at, 10);
        has_depth = true;
    } else if (next_is(&at, "found") || next_is(&at, "answer")) {
        code = RATION_VALUE;
        value = next_number(&at, 10);
        has_depth = true;
    } else if (next_is(&at, "total")) {
        code = RATION_TOTAL;
        value = next_number(&at, 10);
    } else if (next_is(&at, "store")) {
        code = RATION_STORED;
        value = next_number(&at, 10);
        card_before[value] = next_number(&at, 10);
        CHECK(memcmp(card_before, d->card, 4 * d->words) == 0, "line %u: another store", r->line);
        r->stores++;
    }
    CHECK(a.code == code && a.value == value && a.key == key, "line %u: code %u value %u key %u, due %u %u %u", r->line,
          a.code, a.value, a.key, code, value, key);
    if (r->depths) {
        CHECK(!has_depth || next_is(&at, "depth"), "line %u: no depth", r->line);
        uint32_t depth = has_depth ? next_number(&at, 10) : 0;
        CHECK(a.depth == depth, "line %u: depth %u, due %u", r->line, a.depth, depth);
    }
    if (*at != 0)
        CHECK(count_free_bits(d) == next_number(&at, 10), "line %u: free nodes", r->line);
}

// The next pair on a card that is not sound: "any pair above X, none or refused 9 will do".
static void replay_loose(replay *r, desk *d, char *at)
{
    CHECK(next_is(&at, "next"), "line %u", r->line);
    uint32_t after = next_number(&at, 10);
    ration_answer a = desk_next(d, after);
    CHECK(a.code == RATION_NONE || a.code == RATION_BROKEN_WAY || (a.code == RATION_NEXT && a.key > after),
          "line %u: code %u key %u", r->line, a.code, a.key);
}

// The search begins at node 1 again: 0 is taken for the node given last. Any words in a block are some state.
static void search_from_node_1(desk *d)
{
    uint32_t words[RATION_STATE_WORDS];
    memcpy(words, d->state, sizeof words);
    words[BLOCK_LAST] = 0;
    desk_set_state(d, words);
}

// Before W-210 a way of more than 10 internal nodes was refused: such a call is left out, since it stored nothing and changed no state.
static bool was_too_deep(const replay *r, const desk *d, char *at, const char *result)
{
    if (r->twelve_nodes || strcmp(result, "refused 9") != 0)
        return false;
    if (!next_is(&at, "find") && !next_is(&at, "next") && !next_is(&at, "insert") && !next_is(&at, "delete"))
        return false;
    landing l = read_landing(d->card, d->words, next_number(&at, 10));
    return !l.refused && l.depth > 10;
}

static void replay_call(replay *r, desk *d, char *at, char *result)
{
    if (was_too_deep(r, d, at, result))
        return;
    if (strcmp(result, "loose") == 0) {
        replay_loose(r, d, at);
        return;
    }
    uint32_t *card_before = malloc(4 * d->words + 1);
    CHECK(card_before != NULL, "no memory");
    memcpy(card_before, d->card, 4 * d->words);
    ration_answer a = {0};
    if (next_is(&at, "format"))
        a = desk_start_format(d);
    else if (next_is(&at, "open")) {
        a = desk_open(d);
        if (r->from_node_1)
            search_from_node_1(d);
    } else if (next_is(&at, "find"))
        a = desk_find(d, next_number(&at, 10));
    else if (next_is(&at, "next"))
        a = desk_next(d, next_number(&at, 10));
    else if (next_is(&at, "insert")) {
        uint32_t key = next_number(&at, 10);
        a = desk_start_insert(d, key, next_number(&at, 10));
    } else if (next_is(&at, "delete"))
        a = desk_start_delete(d, next_number(&at, 10));
    else if (next_is(&at, "step"))
        a = desk_step(d);
    else if (next_is(&at, "total"))
        a = desk_family_total(d, next_number(&at, 10));
    else
        CHECK(false, "line %u: %.40s", r->line, at);
    check_result(r, d, a, result, card_before);
    free(card_before);
}

// So many steps, each of which stores; the CRC is of the places and words stored.
static void replay_run(replay *r, char *at)
{
    uint32_t steps = next_number(&at, 10);
    uint32_t *stored = malloc(8 * (size_t)steps);
    CHECK(stored != NULL, "no memory");
    for (uint32_t i = 0; i < steps; i++) {
        ration_answer a = desk_step(r->desk);
        CHECK(a.code == RATION_STORED, "line %u: code %u", r->line, a.code);
        stored[2 * i] = a.value;
        stored[2 * i + 1] = r->desk->card[a.value];
    }
    CHECK(crc_of_words(stored, 2 * (size_t)steps) == next_number(&at, 16), "line %u: other stores", r->line);
    r->stores += steps;
    free(stored);
}

// The totals of all families, the same question asked for each.
static void replay_totals(replay *r, char *at)
{
    for (uint32_t family = 0; family < RATION_FAMILIES; family++) {
        ration_answer a = desk_family_total(r->desk, family);
        uint32_t due = next_number(&at, 10);
        CHECK(a.code == RATION_TOTAL && a.value == due, "line %u: family %u: %u %u, due %u", r->line, family, a.code,
              a.value, due);
    }
    CHECK(*at == 0, "line %u", r->line);
}

// The lines of `list` after its first, one for each family that has pairs, rising: those of the card opened. Gives what follows them.
static char *check_family_lines(replay *r, desk *d, char *line)
{
    CHECK(!RATION_IS_REFUSAL(desk_open(d).code), "line %u: not opened", r->line);
    for (uint32_t family = 0; family < RATION_FAMILIES; family++) {
        uint32_t pairs = desk_family_total(d, family).value;
        if (pairs == 0)
            continue;
        char *end = strchr(line, '/');
        *end = 0;
        CHECK(next_is(&line, "family") && next_number(&line, 10) == family && next_number(&line, 10) == pairs,
              "line %u: not: family %u %u", r->line, family, pairs);
        line = end + 1;
    }
    return line;
}

// What `list` prints for the dump in hand, line feeds written /: a line of counts, those of the families, and one for each pair, or a
// refusal.
static void walk_list(replay *r, char *at)
{
    const uint32_t *words;
    ration_answer a = guarded_read_dump(r->dump, r->dump_bytes, RATION_MOST_CARD_WORDS, &words);
    char *end = strchr(at, '/');
    *end = 0;
    if (a.code != RATION_LENGTH) {
        CHECK(next_is(&at, "refused") && a.code == next_number(&at, 10), "line %u: code %u", r->line, a.code);
        return;
    }
    // "the programs still answer 11 above 57,856 bytes or 600 nodes"
    if (a.value > RATION_CARD_WORDS(600)) {
        CHECK(next_is(&at, "refused") && next_number(&at, 10) == 11, "line %u: %u words are listed", r->line, a.value);
        return;
    }
    desk *d = desk_new(a.value, RATION_STATE_WORDS);
    desk_set_card(d, words);
    if (next_is(&at, "refused")) {
        CHECK(desk_open(d).code == next_number(&at, 10), "line %u: opened", r->line);
    } else {
        uint32_t after = 0;
        for (char *line = r->families ? check_family_lines(r, d, end + 1) : end + 1; *line != 0; line = end + 1) {
            end = strchr(line, '/');
            *end = 0;
            a = desk_next(d, after);
            after = next_number(&line, 10);
            CHECK(a.code == RATION_NEXT && a.key == after && a.value == next_number(&line, 10),
                  "line %u: code %u key %u value %u", r->line, a.code, a.key, a.value);
        }
        CHECK(desk_next(d, after).code == RATION_NONE, "line %u: the walk goes on", r->line);
    }
    desk_free(d);
}

// What `insert_check` prints for the dump in hand: looked at here is only whether it refuses the dump.
static void check_why(replay *r, const char *text)
{
    const uint32_t *words;
    ration_answer a = guarded_read_dump(r->dump, r->dump_bytes, RATION_MOST_CARD_WORDS, &words);
    bool is_refused = a.code != RATION_LENGTH || a.value > RATION_CARD_WORDS(600);
    CHECK(is_refused == (strcmp(text, "refused 11/") == 0), "line %u: code %u, %u words", r->line, a.code, a.value);
}

// "the first L words, or the card followed by 0s; the card in hand is not changed, the state handed back counts"
static void replay_on(replay *r, char *at, char *result)
{
    uint32_t words = next_number(&at, 10);
    desk *other = desk_new(words, RATION_STATE_WORDS);
    for (size_t i = 0; i < words && i < r->desk->words; i++)
        desk_set(other, i, r->desk->card[i]);
    desk_set_state(other, r->desk->state);
    replay_call(r, other, at, result);
    desk_set_state(r->desk, other->state);
    desk_free(other);
}

static uint8_t hex_digit(char c) { return (uint8_t)(c <= '9' ? c - '0' : c - 'a' + 10); }

// Bytes in hex, a run of z zero bytes as (z); an empty dump as -.
static void take_dump(replay *r, char *at)
{
    static uint8_t bytes[2 * RATION_MOST_DUMP_BYTES];
    size_t count = 0;
    while (*at != 0 && *at != '-') {
        if (*at == '(') {
            size_t zeros = strtoul(at + 1, &at, 10);
            CHECK(*at++ == ')' && zeros <= sizeof bytes - count, "line %u: dump", r->line);
            memset(bytes + count, 0, zeros);
            count += zeros;
        } else {
            CHECK(at[1] != 0 && count < sizeof bytes, "line %u: dump", r->line);
            bytes[count++] = (uint8_t)(hex_digit(at[0]) << 4 | hex_digit(at[1]));
            at += 2;
        }
    }
    r->dump = bytes;
    r->dump_bytes = count;
}

// The results `refused R` and `words W crc H` or `bytes B crc H`.
static void check_dump_result(replay *r, ration_answer a, char *at, const char *unit, uint32_t crc)
{
    if (next_is(&at, "refused")) {
        CHECK(a.code == next_number(&at, 10), "line %u: code %u", r->line, a.code);
        return;
    }
    CHECK(next_is(&at, unit), "line %u", r->line);
    CHECK(a.code == RATION_LENGTH && a.value == next_number(&at, 10), "line %u: code %u value %u", r->line, a.code,
          a.value);
    CHECK(next_is(&at, "crc") && crc == next_number(&at, 16), "line %u: crc", r->line);
}

static void replay_line(replay *r, char *line)
{
    char *at = line;
    char *arrow = strstr(line, " -> ");
    char *result = arrow == NULL ? NULL : arrow + 4;
    if (arrow != NULL)
        *arrow = 0;

    if (*at == 0 || *at == '#')
        return;
    if (next_is(&at, "features")) {
        r->from_node_1 = strstr(at, "W-205") == NULL;
        r->depths = strstr(at, "W-203") != NULL;
        r->twelve_nodes = strstr(at, "W-210") != NULL;
        r->families = strstr(at, "W-204") != NULL;
    } else if (next_is(&at, "list")) {
        walk_list(r, result);
    } else if (next_is(&at, "why")) {
        check_why(r, result);
    } else if (next_is(&at, "trace")) {
        at = strchr(at, ' ') + 1;
        if (r->desk != NULL)
            desk_free(r->desk);
        r->desk = desk_new(8 + 24 * (size_t)next_number(&at, 10), RATION_STATE_WORDS);
        r->stores = 0;
        r->traces++;
    } else if (next_is(&at, "card")) {
        for (uint32_t place = next_number(&at, 10); *at != 0; place++)
            desk_set(r->desk, place, next_number(&at, 10));
    } else if (next_is(&at, "poke")) {
        uint32_t place = next_number(&at, 10);
        desk_set(r->desk, place, next_number(&at, 10));
    } else if (next_is(&at, "cut")) {
        desk_cut(r->desk);
    } else if (next_is(&at, "state0")) {
        static const uint32_t zeros[RATION_STATE_WORDS];
        desk_set_state(r->desk, zeros);
    } else if (next_is(&at, "crc")) {
        CHECK(crc_of_words(r->desk->card, r->desk->words) == next_number(&at, 16), "line %u: crc", r->line);
    } else if (next_is(&at, "run")) {
        replay_run(r, at);
    } else if (next_is(&at, "totals")) {
        replay_totals(r, result);
    } else if (next_is(&at, "on")) {
        replay_on(r, at, result);
    } else if (next_is(&at, "dump")) {
        take_dump(r, at);
    } else if (next_is(&at, "read")) {
        uint32_t lent = next_number(&at, 10);
        const uint32_t *words;
        ration_answer a = guarded_read_dump(r->dump, r->dump_bytes, lent, &words);
        check_dump_result(r, a, result, "words", crc_of_words(words, lent));
    } else if (next_is(&at, "write")) {
        uint32_t lent = next_number(&at, 10);
        const uint8_t *bytes;
        ration_answer a = desk_write_dump(r->desk, lent, &bytes);
        check_dump_result(r, a, result, "bytes", crc_of_bytes(bytes, lent));
    } else if (next_is(&at, "end")) {
        CHECK(crc_of_words(r->desk->card, r->desk->words) == next_number(&at, 16), "line %u: crc", r->line);
        CHECK(r->stores == next_number(&at, 10), "line %u: %" PRIu64 " stores", r->line, r->stores);
    } else {
        replay_call(r, r->desk, at, result);
    }
}

uint32_t test_traces(const char *path)
{
    FILE *file = fopen(path, "rb");
    CHECK(file != NULL, "cannot read %s", path);
    CHECK(fseek(file, 0, SEEK_END) == 0, "%s", path);
    long size = ftell(file);
    rewind(file);
    char *text = malloc((size_t)size + 1);
    CHECK(size > 0 && text != NULL && fread(text, 1, (size_t)size, file) == (size_t)size, "cannot read %s", path);
    fclose(file);
    text[size] = 0;

    replay r = {.line = 0};
    for (char *line = text; *line != 0;) {
        char *end = strchr(line, '\n');
        if (end != NULL)
            *end = 0;
        r.line++;
        replay_line(&r, line);
        line = end == NULL ? line + strlen(line) : end + 1;
    }
    CHECK(r.traces > 0, "no traces in %s", path);
    desk_free(r.desk);
    free(text);
    return r.traces;
}
