// Checks the header, as C99 and as C++: its functions that read words, on words written by hand,
// and its constants and names against the library. Prints each check that fails; the status is 0
// only if none does.
#include <stdio.h>
#include <string.h>

#include "thistlecart.h"

static int failures = 0;

static void check(int holds, int line, const char *words) {
    if (!holds) {
        printf("header.c:%d: %s\n", line, words);
        failures++;
    }
}

#define CHECK(holds) check((holds) != 0, __LINE__, #holds)

// What the library refuses: by number, and of a maker's word also in which bytes; a rule that is
// loaded; code that is run over one frame without room for the verdict.
#define REFUSED(number, word) CHECK(thistlecart_refusal(word) == (number))
#define REFUSED_IN(bytes, number, word) \
    CHECK(thistlecart_refusal(word) == (number) && thistlecart_which(word) == (bytes))
#define BYTES(text) (const uint8_t *)(text), sizeof(text) - 1
#define RULE(number, text) REFUSED(number, thistlecart_load(BYTES(text)))
#define CODE(number, text) REFUSED(number, thistlecart_run(BYTES(text), clip, 1, out, 0))

static uint8_t table[THISTLECART_TABLE_LENGTH];
static uint8_t witness[THISTLECART_WITNESS_LENGTH];
static uint8_t clip[THISTLECART_MOST_FRAMES + 1];
static uint8_t out[THISTLECART_MOST_FRAMES + 1];

// The functions that read words.
static void words(void) {
    CHECK(thistlecart_items(UINT64_C(0xff0004000)) == 0x40);
    CHECK(thistlecart_horizon(UINT64_C(0xff0004000)) == 0xff0);
    CHECK(thistlecart_items(0x1800100) == 0x8001 && thistlecart_horizon(0x1800100) == 1);
    const uint64_t met = UINT64_C(0x800000018ff10100), none = UINT64_C(0x0001000000000000);
    CHECK(thistlecart_met(met) == 1 && thistlecart_met(none) == 0);
    CHECK(thistlecart_length(met) == 0x8ff1 && thistlecart_length(none) == 0);
    CHECK(thistlecart_states(met) == 0x80000001 && thistlecart_states(none) == 0x10000);
    CHECK(thistlecart_length(UINT64_C(0x100010100)) == 1);
    CHECK(thistlecart_length(0x48000) == 0x480 && thistlecart_length(0xffffff00) == 0xffffff);
    for (uint64_t number = 1; number <= 0xff; number++) {
        for (uint64_t which = 0; which <= 3; which++) {
            const uint64_t word = which << 40 | UINT64_C(0x8000000100) | number;
            CHECK(thistlecart_refusal(word) == number && thistlecart_which(word) == which);
            CHECK(thistlecart_place(word) == 0x80000001);
            CHECK(thistlecart_items(word) == 0 && thistlecart_horizon(word) == 0);
            CHECK(thistlecart_met(word) == 0 && thistlecart_length(word) == 0);
            CHECK(thistlecart_states(word) == 0);
        }
    }
    const uint64_t full = ~UINT64_C(0xff);
    CHECK(thistlecart_refusal(full) == 0);
    CHECK(thistlecart_place(full) == 0 && thistlecart_which(full) == 0);
}

// Writes a number in its shortest form. Answers its bytes.
static size_t put_number(uint8_t *bytes, size_t number) {
    if (number < 128) {
        bytes[0] = (uint8_t)number;
        return 1;
    }
    bytes[0] = (uint8_t)(128 + number % 128);
    bytes[1] = (uint8_t)(number / 128);
    return 2;
}

// Loads true under so many timed items: eventually[a,b], the last one with a lower bound of `last`.
static uint64_t load_timed(size_t items, size_t a, size_t last, size_t b) {
    static uint8_t bytes[1 + 5 * (THISTLECART_MOST_TIMED + 1)];
    size_t length = 0;
    bytes[length++] = 0x10;
    for (size_t item = 1; item <= items; item++) {
        bytes[length++] = 0x32;
        length += put_number(bytes + length, item == items ? last : a);
        length += put_number(bytes + length, b);
    }
    return thistlecart_load(bytes, length);
}

// The limits: the most of each thing, and one more.
static void limits(void) {
    const size_t timed = THISTLECART_MOST_TIMED, bound = THISTLECART_MOST_BOUND;
    const size_t lower = THISTLECART_MOST_LOWER / THISTLECART_MOST_TIMED;
    const size_t last = THISTLECART_MOST_LOWER - (timed - 1) * lower;
    REFUSED(0, load_timed(timed, 0, 0, bound));
    REFUSED(THISTLECART_RULE_TOO_LARGE, load_timed(timed + 1, 0, 0, bound));
    REFUSED(THISTLECART_BAD_WINDOW, load_timed(1, 0, 0, bound + 1));
    REFUSED(0, load_timed(timed, lower, last, bound));
    REFUSED(THISTLECART_RULE_TOO_LARGE, load_timed(timed, lower, last + 1, bound));
    static uint8_t rule[THISTLECART_MOST_ITEMS + 1], code[THISTLECART_MOST_INSTRUCTIONS + 1];
    memset(rule, 0x20, sizeof rule);
    rule[0] = 0x10;
    CHECK(thistlecart_items(thistlecart_load(rule, sizeof rule - 1)) == THISTLECART_MOST_ITEMS);
    REFUSED(THISTLECART_RULE_TOO_LARGE, thistlecart_load(rule, sizeof rule));
    memset(code, 0x01, sizeof code);
    REFUSED(0, thistlecart_run(code, sizeof code - 1, clip, 1, out, 1));
    REFUSED(THISTLECART_CODE_TOO_LARGE, thistlecart_run(code, sizeof code, clip, 1, out, 1));
    REFUSED(0, thistlecart_run(code, 1, clip, THISTLECART_MOST_FRAMES, out, sizeof out));
    REFUSED(THISTLECART_BAD_CLIP,
            thistlecart_run(code, 1, clip, THISTLECART_MOST_FRAMES + 1, out, sizeof out));
}

// The lengths that always suffice, and those of a table.
static void lengths(void) {
    // Flag 0, and as often as may be eventually[0,255] of it: the largest horizon.
    const uint8_t window[] = {0x32, 0x00, 0xff, 0x01};
    uint8_t far[2 + THISTLECART_MOST_TIMED * sizeof window] = {0x12, 0x00};
    for (size_t i = 2; i < sizeof far; i += sizeof window) {
        memcpy(far + i, window, sizeof window);
    }
    CHECK(thistlecart_horizon(thistlecart_load(far, sizeof far)) == THISTLECART_WITNESS_LENGTH - 1);
    REFUSED(THISTLECART_SHORT_WITNESS,
            thistlecart_search(far, sizeof far, table, sizeof table, witness, sizeof witness - 1));
    REFUSED(0, thistlecart_search(far, sizeof far, table, sizeof table, witness, sizeof witness));
    const uint8_t yes[] = {0x10};
    REFUSED(THISTLECART_NO_ROOM,
            thistlecart_search(yes, 1, table, THISTLECART_RECORD_LENGTH - 1, witness, 1));
    const uint64_t met = thistlecart_search(yes, 1, table, THISTLECART_RECORD_LENGTH, witness, 1);
    CHECK(thistlecart_met(met));
    uint8_t code[THISTLECART_CODE_LENGTH];
    CHECK(thistlecart_length(thistlecart_emit(far, sizeof far, code, sizeof code)) > 0);
    const uint64_t emitted = thistlecart_emit(yes, 1, code, sizeof code);
    CHECK(thistlecart_length(emitted) == 1 && code[0] == 0x01);
}

// The refusals of rules and of code by name, but for those that other checks name.
static void names(void) {
    RULE(THISTLECART_EMPTY, "");
    RULE(THISTLECART_UNKNOWN_CODE, "\x01");
    RULE(THISTLECART_CUT_SHORT, "\x12");
    RULE(THISTLECART_NOT_SHORTEST, "\x12\x80\x00");
    RULE(THISTLECART_FLAG_TOO_LARGE, "\x12\x08");
    RULE(THISTLECART_BAD_WINDOW, "\x10\x32\x02\x01");
    RULE(THISTLECART_TOO_FEW_OPERANDS, "\x10\x21");
    RULE(THISTLECART_RULE_TOO_LARGE, "\x10\x32\xff\x01\xff\x01\x32\x02\x02");
    RULE(THISTLECART_NOT_ONE_VALUE, "\x10\x10");
    CODE(THISTLECART_NOT_EARLIER, "\x03\x00\x00");
    CODE(THISTLECART_BAD_WIDTH, "\x01\x05\x00\x00");
    CODE(THISTLECART_CODE_TOO_LARGE, "\x01\x05\x00\xff\x01\x05\x01\x02");
    CODE(THISTLECART_SHORT_OUTPUT, "\x01");
}

// The makers, and which bytes they refuse.
static void makers(void) {
    enum { MOST = THISTLECART_MOST_ITEMS };
    uint8_t full[MOST] = {0x10}, rule[THISTLECART_RULE_LENGTH];
    memset(full + 1, 0x20, sizeof full - 1);
    const uint8_t bad[] = {0x12, 0x08};
    REFUSED_IN(THISTLECART_NEW, THISTLECART_RULE_TOO_LARGE,
               thistlecart_negate(full, MOST, rule, sizeof rule));
    REFUSED_IN(THISTLECART_FIRST, THISTLECART_FLAG_TOO_LARGE,
               thistlecart_next(bad, 2, rule, sizeof rule));
    REFUSED_IN(THISTLECART_SECOND, THISTLECART_FLAG_TOO_LARGE,
               thistlecart_both(full, MOST, bad, 2, rule, sizeof rule));
    REFUSED_IN(THISTLECART_NEW, THISTLECART_SHORT_OUTPUT,
               thistlecart_either(full, 1, full, 1, rule, 2));
    CHECK(thistlecart_place(thistlecart_negate(full, MOST, rule, sizeof rule)) == MOST);
    CHECK(thistlecart_length(thistlecart_negate(full, MOST - 1, rule, sizeof rule)) == MOST);
    CHECK(thistlecart_items(thistlecart_load(rule, MOST)) == MOST);
}

int main(void) {
    words();
    limits();
    lengths();
    names();
    makers();
    return failures != 0;
}
