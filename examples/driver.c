// A compiler's driver in small, for unattended builds.
//
//     driver RULE CLIP CODE
//
// It reads a rule and a clip, says whether the rule can be met and whether it can be broken, emits
// the rule's code to the file CODE, runs it over the clip, and prints what it finds, one fact a
// line. The status says how it went:
//
//     0  the rule can be met and can be broken, and the clip satisfies it
//     1  the clip does not satisfy the rule
//     2  the rule cannot be met: no clip satisfies it
//     3  the rule cannot be broken: every clip satisfies it
//     4  the rule or the clip is refused, or one of the two questions cannot be judged
//     5  wrong usage, or trouble with a file, with memory or with the output
//
// Where several of 1 to 4 apply, the one whose line comes first counts. A clip satisfies a rule if
// the verdict on frame 0 is 1. CODE is written for every rule that is accepted, and with 5 it may
// be cut short: a build goes on with it only after 0.
//
// The examples: a lamp that clips (flag 0) is followed by a frame without clipping 2 to 4 frames
// later, unless the clip ends first. That goes for each of the first 12 frames. lamp.rule, in hex:
//
//     12 00 20               the frame does not clip
//     12 00 20 32 02 04  22  or one of the frames 2 to 4 later does not
//     11 33 04 04        22  or there is no frame 4 later
//     33 00 0b               and so for the frames 0 to 11
//
// For lamp.clip the status is 0; in stuck.clip the lamp clips for too long, and it is 1.
#include <errno.h>
#include <inttypes.h>
#include <stdbool.h>
#include <stdint.h>
#include <stdio.h>
#include <stdlib.h>
#include <string.h>

#include "thistlecart.h"

enum status { PASSED, CLIP_FAILS, NEVER_MET, NEVER_BROKEN, REFUSED, TROUBLE };

// Room for what is read: more than any rule or clip that is accepted has. Of a longer file only so
// many bytes are read, and the library refuses them as it would the whole file.
enum { RULE_ROOM = 1024, CLIP_ROOM = THISTLECART_MOST_FRAMES + 1 };

// A limit of the header as text.
#define MOST(limit) TEXT(THISTLECART_MOST_##limit)
#define TEXT(number) QUOTED(number)
#define QUOTED(word) #word

static const char *const sentences[] = {
    [THISTLECART_EMPTY] = "there are no bytes",
    [THISTLECART_UNKNOWN_CODE] = "the code byte is unknown",
    [THISTLECART_CUT_SHORT] = "the bytes end inside an item",
    [THISTLECART_NOT_SHORTEST] = "a number is not in its shortest form",
    [THISTLECART_FLAG_TOO_LARGE] = "the flag is above 7",
    [THISTLECART_BAD_WINDOW] =
        "the lower bound is above the upper one, or that is above " MOST(BOUND),
    [THISTLECART_TOO_FEW_OPERANDS] = "there are too few operands",
    [THISTLECART_RULE_TOO_LARGE] = "there are over " MOST(ITEMS) " items, " MOST(TIMED)
                                   " timed ones, or lower bounds of " MOST(LOWER),
    [THISTLECART_NOT_ONE_VALUE] = "not exactly one value is left at the end",
    [THISTLECART_NOT_EARLIER] = "an operand is not an earlier instruction",
    [THISTLECART_BAD_WIDTH] =
        "the width is above " MOST(BOUND) ", or the distance is not 1 to " MOST(BOUND),
    [THISTLECART_CODE_TOO_LARGE] = "there are over " MOST(INSTRUCTIONS) " instructions, "
                                   MOST(TIMED) " counters, or delays of " MOST(LOWER),
    [THISTLECART_BAD_CLIP] = "the clip has no frame, or more than 65,535",
    [THISTLECART_SHORT_WITNESS] = "the witness buffer is too short",
    [THISTLECART_NO_ROOM] = "the table has no room for all states",
    [THISTLECART_SHORT_OUTPUT] = "the output buffer is too short",
};

// Ends a line by a refusal in words.
static enum status refused(const char *line, uint64_t word) {
    const uint64_t number = thistlecart_refusal(word);
    const bool known = number < sizeof sentences / sizeof *sentences;
    printf("%s refused %" PRIu64 " at %" PRIu64 ": %s\n", line, number, thistlecart_place(word),
           known ? sentences[number] : "an unknown refusal");
    return REFUSED;
}

// Says what cannot be done with a file.
static enum status trouble(const char *what, const char *file) {
    fprintf(stderr, "driver: cannot %s %s: %s\n", what, file, strerror(errno));
    return TROUBLE;
}

// Reads the first bytes of a file, as many as there is room for.
static enum status read_file(const char *file, uint8_t *bytes, size_t room, size_t *length) {
    FILE *stream = fopen(file, "rb");
    if (stream == NULL) {
        return trouble("read", file);
    }
    *length = fread(bytes, 1, room, stream);
    const enum status status = ferror(stream) == 0 ? PASSED : trouble("read", file);
    fclose(stream);
    return status;
}

// Makes a file of these bytes.
static enum status write_file(const char *file, const uint8_t *bytes, size_t length) {
    FILE *stream = fopen(file, "wb");
    if (stream == NULL) {
        return trouble("write", file);
    }
    const bool written = fwrite(bytes, 1, length, stream) == length;
    const enum status status = written ? PASSED : trouble("write", file);
    return fclose(stream) == 0 || !written ? status : trouble("write", file);
}

// Prints a line of bytes in hex.
static void print_bytes(const char *line, const uint8_t *bytes, size_t length) {
    fputs(line, stdout);
    for (size_t i = 0; i < length; i++) {
        printf(" %02x", bytes[i]);
    }
    putchar('\n');
}

// Says whether any clip satisfies a rule, and shows the first one. If none does: status `never`.
static enum status find_clip(const char *what, enum status never, const uint8_t *rule,
                             size_t length, uint8_t *table) {
    uint8_t witness[THISTLECART_WITNESS_LENGTH];
    const uint64_t word =
        thistlecart_search(rule, length, table, THISTLECART_TABLE_LENGTH, witness, sizeof witness);
    printf("can be %s:", what);
    if (thistlecart_refusal(word) != 0) {
        return refused(" not judged,", word);
    }
    if (thistlecart_met(word) == 0) {
        printf(" no, %" PRIu64 " states\n", thistlecart_states(word));
        return never;
    }
    printf(" yes, %" PRIu64 " frames, %" PRIu64 " states\n", thistlecart_length(word),
           thistlecart_states(word));
    printf("%s by", what);
    print_bytes(":", witness, thistlecart_length(word));
    return PASSED;
}

// Says whether some clip does not satisfy a rule: whether one satisfies its negation.
static enum status find_breaking(const uint8_t *rule, size_t length, uint8_t *table) {
    uint8_t negation[THISTLECART_RULE_LENGTH];
    const uint64_t word = thistlecart_negate(rule, length, negation, sizeof negation);
    if (thistlecart_refusal(word) != 0) {
        return refused("can be broken: not judged, its negation is", word);
    }
    return find_clip("broken", NEVER_BROKEN, negation, thistlecart_length(word), table);
}

// Runs a rule's code over a clip and shows the verdicts.
static enum status run_clip(const uint8_t *code, size_t code_length, const uint8_t *clip,
                            size_t clip_length) {
    static uint8_t verdicts[CLIP_ROOM];
    const uint64_t word =
        thistlecart_run(code, code_length, clip, clip_length, verdicts, sizeof verdicts);
    if (thistlecart_refusal(word) != 0) {
        return refused("clip:", word);
    }
    print_bytes("clip:    ", clip, clip_length);
    print_bytes("verdicts:", verdicts, clip_length);
    printf("the clip satisfies the rule: %s\n", verdicts[0] == 1 ? "yes" : "no");
    return verdicts[0] == 1 ? PASSED : CLIP_FAILS;
}

// Does the whole job on the three files.
static enum status drive(char **files, uint8_t *table) {
    static uint8_t rule[RULE_ROOM], clip[CLIP_ROOM], code[THISTLECART_CODE_LENGTH];
    size_t rule_length, clip_length;
    if (read_file(files[0], rule, sizeof rule, &rule_length) != PASSED ||
        read_file(files[1], clip, sizeof clip, &clip_length) != PASSED) {
        return TROUBLE;
    }
    uint64_t word = thistlecart_load(rule, rule_length);
    if (thistlecart_refusal(word) != 0) {
        return refused("rule:", word);
    }
    printf("rule: %zu bytes, %" PRIu64 " items, horizon %" PRIu64 "\n", rule_length,
           thistlecart_items(word), thistlecart_horizon(word));

    const enum status met = find_clip("met", NEVER_MET, rule, rule_length, table);
    const enum status broken = find_breaking(rule, rule_length, table);

    word = thistlecart_emit(rule, rule_length, code, sizeof code);
    if (thistlecart_refusal(word) != 0) {
        return refused("code:", word);
    }
    const size_t code_length = thistlecart_length(word);
    if (write_file(files[2], code, code_length) != PASSED) {
        return TROUBLE;
    }
    printf("code: %zu bytes\n", code_length);
    const enum status ran = run_clip(code, code_length, clip, clip_length);
    return met != PASSED ? met : broken != PASSED ? broken : ran;
}

int main(int count, char **words) {
    if (count != 4) {
        fputs("usage: driver RULE CLIP CODE\n", stderr);
        return TROUBLE;
    }
    uint8_t *table = malloc(THISTLECART_TABLE_LENGTH);
    if (table == NULL) {
        fputs("driver: no memory for the table\n", stderr);
        return TROUBLE;
    }
    enum status status = drive(words + 1, table);
    free(table);
    if (fflush(stdout) != 0 || ferror(stdout) != 0) {
        status = trouble("write", "the output");
    }
    return status;
}
