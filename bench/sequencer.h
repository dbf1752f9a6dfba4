// The sequencer in C, written for speed: code is decoded once into an array of structs, and each frame walks it.
// bench/machine.c runs it over a clip, bench/search.c searches with it.
#ifndef SEQUENCER_H
#define SEQUENCER_H

#include <stdbool.h>
#include <stddef.h>
#include <stdint.h>

#include "limits.h"

enum { ONE = 1, FLAG, NAND, REACH, LATER };

typedef struct {
    uint16_t code, i, j, w;
} instruction;

// A counter is 0 for "none", else one more than its count.
typedef struct {
    uint16_t counters[COUNTERS];
    bool delays[DELAYS];
} registers;

static inline uint64_t refused(unsigned number, size_t place) { return number | (uint64_t)place << 8; }

// Reads a number and moves the place on. Answers 0, or the refusal's number.
static inline unsigned number(const uint8_t *bytes, size_t length, size_t *at, uint16_t *value) {
    if (*at == length)
        return THISTLECART_CUT_SHORT;
    *value = bytes[(*at)++];
    if (*value < 128)
        return 0;
    if (*at == length)
        return THISTLECART_CUT_SHORT;
    uint8_t high = bytes[(*at)++];
    if (high == 0 || high > 127)
        return THISTLECART_NOT_SHORTEST;
    *value = (uint16_t)(*value - 128 + 128 * high);
    return 0;
}

// Decodes code and counts its instructions. Answers 0, or the refusal.
static inline uint64_t decode(const uint8_t *bytes, size_t length, instruction *code, size_t *count) {
    static const unsigned numbers[] = {0, 0, 1, 2, 3, 2};
    size_t n = 0, at = 0, reaches = 0, distances = 0;
    if (length == 0)
        return refused(THISTLECART_EMPTY, 0);
    while (at < length) {
        size_t place = at;
        uint8_t byte = bytes[at++];
        uint16_t v[3] = {0, 0, 0};
        if (byte < ONE || byte > LATER)
            return refused(THISTLECART_UNKNOWN_CODE, place);
        for (unsigned k = 0; k < numbers[byte]; k++) {
            unsigned wrong = number(bytes, length, &at, &v[k]);
            if (wrong)
                return refused(wrong, place);
        }
        if (byte == FLAG && v[0] >= FLAGS)
            return refused(THISTLECART_FLAG_TOO_LARGE, place);
        if (byte >= NAND && (v[0] >= n || (byte != LATER && v[1] >= n)))
            return refused(THISTLECART_NOT_EARLIER, place);
        if ((byte == REACH && v[2] > WIDTH) || (byte == LATER && (v[1] == 0 || v[1] > DISTANCE)))
            return refused(THISTLECART_BAD_WIDTH, place);
        reaches += byte == REACH;
        distances += byte == LATER ? v[1] : 0;
        if (n == INSTRUCTIONS || reaches > COUNTERS || distances > DELAYS)
            return refused(THISTLECART_CODE_TOO_LARGE, place);
        code[n++] = (instruction){byte, v[0], v[1], v[2]};
    }
    *count = n;
    return 0;
}

// One frame through decoded code. A delay line is moved by a plain loop: most are short, and a call of memmove takes
// longer (bench/run and bench/figures/build.rs keep gcc from turning the loop into the call).
static inline bool step(const instruction *restrict code, size_t count, registers *restrict r, bool *restrict bits,
                        uint8_t frame) {
    uint16_t *counter = r->counters;
    bool *line = r->delays;
    for (size_t n = 0; n < count; n++) {
        const instruction *in = &code[n];
        switch (in->code) {
        case ONE:
            bits[n] = true;
            break;
        case FLAG:
            bits[n] = frame >> in->i & 1;
            break;
        case NAND:
            bits[n] = !(bits[in->i] & bits[in->j]);
            break;
        case REACH: {
            uint16_t c = *counter;
            if (bits[in->j])
                c = 1;
            else if (bits[in->i] && c != 0 && c <= in->w)
                c++;
            else
                c = 0;
            *counter++ = c;
            bits[n] = c != 0;
            break;
        }
        default:
            bits[n] = line[0];
            for (size_t p = 0; p + 1 < in->j; p++)
                line[p] = line[p + 1];
            line[in->j - 1] = bits[in->i];
            line += in->j;
        }
    }
    return bits[count - 1];
}

#endif
