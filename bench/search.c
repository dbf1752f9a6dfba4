// The search in C, written for speed: states are packed into words, found again by an open-addressing hash table, and
// stepped by bench/sequencer.h. By length, states in the order of their first clips, bytes 0 to 255, up to the first
// output 1.
#include <string.h>

#include "search.h"
#include "sequencer.h"

// A word has so many bits, and the counters come before the delay bits.
enum {
    MOST_RECORDS = THISTLECART_MOST_RECORDS,
    SLOTS = 4 * MOST_RECORDS,
    BITS = 64,
    COUNTER_WORDS = COUNTERS * (int)sizeof(uint16_t) * 8 / BITS,
    WORDS = COUNTER_WORDS + DELAYS / BITS
};

// A state: all registers, the counters in the first words and the delay bits in the others.
typedef struct {
    uint64_t words[WORDS];
} key;

// The first clip of a state is a frame before the first clip of an earlier state.
typedef struct {
    uint32_t earlier;
    uint8_t frame;
} origin;

static key keys[MOST_RECORDS];
static origin origins[MOST_RECORDS];
static size_t records;

// The number of a record and 1 more, or 0 for none.
static uint32_t slots[SLOTS];

// Eight delay bits, a byte each, as one byte: the multiplication brings them together in the highest.
static const uint64_t gather = 0x0102040810204080;

static key pack(const registers *r, size_t delays) {
    key k = {{0}};
    memcpy(k.words, r->counters, sizeof r->counters);
    for (size_t n = 0; n < delays; n += 8) {
        uint64_t eight;
        memcpy(&eight, &r->delays[n], sizeof eight);
        k.words[COUNTER_WORDS + n / BITS] |= eight * gather >> (BITS - 8) << n % BITS;
    }
    return k;
}

// Multiplies and mixes word by word.
static size_t slot_of(const key *k) {
    uint64_t hash = 0;
    for (int n = 0; n < WORDS; n++) {
        hash = (hash ^ k->words[n]) * 0x9e3779b97f4a7c15;
        hash ^= hash >> 32;
    }
    return hash % SLOTS;
}

// Stores a state unless it is known. Answers false if it is not, and there is no room.
static bool store(const key *k, origin from) {
    size_t slot = slot_of(k);
    for (; slots[slot] != 0; slot = (slot + 1) % SLOTS)
        if (memcmp(&keys[slots[slot] - 1], k, sizeof *k) == 0)
            return true;
    if (records == MOST_RECORDS)
        return false;
    keys[records] = *k;
    origins[records] = from;
    slots[slot] = (uint32_t)++records;
    return true;
}

// Makes the registers of a record.
static registers unpack(const key *k, size_t delays) {
    registers r;
    memset(&r, 0, sizeof r);
    memcpy(r.counters, k->words, sizeof r.counters);
    for (size_t n = 0; n < delays; n++)
        r.delays[n] = k->words[COUNTER_WORDS + n / BITS] >> n % BITS & 1;
    return r;
}

// Writes the clip of a frame before the first clip of a state. Answers its length.
static size_t write_clip(uint8_t *witness, uint8_t frame, uint32_t state) {
    size_t length = 0;
    witness[length++] = frame;
    for (; state != 0; state = origins[state].earlier)
        witness[length++] = origins[state].frame;
    return length;
}

search_answer machine_search(const uint8_t *code, size_t code_length, uint8_t *witness) {
    search_answer answer = {0, 0, 0, 0, 0};
    instruction decoded[INSTRUCTIONS];
    bool bits[INSTRUCTIONS];
    size_t count = 0, delays = 0;
    if (decode(code, code_length, decoded, &count) != 0)
        return answer;
    for (size_t n = 0; n < count; n++)
        delays += decoded[n].code == LATER ? decoded[n].j : 0;
    // Only the registers in use are copied for a trial; the others stay 0.
    size_t used = offsetof(registers, delays) + delays;

    memset(slots, 0, sizeof slots);
    records = 0;
    key fresh = {{0}};
    store(&fresh, (origin){0, 0});
    bool room = true;
    for (size_t first = 0, end = 1; room && first < end; first = end, end = records) {
        for (size_t state = first; state < end; state++) {
            registers before = unpack(&keys[state], delays), after = before;
            for (unsigned frame = 0; frame < BYTES; frame++) {
                memcpy(&after, &before, used);
                answer.trials++;
                if (step(decoded, count, &after, bits, (uint8_t)frame)) {
                    answer.met = 1;
                    answer.length = write_clip(witness, (uint8_t)frame, (uint32_t)state);
                    answer.states = end;
                    return answer;
                }
                key k = pack(&after, delays);
                room &= store(&k, (origin){(uint32_t)state, (uint8_t)frame});
            }
        }
        answer.states = records;
    }
    answer.no_room = !room;
    return answer;
}
