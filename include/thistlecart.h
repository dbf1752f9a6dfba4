// Thistlecart: a proved library for clip rules, as C programs call it.
//
// A frame is one byte of eight flags; flag k is bit k. A clip is a row of frames, a byte each,
// and frame 0 is the earliest. A rule says which clips are right. The library loads rules, searches
// for a clip that satisfies a rule, emits a rule's code for the sequencer, runs such code over a
// clip, and makes new rules.
//
// Every function takes byte buffers, each as a pointer and a length, and answers one 64-bit word:
// what was asked for, or a refusal with its number and place. The functions at the end of this file
// read the word.
//
// What a caller keeps to:
//   - a buffer really has the stated length, and its bytes may be read (and written, where the
//     function writes it);
//   - a buffer that the function writes overlaps no other buffer of the call;
//   - a pointer is NULL only where its length is 0.
// Nothing else is asked: any bytes may stand in any buffer, and no buffer needs an alignment.
//
// The functions keep no state, allocate nothing, use less than 32 kilobytes of stack, and always
// return. Threads may call them at the same time, as long as no buffer that one call writes is in
// use by another.
//
// A refusal changes no byte of any buffer, except that refusal 15 leaves the table all zero.
//
//
// Rules
//
// A rule is a list of items, operands before operators; of two operands the left comes first. On
// the clip from frame i on, which has n frames (i to the end, at least one):
//
//   bytes   item                holds
//   10      true                always
//   11      false               never
//   12 k    flag k              if frame i has flag k
//   20      not r               if r does not
//   21      l and r             if both hold
//   22      l or r              if one of them holds, or both
//   30 a b  l until[a,b] r      if for some p with a <= p <= b and p < n, r holds on the clip from
//                               i+p on, and l on the clip from i+j on for each j with a <= j < p
//   31 a b  l release[a,b] r    if (not l) until[a,b] (not r) does not; so it holds if n <= a
//   32 a b  eventually[a,b] r   if true until[a,b] r does
//   33 a b  globally[a,b] r     if false release[a,b] r does; so it holds if n <= a
//
// Items are given in hex. k, a and b are numbers: groups of seven bits, the lowest group first; the
// top bit of a byte says that another follows. A number takes its shortest form, at most two bytes.
// A flag is 0 to 7; bounds are 0 to 255 with a <= b. A rule has at most 64 items, of which at most
// 16 are timed (30 to 33), and the lower bounds a of the timed items add up to at most 256.
//
// A clip satisfies a rule if the rule holds on the clip from frame 0 on. The horizon is 0 for true,
// false and a flag; the largest operand's for not, and, or; and b plus the largest operand's for a
// timed item. A clip with more frames than the horizon satisfies a rule exactly if its first
// horizon + 1 frames do.
//
//
// Code
//
// The sequencer takes the frames of a clip from the last to the first. At each frame every
// instruction in turn writes one bit, known by the instruction's number from 0; the last
// instruction's bit is the verdict on that frame.
//
//   bytes      instruction   its bit
//   01         ONE           1
//   02 k       FLAG          flag k of the frame
//   03 i j     NAND          0 if bits i and j are both 1, else 1
//   04 i j w   REACH         if bit j is 1, the instruction's counter becomes 0; else if bit i is 1
//                            and the counter is not "none" and below w, it rises by one; else it
//                            becomes "none". The bit is 1 unless the counter is "none"
//   05 i d     LATER         bit i as it was d frames ago in reading order; 0 if there were fewer
//
// Counters are "none" at first. Numbers are written as in rules. i and j are earlier instructions,
// w is 0 to 255, d is 1 to 255. Code has 1 to 320 instructions, of which at most 16 are REACH, and
// the distances d add up to at most 256.

#ifndef THISTLECART_H
#define THISTLECART_H

#include <stddef.h>
#include <stdint.h>

#ifdef __cplusplus
extern "C" {
#endif

// The limits of rules and of code: the most items of a rule, how many of them may be timed, what
// their lower bounds may add up to, and the largest bound; and the most instructions of code. At
// most so many instructions are REACH as items are timed, and distances add up to no more than
// lower bounds do.
#define THISTLECART_MOST_ITEMS 64
#define THISTLECART_MOST_TIMED 16
#define THISTLECART_MOST_LOWER 256
#define THISTLECART_MOST_BOUND 255
#define THISTLECART_MOST_INSTRUCTIONS 320

// The most frames of a clip.
#define THISTLECART_MOST_FRAMES 65535

// Lengths in bytes that always suffice: for the witness buffer of a search (so it is never refused
// by 14), and for an output buffer that takes code or a new rule (so it is never refused by 16).
//
// The largest horizon is that of timed items inside each other. An item has three instructions, of
// five bytes, and a timed one two more, one of which has seven. An item has two bytes, and a timed
// one three more.
#define THISTLECART_WITNESS_LENGTH (THISTLECART_MOST_TIMED * THISTLECART_MOST_BOUND + 1)
#define THISTLECART_CODE_LENGTH \
    (5 * (3 * THISTLECART_MOST_ITEMS + 2 * THISTLECART_MOST_TIMED) + 2 * THISTLECART_MOST_TIMED)
#define THISTLECART_RULE_LENGTH (2 * THISTLECART_MOST_ITEMS + 3 * THISTLECART_MOST_TIMED)

// A table of the search: the bytes of a record, the most records that are used, and the length of a
// table with so many.
#define THISTLECART_RECORD_LENGTH 80
#define THISTLECART_MOST_RECORDS 65536
#define THISTLECART_TABLE_LENGTH (THISTLECART_MOST_RECORDS * THISTLECART_RECORD_LENGTH)

// The numbers of the refusals. The place of 2 to 8 and of 10 to 12 is the offset of the first byte
// of the item (or instruction) at fault, that of 9 is the rule's length, that of the others is 0.
//
// A rule is judged item by item. An item passes all its own checks before the next is looked at: 2,
// then 3 or 4 number by number, then 5, 6, 7, 8. When all items have passed, 9. Code is judged in
// the same way: 2, then 3 or 4 number by number, then 5, 10, 11, 12.
enum thistlecart_refusal_number {
    THISTLECART_EMPTY = 1,            // the rule or the code has 0 bytes
    THISTLECART_UNKNOWN_CODE = 2,     // a byte that begins no item (or no instruction)
    THISTLECART_CUT_SHORT = 3,        // the bytes end inside an item
    THISTLECART_NOT_SHORTEST = 4,     // a number not in its shortest form, or of over two bytes
    THISTLECART_FLAG_TOO_LARGE = 5,   // a flag above 7
    THISTLECART_BAD_WINDOW = 6,       // a > b, or b > 255
    THISTLECART_TOO_FEW_OPERANDS = 7, // an operator has too few operands before it
    THISTLECART_RULE_TOO_LARGE = 8,   // a 65th item, a 17th timed item, or lower bounds above 256
    THISTLECART_NOT_ONE_VALUE = 9,    // not exactly one value is left at the end of the rule
    THISTLECART_NOT_EARLIER = 10,     // an operand that is not an earlier instruction
    THISTLECART_BAD_WIDTH = 11,       // w > 255, d = 0 or d > 255
    THISTLECART_CODE_TOO_LARGE = 12,  // a 321st instruction, a 17th REACH, or distances above 256
    THISTLECART_BAD_CLIP = 13,        // the clip has no frame, or more than 65,535
    THISTLECART_SHORT_WITNESS = 14,   // the witness buffer is shorter than horizon + 1
    THISTLECART_NO_ROOM = 15,         // the table has too few records for the states
    THISTLECART_SHORT_OUTPUT = 16     // the output buffer is shorter than the answer
};

// Which bytes a maker refuses.
enum thistlecart_which_number {
    THISTLECART_FIRST = 1,  // the first rule, or the only one
    THISTLECART_SECOND = 2, // the second rule
    THISTLECART_NEW = 3     // the new bytes
};

// Loads a rule: judges its bytes and works out its horizon.
//
// Refuses the rule (1 to 9), as said above. Nothing is written.
//
// Answers its items (thistlecart_items) and its horizon (thistlecart_horizon).
uint64_t thistlecart_load(const uint8_t *rule, size_t rule_length);

// Searches for a clip that satisfies a rule, and shows the first of the shortest ones. Clips of the
// same length are compared frame by frame from the last frame to the first; at the first difference
// the smaller byte comes first.
//
// The table is the search's workspace. It has room for table_length / 80 records, rounded down, but
// for no more than 65,536; what it holds before does not matter. A state is what the sequencer's
// registers hold after the frames of a clip, under the rule's code. The states counted are those
// that the clips shorter than the shortest satisfying one lead to (all clips, if none satisfies),
// the clip of no frames among them, so there is one at least. Each of them needs a record. The time
// grows with their number: a full table takes seconds if the rule names all eight flags, and about
// half as long for each flag that it does not name.
//
// Refuses, in this order: the rule (1 to 9); a witness buffer shorter than horizon + 1 (14); a
// table with fewer records than states (15). Refusals 1 to 9 and 14 leave both buffers as they
// were; 15 leaves the witness buffer as it was and every byte of the table zero.
//
// Answers whether a clip satisfies the rule (thistlecart_met), the number of its frames
// (thistlecart_length, 0 if there is none) and the number of states (thistlecart_states). If there
// is one, it stands in the first bytes of the witness buffer, in frame order, and the bytes behind
// it are as they were; if there is none, the whole witness buffer is as it was. Every byte of the
// table is zero, also behind the last record.
uint64_t thistlecart_search(const uint8_t *rule, size_t rule_length, uint8_t *table,
                            size_t table_length, uint8_t *witness, size_t witness_length);

// Emits the code of a rule. A run of it over any clip says for each frame whether the rule holds on
// the clip from there on.
//
// Refuses, in this order: the rule (1 to 9); an output buffer shorter than the code (16). Then out
// is as it was.
//
// Answers the length of the code (thistlecart_length), which stands in the first bytes of out; the
// bytes behind it are as they were.
uint64_t thistlecart_emit(const uint8_t *rule, size_t rule_length, uint8_t *out, size_t out_length);

// Runs code over a clip. The code may be any that is accepted, emitted or not.
//
// Refuses, in this order: the code (1 to 5 and 10 to 12); a clip without a frame or with more than
// 65,535 (13); an output buffer shorter than the clip (16). Then out is as it was.
//
// Answers 0, and out holds a byte for each frame, in frame order: 1 or 0, the verdict on that
// frame. The bytes behind them are as they were.
uint64_t thistlecart_run(const uint8_t *code, size_t code_length, const uint8_t *clip,
                         size_t clip_length, uint8_t *out, size_t out_length);

// The makers put an operator behind one rule or two: a new rule.
//
// They refuse, in this order: the first rule (1 to 9); the second rule, if there is one (1 to 9);
// the new bytes, as a rule, which can only be too large (8); an output buffer shorter than the new
// bytes (16). thistlecart_which says which it was, THISTLECART_NEW for 16 too, and the place is an
// offset in those bytes: that of a refusal of the new bytes may lie in the copy of the second rule.
// Then out is as it was.
//
// They answer the length of the new rule (thistlecart_length), which stands in the first bytes of
// out; the bytes behind it are as they were.

// Holds exactly where the rule does not: the rule, then 20.
uint64_t thistlecart_negate(const uint8_t *rule, size_t rule_length, uint8_t *out,
                            size_t out_length);

// Holds where the rule does from the next frame on, and where there is no next frame: the rule,
// then 33 01 01.
uint64_t thistlecart_next(const uint8_t *rule, size_t rule_length, uint8_t *out, size_t out_length);

// Holds where both rules do: the first rule, the second rule, then 21. The two may be the same
// buffer.
uint64_t thistlecart_both(const uint8_t *first, size_t first_length, const uint8_t *second,
                          size_t second_length, uint8_t *out, size_t out_length);

// Holds where one of the rules does, or both: the first rule, the second rule, then 22. The two may
// be the same buffer.
uint64_t thistlecart_either(const uint8_t *first, size_t first_length, const uint8_t *second,
                            size_t second_length, uint8_t *out, size_t out_length);

// Reading the word. Its lowest byte is the refusal's number, 0 where there is none.
//
//   accepted by           the word holds
//   load                  items in bits 8 to 23, horizon in bits 24 and up
//   search                met in bit 8, length in bits 16 to 31, states in bits 32 and up
//   emit and the makers   length in bits 8 and up
//   run                   nothing more: the word is 0
//
//   refused by            the word holds
//   any                   place in bits 8 to 39
//   the makers            also which in bits 40 and up
//
// Items, horizon, met, length and states of a refusal are 0, and so are place and which of a word
// without one. Of an accepted word, ask only for what the function answers.

// The number of the refusal, one of enum thistlecart_refusal_number; 0 if there is none.
static inline uint64_t thistlecart_refusal(uint64_t word) {
    return word & 0xff;
}

// The place of the refusal.
static inline uint64_t thistlecart_place(uint64_t word) {
    return thistlecart_refusal(word) != 0 ? (word >> 8) & 0xffffffff : 0;
}

// Which bytes a maker refuses, one of enum thistlecart_which_number.
static inline uint64_t thistlecart_which(uint64_t word) {
    return thistlecart_refusal(word) != 0 ? word >> 40 : 0;
}

// The items of the rule that is loaded.
static inline uint64_t thistlecart_items(uint64_t word) {
    return thistlecart_refusal(word) != 0 ? 0 : (word >> 8) & 0xffff;
}

// The horizon of the rule that is loaded.
static inline uint64_t thistlecart_horizon(uint64_t word) {
    return thistlecart_refusal(word) != 0 ? 0 : word >> 24;
}

// 1 if the search finds a clip that satisfies the rule, 0 if there is none.
static inline uint64_t thistlecart_met(uint64_t word) {
    return thistlecart_refusal(word) != 0 ? 0 : (word >> 8) & 1;
}

// The frames of the clip that the search finds, the bytes of the code, or the bytes of the new
// rule. A search counts one state at least, so its word has a bit above bit 31, and no other word
// with a length has one.
static inline uint64_t thistlecart_length(uint64_t word) {
    if (thistlecart_refusal(word) != 0) {
        return 0;
    }
    return word >> 32 == 0 ? word >> 8 : (word >> 16) & 0xffff;
}

// The states that the search counts.
static inline uint64_t thistlecart_states(uint64_t word) {
    return thistlecart_refusal(word) != 0 ? 0 : word >> 32;
}

#ifdef __cplusplus
}
#endif

#endif
