// The search in C, as bench/figures calls it.
#ifndef SEARCH_H
#define SEARCH_H

#include <stddef.h>
#include <stdint.h>

// What a search comes to. The trials are the pairs of a state and one of 256 frame bytes that it steps through.
typedef struct {
    uint64_t met;     // 1 if a clip satisfies the rule, else 0
    uint64_t no_room; // 1 if there are more states than records, else 0; then nothing but the trials is said
    uint64_t length;  // the frames of the clip, 0 if there is none
    uint64_t states;
    uint64_t trials;
} search_answer;

// Searches for the first clip on which code gives 1 at its first frame, and writes it to the witness buffer, which is
// long enough. The code is emitted by the library, so it is accepted. Only one search runs at a time, as its tables are
// static.
search_answer machine_search(const uint8_t *code, size_t code_length, uint8_t *witness);

#endif
