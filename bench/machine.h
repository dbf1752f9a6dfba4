// Two machines with one interface: the proved library's run, and the same run written in C.
#include "../include/thistlecart.h"

// Runs code over a clip and writes a verdict for each frame. The answer is 0, or a refusal: its number in the lowest
// byte, its place in bits 8 to 39.
typedef uint64_t run_function(const uint8_t *code, size_t code_len, const uint8_t *clip, size_t clip_len, uint8_t *out,
                              size_t out_len);

// bench/machine.c
run_function machine_run;
