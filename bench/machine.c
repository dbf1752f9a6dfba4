// The run in C: the sequencer of bench/sequencer.h over a clip, from the last frame to the first.
#include <string.h>

#include "machine.h"
#include "sequencer.h"

uint64_t machine_run(const uint8_t *code, size_t code_len, const uint8_t *clip, size_t clip_len, uint8_t *out,
                     size_t out_len) {
    instruction decoded[INSTRUCTIONS];
    size_t count;
    uint64_t refusal = decode(code, code_len, decoded, &count);
    if (refusal)
        return refusal;
    if (clip_len == 0 || clip_len > FRAMES)
        return refused(THISTLECART_BAD_CLIP, 0);
    if (out_len < clip_len)
        return refused(THISTLECART_SHORT_OUTPUT, 0);
    registers r;
    bool bits[INSTRUCTIONS];
    memset(&r, 0, sizeof r);
    for (size_t n = clip_len; n-- > 0;)
        out[n] = step(decoded, count, &r, bits, clip[n]);
    return 0;
}
