// The sizes of the machine in C: the library's header has them all but for the flags of a frame.
#ifndef LIMITS_H
#define LIMITS_H

#include "../include/thistlecart.h"

enum {
    FLAGS = 8,
    BYTES = 1 << FLAGS,
    INSTRUCTIONS = THISTLECART_MOST_INSTRUCTIONS,
    COUNTERS = THISTLECART_MOST_TIMED,
    DELAYS = THISTLECART_MOST_LOWER,
    WIDTH = THISTLECART_MOST_BOUND,
    DISTANCE = THISTLECART_MOST_BOUND,
    FRAMES = THISTLECART_MOST_FRAMES
};

#endif
