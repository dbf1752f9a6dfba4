// The header's accessors as functions that can be linked.
#include "thistlecart.h"

#define ACCESSOR(name) \
    uint64_t accessor_##name(uint64_t word); \
    uint64_t accessor_##name(uint64_t word) { \
        return thistlecart_##name(word); \
    }

ACCESSOR(refusal)
ACCESSOR(place)
ACCESSOR(which)
ACCESSOR(items)
ACCESSOR(horizon)
ACCESSOR(met)
ACCESSOR(length)
ACCESSOR(states)
