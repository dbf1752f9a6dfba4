// Writes the header's constants as Rust has them.
#include <stdio.h>

#include "thistlecart.h"

#define CONSTANT(name) printf("pub const %s: usize = %zu;\n", #name, (size_t)THISTLECART_##name)

int main(void) {
    CONSTANT(MOST_ITEMS);
    CONSTANT(MOST_TIMED);
    CONSTANT(MOST_FRAMES);
    CONSTANT(WITNESS_LENGTH);
    CONSTANT(CODE_LENGTH);
    CONSTANT(RULE_LENGTH);
    CONSTANT(RECORD_LENGTH);
    CONSTANT(MOST_RECORDS);
    CONSTANT(TABLE_LENGTH);
    return 0;
}
