/* Numbers that the seed decides: xorshift64*. */

#include "fuzz.h"

static uint64_t state = 1;

/* The state is never 0, which would stay 0. */
void seed_random(uint64_t seed) {
    state = seed * 0x9e3779b97f4a7c15u | 1;
}

static uint64_t next_random(void) {
    state ^= state >> 12;
    state ^= state << 25;
    state ^= state >> 27;
    return state * 0x2545f4914f6cdd1du;
}

/* A number from 0 on that is less than `end`. */
size_t random_below(size_t end) {
    return (size_t)(next_random() >> 32) % end;
}

bool one_in(size_t chances) {
    return random_below(chances) == 0;
}
