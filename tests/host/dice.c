/* xorshift64*: a small generator of numbers, the same for a seed on every machine. */
#include "dice.h"

static uint64_t state = 1;

void dice_seed(uint64_t seed)
{
    state = seed * 0x9E3779B97F4A7C15u + 0x1234567u;
    if (state == 0)
        state = 1;
}

uint64_t dice(void)
{
    state ^= state >> 12;
    state ^= state << 25;
    state ^= state >> 27;
    return state * 0x2545F4914F6CDD1Du;
}

uint32_t below(uint32_t n)
{
    return (uint32_t)((dice() >> 32) * n >> 32);
}

bool one_in(uint32_t n)
{
    return n != 0 && below(n) == 0;
}
