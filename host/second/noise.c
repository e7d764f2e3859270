#include "noise.h"

static uint64_t state = 1;

void noise_seed(uint64_t seed)
{
    state = seed * UINT64_C(0x9E3779B97F4A7C15) + 1;
    if (state == 0)
        state = 1;
    for (int i = 0; i < 8; i++)
        noise();
}

/* xorshift64* */
uint64_t noise(void)
{
    state ^= state >> 12;
    state ^= state << 25;
    state ^= state >> 27;
    return state * UINT64_C(0x2545F4914F6CDD1D);
}

uint32_t below(uint32_t limit)
{
    return (uint32_t)((noise() >> 32) % limit);
}

int64_t between(int64_t low, int64_t high)
{
    uint64_t width = (uint64_t)(high - low) + 1;
    return low + (int64_t)((noise() >> 16) % width);
}

bool chance(uint32_t percent)
{
    return below(100) < percent;
}

void noise_fill(uint8_t *bytes, size_t n)
{
    for (size_t i = 0; i < n; i++)
        bytes[i] = (uint8_t)(noise() >> 40);
}

uint32_t one_of(const uint32_t *list, uint32_t n)
{
    return list[below(n)];
}
