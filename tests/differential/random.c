/* Random numbers. */
#include "parts.h"

static uint64_t random_state;

void random_start(uint64_t seed)
{
    random_state = seed;
}

static uint64_t random64(void)
{
    uint64_t z = random_state += 0x9E3779B97F4A7C15u;

    z = (z ^ z >> 30) * 0xBF58476D1CE4E5B9u;
    z = (z ^ z >> 27) * 0x94D049BB133111EBu;
    return z ^ z >> 31;
}

uint32_t random32(void)
{
    return (uint32_t)(random64() >> 32);
}

uint32_t below(uint32_t n)
{
    return (uint32_t)((uint64_t)random32() * n >> 32);
}

int one_in(uint32_t n)
{
    return below(n) == 0;
}

uint32_t pick(const uint32_t *from, uint32_t n)
{
    return from[below(n)];
}
