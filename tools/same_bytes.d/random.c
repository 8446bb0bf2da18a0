#include "random.h"

static uint64_t state;

void random_from(uint64_t seed)
{
    state = seed;
}

uint64_t random_number(void)
{
    state += 0x9E3779B97F4A7C15;
    uint64_t z = state;
    z = (z ^ (z >> 30)) * 0xBF58476D1CE4E5B9;
    z = (z ^ (z >> 27)) * 0x94D049BB133111EB;
    return z ^ (z >> 31);
}

size_t below(size_t n)
{
    return (size_t)(random_number() % n);
}

size_t within(size_t low, size_t high)
{
    return low + below(high - low + 1);
}

int chance(size_t percent)
{
    return below(100) < percent;
}
