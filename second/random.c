/* Seeded numbers (splitmix64): the same seed gives the same inputs everywhere. */
#include "second.h"

static u64 state;

void seed_random(u64 seed, u64 number)
{
    state = seed * 0x9e3779b97f4a7c15u + number;
    random_bits();
    state ^= number << 32;
    random_bits();
}

u64 random_bits(void)
{
    state += 0x9e3779b97f4a7c15u;
    u64 z = state;
    z = (z ^ z >> 30) * 0xbf58476d1ce4e5b9u;
    z = (z ^ z >> 27) * 0x94d049bb133111ebu;
    return z ^ z >> 31;
}

u32 below(u32 limit)
{
    return (u32)((random_bits() >> 16) % limit);
}

int chance(u32 percent)
{
    return below(100) < percent;
}
