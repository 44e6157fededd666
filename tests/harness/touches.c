#include "touches.h"

#include "forkcanyon.h"

uint16_t some_hour(struct rng *rng)
{
    static const uint16_t edges[] = {0, 24, 32743, 32767, 32791, 65511, 65535};
    if (rng_chance(rng, 30))
        return (uint16_t)rng_bits(rng);
    return (uint16_t)(edges[rng_below(rng, 7)] + rng_below(rng, 3));
}

unsigned some_threshold(struct rng *rng)
{
    static const unsigned edges[] = {1, 2, 24, 25, 32766, 32767};
    return rng_chance(rng, 30) ? 1 + (unsigned)rng_below(rng, 32767) : edges[rng_below(rng, 6)];
}

uint32_t some_value(struct rng *rng)
{
    if (rng_chance(rng, 20))
        return (uint32_t)rng_bits(rng);
    uint32_t value = fc_touch_of(some_hour(rng), (unsigned)rng_below(rng, 4), (unsigned)rng_below(rng, 4));
    return rng_chance(rng, 20) ? value ^ 1u << rng_below(rng, 16) : value;
}
