/* Random numbers that are the same for the same seed (splitmix64). */
#ifndef RNG_H
#define RNG_H

#include <stdbool.h>
#include <stddef.h>
#include <stdint.h>

struct rng {
    uint64_t state;
};

static inline uint64_t rng_bits(struct rng *rng)
{
    uint64_t z = rng->state += 0x9E3779B97F4A7C15u;
    z = (z ^ z >> 30) * 0xBF58476D1CE4E5B9u;
    z = (z ^ z >> 27) * 0x94D049BB133111EBu;
    return z ^ z >> 31;
}

static inline uint64_t rng_below(struct rng *rng, uint64_t limit)
{
    return rng_bits(rng) % limit;
}

static inline bool rng_chance(struct rng *rng, unsigned percent)
{
    return rng_below(rng, 100) < percent;
}

static inline void rng_fill(struct rng *rng, uint8_t *bytes, size_t length)
{
    for (size_t at = 0; at < length; at++)
        bytes[at] = (uint8_t)rng_bits(rng);
}

#endif
