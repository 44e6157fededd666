#include "traffic.h"

#include "tables.h"
#include "touches.h"

/* Any size of number, some of which would look small if they were cut to 8, 16 or 32 bits. */
static uint64_t wild_number(struct rng *rng)
{
    static const uint64_t sizes[] = {0, 1ull << 8, 1ull << 15, 1ull << 16, 1ull << 32, 1ull << 63};
    switch (rng_below(rng, 4)) {
    case 0:
        return sizes[rng_below(rng, 6)] + rng_below(rng, 10);
    case 1:
        return sizes[rng_below(rng, 6)] - 1 - rng_below(rng, 3);
    case 2:
        return rng_below(rng, 70);
    default:
        return rng_bits(rng) >> rng_below(rng, 64);
    }
}

static uint64_t name(struct rng *rng, const struct traffic *traffic, unsigned limit)
{
    return rng_chance(rng, traffic->wild) ? wild_number(rng) : rng_below(rng, limit);
}

static uint64_t hour(struct rng *rng, const struct traffic *traffic)
{
    return rng_chance(rng, traffic->wild) ? wild_number(rng) : some_hour(rng);
}

/* Few tries, about as many as are always enough, or any number. */
static uint64_t budget(struct rng *rng)
{
    switch (rng_below(rng, 4)) {
    case 0:
        return rng_below(rng, 30);
    case 1:
        return FC_ENOUGH - 1 + rng_below(rng, 3);
    case 2:
        return rng_below(rng, 300);
    default:
        return wild_number(rng);
    }
}

struct traffic some_traffic(struct rng *rng, unsigned sites, unsigned keys, unsigned wild)
{
    struct traffic traffic = {.sites = sites, .keys = keys, .wild = wild};
    for (int kind = PUT; kind < KINDS; kind++)
        traffic.weights[kind] = 1 + (unsigned)rng_below(rng, 8);
    traffic.weights[DELIVER] += 4; /* only among many does one wait for three sites or more */
    traffic.weights[SHORT_DELIVER] += 4;
    traffic.weights[DRAIN] = (unsigned)rng_below(rng, 2);
    traffic.weights[SHORT_DRAIN] = (unsigned)rng_below(rng, 2);
    traffic.weights[RETIRE] = (unsigned)rng_below(rng, 2);
    traffic.slow = rng_bits(rng) & rng_bits(rng);
    return traffic;
}

void keep_one_engine(struct traffic *traffic, bool short_lists)
{
    for (enum kind kind = OPEN; kind < KINDS; kind++)
        if (short_lists ? with_short_lists(kind) != kind : is_short(kind))
            traffic->weights[kind] = 0;
}

/* Mostly a live site, as far as the table is known. */
static uint64_t acting_site(struct rng *rng, const struct traffic *traffic)
{
    uint64_t site = name(rng, traffic, traffic->sites);
    for (int tries = 0; tries < 8; tries++) {
        bool retired = traffic->table != NULL && site < FC_SITES && is_retired(traffic->table, site);
        if (!retired || rng_chance(rng, 5))
            break;
        site = name(rng, traffic, traffic->sites);
    }
    return site;
}

static uint64_t origin_for(struct rng *rng, const struct traffic *traffic, uint64_t site)
{
    uint64_t origin = name(rng, traffic, traffic->sites);
    for (int tries = 0; tries < 4; tries++) {
        bool slow = site < FC_SITES && origin < FC_SITES && traffic->slow >> (8 * site + origin) & 1;
        if (origin != site && !(slow && rng_chance(rng, 95)))
            break;
        origin = name(rng, traffic, traffic->sites);
    }
    return origin;
}

void name_held(struct call *adopt, const uint8_t *table)
{
    size_t entry = entry_at(adopt->numbers[0], adopt->numbers[1]);
    adopt->numbers[2] = table[entry + RECORD_NAME];
    adopt->numbers[3] = clock_at(table, entry + RECORD_CLOCK);
}

/* The origin and clock of an adopt, mostly those that a look would answer; else one of them is another, or is no more
   than the same when cut to 8, 16 or 32 bits. */
static void name_pair(struct rng *rng, const struct traffic *traffic, struct call *adopt)
{
    static const uint64_t sizes[] = {1ull << 8, 1ull << 16, 1ull << 32, 1ull << 63};
    uint64_t *number = adopt->numbers;
    number[2] = name(rng, traffic, traffic->sites);
    number[3] = rng_below(rng, 4);
    if (traffic->table != NULL && number[0] < FC_SITES && number[1] < FC_KEYS)
        name_held(adopt, traffic->table);
    switch (rng_below(rng, 12)) {
    case 0:
        number[2] = name(rng, traffic, traffic->sites);
        break;
    case 1:
        number[2] += sizes[rng_below(rng, 4)];
        break;
    case 2:
        number[3] += 1 - 2 * rng_below(rng, 2);
        break;
    case 3:
        number[3] += sizes[rng_below(rng, 4)];
        break;
    case 4:
        number[3] = rng_chance(rng, 50) ? 0 : wild_number(rng);
        break;
    default:
        break;
    }
}

struct call some_call(struct rng *rng, const struct traffic *traffic)
{
    unsigned all = 0;
    for (int kind = 0; kind < KINDS; kind++)
        all += traffic->weights[kind];
    unsigned left = (unsigned)rng_below(rng, all);
    struct call call = {.kind = OPEN};
    while (left >= traffic->weights[call.kind])
        left -= traffic->weights[call.kind++];

    uint64_t *number = call.numbers;
    number[0] = call.kind == OPEN ? wild_number(rng) : acting_site(rng, traffic);
    switch (namesake(call.kind)) {
    case OPEN:
        number[1] = wild_number(rng);
        break;
    case RETIRE:
        break;
    case DELIVER:
        number[1] = origin_for(rng, traffic, number[0]);
        break;
    case DRAIN:
        number[1] = budget(rng);
        break;
    case COLD:
        number[1] = hour(rng, traffic);
        number[2] = rng_chance(rng, traffic->wild) ? wild_number(rng) : some_threshold(rng);
        break;
    case TOUCH:
        number[1] = name(rng, traffic, traffic->keys);
        number[2] = hour(rng, traffic);
        number[3] = name(rng, traffic, 4);
        number[4] = name(rng, traffic, 4);
        break;
    case ADOPT:
        number[1] = name(rng, traffic, traffic->keys);
        name_pair(rng, traffic, &call);
        break;
    default:
        number[1] = name(rng, traffic, traffic->keys);
        number[2] = namesake(call.kind) == PUT ? some_value(rng) : 0;
    }
    return call;
}
