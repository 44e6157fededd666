#include "tables.h"

#include "touches.h"

#include <string.h>

static void set_value(uint8_t *table, size_t at, uint32_t value)
{
    for (size_t byte = 0; byte < 4; byte++)
        table[at + byte] = (uint8_t)(value >> (24 - 8 * byte));
}

/* How many puts an origin has made: few, any number, or close to the end of the clocks. */
static unsigned some_count(struct rng *rng)
{
    switch (rng_below(rng, 4)) {
    case 0:
        return (unsigned)rng_below(rng, 20);
    case 1:
        return (unsigned)rng_below(rng, FC_CLOCKS + 1);
    case 2:
        return (unsigned)rng_below(rng, 2000);
    default:
        return FC_CLOCKS - (unsigned)rng_below(rng, 20) * (unsigned)rng_below(rng, 2);
    }
}

/* None, some or all but one. */
static uint8_t some_retired(struct rng *rng, size_t sites)
{
    unsigned all = (1u << sites) - 1, spared = 1u << rng_below(rng, sites);
    if (rng_chance(rng, 50))
        return 0;
    return (uint8_t)((rng_chance(rng, 20) ? all : (unsigned)rng_bits(rng) & all) & ~spared);
}

/* What a retired site has applied may be anything up to what the origin has put. */
static void set_applied(struct rng *rng, uint8_t *table, size_t sites)
{
    unsigned calm = (unsigned)rng_below(rng, 101);
    for (size_t origin = 0; origin < sites; origin++) {
        unsigned own = some_count(rng);
        for (size_t site = 0; site < sites; site++) {
            unsigned lag = rng_chance(rng, calm)  ? (unsigned)rng_below(rng, 3)
                           : rng_chance(rng, 20) ? FC_PLACES
                                                 : (unsigned)rng_below(rng, FC_PLACES + 1);
            if (is_retired(table, site) && rng_chance(rng, 50))
                lag = (unsigned)rng_below(rng, own + 1);
            if (site == origin)
                lag = 0;
            set_clock(table, applied_at(site, origin), lag > own ? 0 : own - lag);
        }
    }
}

/* A dependency vector around what the sites have applied, so that some deliveries wait and some do not. */
static void set_vector(struct rng *rng, uint8_t *table, size_t at, size_t sites, unsigned ease)
{
    for (size_t column = 0; column < FC_SITES; column++) {
        unsigned own = clock_at(table, applied_at(column, column));
        unsigned back = rng_chance(rng, ease) ? FC_PLACES : (unsigned)rng_below(rng, FC_PLACES + 4);
        unsigned clock = back > own ? 0 : own - back;
        if (column >= sites || rng_chance(rng, 2))
            clock = rng_chance(rng, 90) ? 0 : (unsigned)rng_bits(rng) & 0xFFFF;
        set_clock(table, at + RECORD_VECTOR + 2 * column, clock);
    }
}

static void set_entries(struct rng *rng, uint8_t *table, size_t sites, size_t keys)
{
    unsigned written = (unsigned)rng_below(rng, 101);
    for (size_t site = 0; site < sites; site++) {
        for (size_t key = 0; key < keys; key++) {
            size_t at = entry_at(site, key), origin = rng_below(rng, sites);
            unsigned applied = clock_at(table, applied_at(site, origin));
            if (applied == 0 || !rng_chance(rng, written)) {
                memset(table + at, 0, RECORD);
                continue;
            }
            /* Its first, its last or any clock; the zero byte is garbage already. */
            unsigned clock = rng_chance(rng, 30) ? applied : 1 + (unsigned)rng_below(rng, applied);
            set_value(table, at, some_value(rng));
            table[at + RECORD_NAME] = (uint8_t)origin;
            set_clock(table, at + RECORD_CLOCK, clock);
            set_vector(rng, table, at, sites, 50);
        }
    }
}

static void set_updates(struct rng *rng, uint8_t *table, size_t sites, size_t keys)
{
    unsigned ease = 50 + (unsigned)rng_below(rng, 51);
    for (size_t origin = 0; origin < sites; origin++) {
        unsigned own = clock_at(table, applied_at(origin, origin)), least = own;
        for (size_t site = 0; site < sites; site++) {
            unsigned applied = clock_at(table, applied_at(site, origin));
            least = applied < least && !is_retired(table, site) ? applied : least;
        }
        for (unsigned clock = least + 1; clock <= own; clock++) {
            size_t at = update_at(origin, clock);
            table[at + RECORD_NAME] = (uint8_t)rng_below(rng, keys);
            set_clock(table, at + RECORD_CLOCK, clock);
            set_vector(rng, table, at, sites, ease);
        }
    }
}

void make_sound_table(struct rng *rng, uint8_t *table)
{
    size_t sites = 1 + rng_below(rng, FC_SITES);
    size_t keys = rng_chance(rng, 50) ? 1 + rng_below(rng, 4) : 1 + rng_below(rng, FC_KEYS);
    if (rng_chance(rng, 70))
        rng_fill(rng, table, FC_TABLE_BYTES);
    else
        memset(table, 0, FC_TABLE_BYTES);
    table[0] = (uint8_t)sites;
    table[1] = (uint8_t)keys;
    table[RETIRED] = some_retired(rng, sites);
    table[3] = 0;
    set_applied(rng, table, sites);
    set_entries(rng, table, sites, keys);
    set_updates(rng, table, sites, keys);
}

/* A place that soundness reads: the header, a count, an entry's head, an update's head. */
static size_t some_place(struct rng *rng, const uint8_t *table)
{
    size_t sites = table[0] ? table[0] : 1, keys = table[1] ? table[1] : 1;
    size_t site = rng_below(rng, sites) % FC_SITES, key = rng_below(rng, keys) % FC_KEYS;
    switch (rng_below(rng, 5)) {
    case 0:
        return rng_below(rng, 4);
    case 1:
        return applied_at(site, rng_below(rng, FC_SITES)) + rng_below(rng, 2);
    case 2:
        return entry_at(site, key) + rng_below(rng, RECORD);
    case 3:
        return update_at(site, 1 + (unsigned)rng_below(rng, FC_PLACES)) + RECORD_NAME + rng_below(rng, 4);
    default:
        return rng_below(rng, FC_TABLE_BYTES);
    }
}

void damage_table(struct rng *rng, uint8_t *table)
{
    for (uint64_t times = 1 + rng_below(rng, 2) * rng_below(rng, 4); times > 0; times--) {
        size_t at = some_place(rng, table);
        if (rng_chance(rng, 50))
            table[at] ^= (uint8_t)(1u << rng_below(rng, 8));
        else
            table[at] = (uint8_t)rng_bits(rng);
    }
}
