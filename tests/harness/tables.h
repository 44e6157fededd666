/* Tables to call upon: document 01's layout once more, and ways to make sound and damaged ones. */
#ifndef TABLES_H
#define TABLES_H

#include "forkcanyon.h"
#include "rng.h"

enum {
    RETIRED = 2,
    APPLIED = 4,
    DEPENDS = 132,
    STORE = 260,
    UPDATES = 12548,
    RECORD = 24,
    RECORD_NAME = 4, /* an entry's origin, an update's key */
    RECORD_CLOCK = 6,
    RECORD_VECTOR = 8,
    VECTOR = 2 * FC_SITES
};

/* Of a site below 8. */
static inline bool is_retired(const uint8_t *table, size_t site)
{
    return (table[RETIRED] >> site & 1) != 0;
}

static inline size_t applied_at(size_t site, size_t origin)
{
    return APPLIED + 2 * (FC_SITES * site + origin);
}

static inline size_t depends_at(size_t site, size_t column)
{
    return DEPENDS + 2 * (FC_SITES * site + column);
}

static inline size_t entry_at(size_t site, size_t key)
{
    return STORE + RECORD * (FC_KEYS * site + key);
}

static inline size_t update_at(size_t origin, unsigned clock)
{
    return UPDATES + RECORD * (FC_PLACES * origin + (clock - 1) % FC_PLACES);
}

static inline unsigned clock_at(const uint8_t *table, size_t at)
{
    return (unsigned)table[at] << 8 | table[at + 1];
}

static inline void set_clock(uint8_t *table, size_t at, unsigned clock)
{
    table[at] = (uint8_t)(clock >> 8);
    table[at + 1] = (uint8_t)clock;
}

static inline uint32_t value_at(const uint8_t *table, size_t at)
{
    return (uint32_t)clock_at(table, at) << 16 | clock_at(table, at + 2);
}

/* A sound table that a run from opening need not reach: any lag, any clock, any retired sites, garbage where it is free. */
void make_sound_table(struct rng *rng, uint8_t *table);

/* Changes a byte or a few, mostly where soundness looks; the table may still be sound. */
void damage_table(struct rng *rng, uint8_t *table);

#endif
