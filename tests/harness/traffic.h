/* Random calls as sites and links make them, with numbers of all sizes among them. */
#ifndef TRAFFIC_H
#define TRAFFIC_H

#include "calls.h"
#include "rng.h"

/* The names in use, how often each call comes up, and the links that are seldom served. */
struct traffic {
    unsigned sites, keys;
    unsigned weights[KINDS];
    uint64_t slow; /* bit 8 * site + origin */
    unsigned wild; /* percent of numbers that may be anything */
    const uint8_t *table; /* where an adopt finds the pair it names, and who is live; NULL: nowhere */
};

struct traffic some_traffic(struct rng *rng, unsigned sites, unsigned keys, unsigned wild);

/* Leaves out the calls of the other engine. */
void keep_one_engine(struct traffic *traffic, bool short_lists);

struct call some_call(struct rng *rng, const struct traffic *traffic);

/* Gives an adopt the origin and clock that a look at its site and key would answer; both are below 8 and 64. */
void name_held(struct call *adopt, const uint8_t *table);

#endif
