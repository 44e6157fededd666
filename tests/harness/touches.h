/* Hours, thresholds and values where a cold list turns. */
#ifndef TOUCHES_H
#define TOUCHES_H

#include "rng.h"

/* Any hour, most often one at an edge: two of these are often a threshold or 32,767 hours apart. */
uint16_t some_hour(struct rng *rng);

/* From 1 to 32,767. */
unsigned some_threshold(struct rng *rng);

/* A touch record, one with a bit too many, or anything. */
uint32_t some_value(struct rng *rng);

#endif
