/* Buffers as a careless host lends them: any length, any alignment, with watched bytes around them. */
#ifndef LENT_H
#define LENT_H

#include "rng.h"

enum { LENT_MOST = 49152 };

/* Room between two pages that no one may touch. */
struct room {
    uint8_t *bytes;
    size_t size;
    uint8_t *lent;
    size_t length;
};

void room_build(struct room *room);

/* Lends length bytes: against the forbidden page behind, against the one before, or somewhere between. */
uint8_t *room_lend(struct room *room, struct rng *rng, size_t length);

/* Whether the bytes around the lent ones are as they were. */
bool room_is_clean(const struct room *room);

#endif
