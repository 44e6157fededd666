/* What is timed: tables to start from, and the calls made on them. */
#ifndef SCENES_H
#define SCENES_H

#include "calls.h"

enum { MIXES = 10, FIRST_MIX = KINDS, SCENES = FIRST_MIX + MIXES, SCENE_CALLS = 240 };

/* Fresh: just opened. Full: every key written at every site, each origin with half of its places under way.
   Half: many tables, called in turns, with about half of the keys written, not the same ones in each. */
enum filling { FRESH, HALF, FULL, FILLINGS };
enum { MOST_TABLES = 64 };

struct scene {
    struct call calls[SCENE_CALLS];
    unsigned count;
};

/* Each call alone, then the mixes. */
const char *scene_name(unsigned which);

extern const char *const filling_names[FILLINGS];

/* Whether the scene's calls have short lists; then the tables that it starts from have them too. */
bool scene_is_short(unsigned which);

/* Makes the tables to start from, and says how many there are. */
unsigned make_starts(uint8_t (*tables)[FC_TABLE_BYTES], bool short_lists, enum filling filling, unsigned sites,
                     unsigned keys);

/* What its adopts name is for the caller to say. */
struct scene make_scene(unsigned which, enum filling filling, unsigned sites, unsigned keys);

#endif
