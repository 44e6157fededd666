#include "scenes.h"

#include "touches.h"
#include "traffic.h"

#include <stdio.h>
#include <stdlib.h>

enum { ALONE = FC_PLACES / 2, ROUNDS = 6, KINDS_OF_MIX = MIXES / 2 };

const char *const filling_names[FILLINGS] = {"fresh", "half", "full"};

/* How often each call comes up in a mix; each mix is made with our calls, and again with short lists. */
static const struct {
    const char *name, *short_name;
    unsigned weights[KINDS];
} mixes[KINDS_OF_MIX] = {
    {"even", "short_even", {[PUT] = 3, [GET] = 3, [DELIVER] = 3, [DRAIN] = 1}},
    {"reads", "short_reads", {[PUT] = 1, [GET] = 16, [DELIVER] = 2, [DRAIN] = 1}},
    {"writes", "short_writes", {[PUT] = 10, [GET] = 2, [DELIVER] = 4, [DRAIN] = 4}},
    {"links", "short_links", {[PUT] = 3, [GET] = 2, [DELIVER] = 12, [DRAIN] = 3}},
    {"policy", "short_policy", {[TOUCH] = 10, [COLD] = 2, [LOOK] = 4, [ADOPT] = 4, [DELIVER] = 4, [DRAIN] = 4}},
};

bool scene_is_short(unsigned which)
{
    return which < FIRST_MIX ? is_short((enum kind)which) : which - FIRST_MIX >= KINDS_OF_MIX;
}

const char *scene_name(unsigned which)
{
    if (which < FIRST_MIX)
        return kind_names[which];
    unsigned mix = (which - FIRST_MIX) % KINDS_OF_MIX;
    return scene_is_short(which) ? mixes[mix].short_name : mixes[mix].name;
}

static bool filled_short; /* with which lists the tables are filled */

static void must(uint8_t *table, struct call call)
{
    if (filled_short)
        call.kind = with_short_lists(call.kind);
    uint32_t code = make_plain_call(&twin, call, table);
    if (code != FC_OK) {
        printf("bench: %s was refused with %u\n", kind_names[call.kind], (unsigned)code);
        exit(2);
    }
}

static void drain_all(uint8_t *table, unsigned sites)
{
    for (unsigned site = 0; site < sites; site++)
        must(table, (struct call){DRAIN, {site, FC_ENOUGH}});
}

/* Each site in its turn writes every key, and all sites read it: vectors fill up. */
static void fill(uint8_t *table, unsigned sites, unsigned keys, struct rng *rng)
{
    for (unsigned turn = 0; turn < ROUNDS * sites; turn++) {
        for (unsigned key = 0; key < keys; key++) {
            must(table, (struct call){PUT, {turn % sites, key, some_value(rng)}});
            drain_all(table, sites);
        }
        for (unsigned key = 0; key < keys; key++)
            for (unsigned site = 0; site < sites; site++)
                must(table, (struct call){GET, {site, key}});
    }
    for (unsigned site = 0; site < sites; site++)
        for (unsigned times = 0; times < ALONE; times++)
            must(table, (struct call){PUT, {site, (site + times) % keys, some_value(rng)}});
}

static void half_fill(uint8_t *table, unsigned sites, unsigned keys, struct rng *rng)
{
    for (unsigned times = 0; 2 * times < keys; times++) {
        must(table, (struct call){PUT, {rng_below(rng, sites), rng_below(rng, keys), some_value(rng)}});
        drain_all(table, sites);
        must(table, (struct call){GET, {rng_below(rng, sites), rng_below(rng, keys)}});
    }
}

unsigned make_starts(uint8_t (*tables)[FC_TABLE_BYTES], bool short_lists, enum filling filling, unsigned sites,
                     unsigned keys)
{
    filled_short = short_lists;
    unsigned count = filling == HALF ? MOST_TABLES : 1;
    struct rng rng = {sites * 100 + keys};
    for (unsigned at = 0; at < count; at++) {
        must(tables[at], (struct call){OPEN, {sites, keys}});
        if (filling == FULL)
            fill(tables[at], sites, keys, &rng);
        if (filling == HALF)
            half_fill(tables[at], sites, keys, &rng);
    }
    return count;
}

/* One kind of call, again and again, as many times as the table, or all of them, have room for. */
static struct scene alone(enum kind kind, enum filling filling, unsigned sites, unsigned keys)
{
    struct scene scene = {.count = filling == HALF ? SCENE_CALLS : ALONE};
    for (unsigned at = 0; at < scene.count; at++) {
        const struct call kinds[KINDS] = {
            [OPEN] = {OPEN, {sites, keys}},
            [PUT] = {PUT, {0, at % keys, at}},
            [GET] = {GET, {at % sites, (at * 7) % keys}},
            [LOOK] = {LOOK, {at % sites, (at * 7) % keys}},
            [ADOPT] = {ADOPT, {at % sites, (at * 7) % keys}},
            [DELIVER] = {DELIVER, {sites - 1, 0}},
            [DRAIN] = {DRAIN, {at % sites, FC_ENOUGH}},
            [TOUCH] = {TOUCH, {0, at % keys, at, at % 4, 1}},
            [COLD] = {COLD, {at % sites, at * 100, 24}},
            [RETIRE] = {RETIRE, {at % sites}}, /* some are refused: one site stays live */
        };
        scene.calls[at] = kinds[namesake(kind)];
        scene.calls[at].kind = kind;
    }
    return scene;
}

struct scene make_scene(unsigned which, enum filling filling, unsigned sites, unsigned keys)
{
    if (which < FIRST_MIX)
        return alone((enum kind)which, filling, sites, keys);
    struct scene scene = {.count = SCENE_CALLS};
    unsigned mix = (which - FIRST_MIX) % KINDS_OF_MIX;
    struct rng rng = {mix + 1};
    struct traffic traffic = some_traffic(&rng, sites, keys, 0);
    for (int kind = 0; kind < KINDS; kind++)
        traffic.weights[kind] = mixes[mix].weights[kind];
    for (unsigned at = 0; at < SCENE_CALLS; at++) {
        struct call *call = &scene.calls[at];
        *call = some_call(&rng, &traffic);
        if (call->kind == DRAIN)
            call->numbers[1] = FC_ENOUGH;
        if (scene_is_short(which))
            call->kind = with_short_lists(call->kind);
    }
    return scene;
}
