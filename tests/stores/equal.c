/*
 * "When every site has applied every put, all stores are equal", of live sites: random calls from opening, retirements
 * among them, then one drain of each live site with a budget of 903, and the entries of all keys are the same bytes at
 * every live site. With short lists, at the steps before request (e), runs end with sites that disagree.
 */
#include "tables.h"
#include "traffic.h"

#include <stdio.h>
#include <stdlib.h>
#include <string.h>

static struct rng rng;
static uint8_t table[FC_TABLE_BYTES];

/* By is_short: runs, how many of them had sites that disagreed before the drains, and after them. */
static struct {
    uint64_t runs, unequal, unequal_drained;
} seen[2];
static uint64_t entries, written; /* held against those of the first live site, in our runs */
static uint64_t retired, left;    /* runs with a retired site, and those in which a live one then lacked a put of it */

static size_t first_live(void)
{
    size_t site = 0;
    while (is_retired(table, site))
        site++;
    return site;
}

static bool stores_equal(void)
{
    bool equal = true;
    for (size_t site = 0, first = first_live(); site < table[0]; site++)
        equal = equal && (is_retired(table, site) ||
                          memcmp(table + entry_at(site, 0), table + entry_at(first, 0), RECORD * (size_t)table[1]) == 0);
    return equal;
}

/* Whether a live site lacks a put; or, if asked, one of a retired site. */
static bool lacks(bool of_retired)
{
    bool some = false;
    for (size_t site = 0; site < table[0]; site++)
        for (size_t origin = 0; origin < table[0]; origin++) {
            bool has = clock_at(table, applied_at(site, origin)) == clock_at(table, applied_at(origin, origin));
            some = some || (!has && !is_retired(table, site) && (!of_retired || is_retired(table, origin)));
        }
    return some;
}

static void fail(const char *what, bool short_lists)
{
    printf("stores: FAILED: %s, run %llu%s\n", what, (unsigned long long)seen[short_lists].runs,
           short_lists ? " with short lists" : "");
    exit(1);
}

static void must(enum kind kind, uint64_t first, uint64_t second)
{
    if (make_plain_call(&forkcanyon, (struct call){kind, {first, second}}, table) != FC_OK)
        fail("an open or a drain was refused", is_short(kind));
}

/* Few keys, so that sites write the same ones; slow links, so that they do before they hear of each other. */
static void play(bool short_lists)
{
    uint64_t sites = 2 + rng_below(&rng, FC_SITES - 1), keys = 1 + rng_below(&rng, rng_chance(&rng, 80) ? 4 : FC_KEYS);
    must(OPEN, sites, keys);
    struct traffic traffic = some_traffic(&rng, (unsigned)sites, (unsigned)keys, 2);
    keep_one_engine(&traffic, short_lists);
    traffic.weights[OPEN] = 0;
    traffic.table = table;
    for (uint64_t calls = rng_below(&rng, 200); calls > 0; calls--)
        make_plain_call(&forkcanyon, some_call(&rng, &traffic), table);
    bool equal = stores_equal();
    retired += table[RETIRED] != 0;
    left += lacks(true);
    uint64_t first = rng_below(&rng, sites);
    for (uint64_t at = 0; at < sites; at++)
        if (!is_retired(table, (first + at) % sites))
            must(short_lists ? SHORT_DRAIN : DRAIN, (first + at) % sites, FC_ENOUGH);
    if (lacks(false))
        fail("a drain has left a put behind", short_lists);
    bool equal_drained = stores_equal();
    if (!short_lists && !equal_drained)
        fail("every live site has applied every put, and their stores are not equal", false);
    seen[short_lists].runs++;
    seen[short_lists].unequal += !equal;
    seen[short_lists].unequal_drained += !equal_drained;
    uint64_t others = 0;
    for (size_t site = first_live() + 1; site < sites; site++)
        others += !is_retired(table, site);
    for (size_t key = 0; key < keys && !short_lists; key++, entries += others)
        written += clock_at(table, entry_at(first_live(), key) + RECORD_CLOCK) > 0 ? others : 0;
}

int main(int argc, char **argv)
{
    uint64_t enough = argc == 3 ? strtoull(argv[2], NULL, 10) : 0;
    if (enough < 100) {
        fputs("equal SEED RUNS, of which 100 or more show something\n", stderr);
        return 2;
    }
    rng.state = strtoull(argv[1], NULL, 10);
    for (uint64_t runs = enough; runs > 0; runs--) {
        play(false);
        play(true);
    }
    printf("stores: %llu runs, in %llu of them sites disagreed before the drains, in %llu after: %llu entries the same, "
           "%llu of them written\n",
           (unsigned long long)seen[false].runs, (unsigned long long)seen[false].unequal,
           (unsigned long long)seen[false].unequal_drained, (unsigned long long)entries, (unsigned long long)written);
    printf("stores: with short lists %llu runs, in %llu of them sites disagreed before the drains, in %llu for good\n",
           (unsigned long long)seen[true].runs, (unsigned long long)seen[true].unequal,
           (unsigned long long)seen[true].unequal_drained);
    printf("stores: in %llu of all runs a site was retired, in %llu of these a live one still lacked a put of it\n",
           (unsigned long long)retired, (unsigned long long)left);
    if (seen[false].unequal * 4 < seen[false].runs || seen[true].unequal_drained * 4 < seen[true].runs) {
        puts("stores: FAILED: sites hardly ever disagreed, so this shows nothing");
        return 1;
    }
    if (left * 20 < seen[false].runs) {
        puts("stores: FAILED: hardly a site was retired with puts under way, so of these this shows nothing");
        return 1;
    }
    return 0;
}
