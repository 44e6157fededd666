/*
 * Two sites that disagree on a file's tier, before and now.
 *
 * The office and the branch both have the record of a file. The policy at the office moves the file to tape, and
 * somebody at the branch reads it, which brings it to the fast tier; neither has heard of the other yet. Then each is
 * given the other's record.
 *
 * With the fc_short_ calls, which keep the steps as they were before, a site holds what came to it last: the office
 * ends with the branch's record, and the branch with the office's. Nothing is under way any more, so they disagree for
 * good, and on the tier. With the other calls both end with one of the two records, the one of the higher rank; of
 * equal ranks, that of the higher site.
 *
 * Then the same for every order in which each site can write two records and hear of two, here and before. Fails if the
 * sites ever end with different tiers now, or if they never did before.
 */
#include "forkcanyon.h"

#include <stdbool.h>
#include <stdio.h>
#include <stdlib.h>
#include <string.h>

enum { OFFICE, BRANCH, SITE_COUNT };
enum { THE_FILE, KEY_COUNT };
enum { FAST, SLOW, TAPE, VAULT };
enum { BEFORE, NOW, KINDS };

static const char *const tiers[] = {"fast", "slow", "tape", "vault"};

typedef uint32_t touch_call(uint64_t, uint64_t, uint64_t, uint64_t, uint64_t, uint8_t *, size_t, uint8_t *, size_t);
typedef uint32_t link_call(uint64_t, uint64_t, uint8_t *, size_t, uint8_t *, size_t);

static const struct {
    touch_call *touch;
    link_call *deliver, *drain;
} calls[KINDS] = {
    [BEFORE] = {fc_short_touch, fc_short_deliver, fc_short_drain},
    [NOW] = {fc_touch, fc_deliver, fc_drain},
};

static uint8_t reply[FC_REPLY_BYTES];

static void must(bool holds, const char *what)
{
    if (!holds) {
        printf("tiers: %s, code %u\n", what, reply[0]);
        exit(1);
    }
}

static void open_table(uint8_t *table)
{
    must(fc_open(SITE_COUNT, KEY_COUNT, table, FC_TABLE_BYTES, reply, sizeof reply) == FC_OK, "no table");
}

static void touch(int kind, uint8_t *table, unsigned site, unsigned hour, unsigned toucher, unsigned tier)
{
    must(calls[kind].touch(site, THE_FILE, hour, toucher, tier, table, FC_TABLE_BYTES, reply, sizeof reply) == FC_OK,
         "a touch was refused");
}

/* The other's next record, if there is one. */
static void hear(int kind, uint8_t *table, unsigned site)
{
    uint32_t code = calls[kind].deliver(site, 1 - site, table, FC_TABLE_BYTES, reply, sizeof reply);
    must(code == FC_OK || code == FC_NONE, "a delivery was refused");
}

/* All that is still under way to a site: how many deliveries that took. */
static unsigned hear_all(int kind, uint8_t *table, unsigned site)
{
    must(calls[kind].drain(site, FC_ENOUGH, table, FC_TABLE_BYTES, reply, sizeof reply) == FC_OK, "a drain was refused");
    return fc_read(reply).clock;
}

static unsigned tier_at(uint8_t *table, unsigned site)
{
    must(fc_look(site, THE_FILE, table, FC_TABLE_BYTES, reply, sizeof reply) == FC_OK, "a look was refused");
    must(fc_read(reply).clock > 0, "a site has no record");
    return fc_tier(fc_read(reply).value);
}

static void say(const char *what, uint8_t (*tables)[FC_TABLE_BYTES])
{
    printf("  %-31s", what);
    for (int kind = BEFORE; kind < KINDS; kind++)
        printf(" %10s %8s", tiers[tier_at(tables[kind], OFFICE)], tiers[tier_at(tables[kind], BRANCH)]);
    putchar('\n');
}

/* The move and the read that cross. */
static void two_records(void)
{
    static uint8_t tables[KINDS][FC_TABLE_BYTES];
    printf("  %-31s %19s %19s\n", "", "before", "now");
    printf("  %-31s %10s %8s %10s %8s\n", "", "office", "branch", "office", "branch");
    for (int kind = BEFORE; kind < KINDS; kind++) {
        open_table(tables[kind]);
        touch(kind, tables[kind], OFFICE, 100, FC_BY_USER, SLOW);
        hear(kind, tables[kind], BRANCH);
    }
    say("both have the file's record", tables);
    for (int kind = BEFORE; kind < KINDS; kind++)
        touch(kind, tables[kind], OFFICE, 900, FC_BY_MIGRATION, TAPE);
    say("the office moves it to tape", tables);
    for (int kind = BEFORE; kind < KINDS; kind++)
        touch(kind, tables[kind], BRANCH, 900, FC_BY_USER, FAST);
    say("somebody reads it at the branch", tables);
    for (int kind = BEFORE; kind < KINDS; kind++) {
        hear(kind, tables[kind], OFFICE);
        hear(kind, tables[kind], BRANCH);
    }
    say("each has heard of the other", tables);
    for (int kind = BEFORE; kind < KINDS; kind++)
        must(hear_all(kind, tables[kind], OFFICE) + hear_all(kind, tables[kind], BRANCH) == 0, "something is under way");
    say("nothing is under way any more", tables);
}

/* A site writes its next record, or hears of the other's. Each record has a tier of its own. */
enum { OFFICE_WRITES, BRANCH_WRITES, OFFICE_HEARS, BRANCH_HEARS, EVENTS };

static void happens(int kind, uint8_t *table, unsigned event, unsigned nth)
{
    if (event == OFFICE_WRITES)
        touch(kind, table, OFFICE, 900, FC_BY_USER, nth == 0 ? FAST : SLOW);
    else if (event == BRANCH_WRITES)
        touch(kind, table, BRANCH, 900, FC_BY_USER, nth == 0 ? TAPE : VAULT);
    else
        hear(kind, table, event == OFFICE_HEARS ? OFFICE : BRANCH);
}

struct tally {
    unsigned orders, disagree;
};

/* Every order of what is left to happen; behind each, all that is under way is delivered. */
static void play_all(int kind, const uint8_t *table, unsigned *left, struct tally *tally)
{
    uint8_t next[FC_TABLE_BYTES];
    bool ended = true;
    for (unsigned event = 0; event < EVENTS; event++) {
        if (left[event] == 0)
            continue;
        ended = false;
        memcpy(next, table, sizeof next);
        happens(kind, next, event, 2 - left[event]);
        left[event]--;
        play_all(kind, next, left, tally);
        left[event]++;
    }
    if (!ended)
        return;
    memcpy(next, table, sizeof next);
    hear_all(kind, next, OFFICE);
    hear_all(kind, next, BRANCH);
    tally->orders++;
    tally->disagree += tier_at(next, OFFICE) != tier_at(next, BRANCH);
}

int main(void)
{
    static uint8_t fresh[FC_TABLE_BYTES];
    struct tally tally[KINDS] = {{0, 0}, {0, 0}};
    puts("The tier of one file, as each of two sites has it:\n");
    two_records();
    open_table(fresh);
    for (int kind = BEFORE; kind < KINDS; kind++) {
        unsigned left[EVENTS] = {2, 2, 2, 2};
        play_all(kind, fresh, left, &tally[kind]);
    }
    printf("\nOver all %u orders in which each site writes two records and hears of two, when all is delivered\n",
           tally[NOW].orders);
    printf("  before   the sites have different tiers in %u\n", tally[BEFORE].disagree);
    printf("  now      the sites have different tiers in %u\n", tally[NOW].disagree);
    if (tally[NOW].disagree > 0)
        puts("tiers: FAILED: the sites disagree for good");
    if (tally[BEFORE].disagree == 0)
        puts("tiers: FAILED: the sites never disagreed before either, so this shows nothing");
    return tally[NOW].disagree > 0 || tally[BEFORE].disagree == 0;
}
