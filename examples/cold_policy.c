/*
 * A policy for a month. There are twelve documents, and each of four sites holds a copy of each as a
 * file; people read some of them. Every night a backup scan opens every file. Every hour each site
 * asks its cold list and looks at all records. When the links have run, it moves those of its files
 * that nobody has read for three days to the slow tier: or to tape, if the document's first copy, at
 * its home site, has left the fast tier too. So a move rests on two records. The policy adopts these
 * two and no other, and looks again if one of them has changed.
 *
 * Here the scan touches as FC_BY_SCAN and the policy as FC_BY_MIGRATION, which keep the hour of the
 * last use. Beside it runs the same month the old way, in which a scan writes the hour now; and the
 * same month with a policy that gets every record, so that its moves depend on all of them. Links
 * carry the touches from site to site in any order, some of them a day late, and the count of hours
 * runs round on the seventeenth day.
 *
 * Fails if a list here ever names a file that was read within the three days, or leaves out one that
 * was not, as far as its site has heard; if a site keeps one on the fast tier for the scan's sake; if a
 * site hears of a move before the record of the first copy that it rests on; or if the moves wait for
 * as many sites as in the month in which every record is got.
 */
#include "forkcanyon.h"

#include <stdbool.h>
#include <stdio.h>
#include <stdlib.h>
#include <string.h>

enum { SITE_COUNT = 4, FILE_COUNT = 48, LINK_COUNT = SITE_COUNT * (SITE_COUNT - 1) };
enum { DAY = 24, WEEK = 7 * DAY, MONTH = 30 * DAY, THRESHOLD = 3 * DAY, FIRST_HOUR = 65536 - 400 };
enum { FAST, SLOW, TAPE };
enum { NEVER = -1, MOST_PUTS = 4096 };
enum { HERE, OLD_SCANS, ALL_GOT, MONTHS };

/* One month. What people did is kept beside the table, to hold the lists against. */
struct month {
    const char *name;
    bool scan_writes_now, policy_gets;
    uint8_t table[FC_TABLE_BYTES];
    int last_read[FILE_COUNT];              /* by anybody */
    int heard[SITE_COUNT][FILE_COUNT];      /* the last read that a site has heard of */
    unsigned given[SITE_COUNT][SITE_COUNT]; /* the clock of the last delivery to a site from an origin */
    struct news {
        int made, last_read;
        struct fc_answer rests_on; /* a move: the record of its first copy; clock 0: none */
    } news[SITE_COUNT][MOST_PUTS]; /* what each put of a site tells of, and its hour */
    bool listed[SITE_COUNT][FILE_COUNT]; /* what a site's policy was told this hour, and what it saw */
    struct fc_answer seen[SITE_COUNT][FILE_COUNT];
    unsigned lists, in_use, left_out, kept_hours;
    unsigned deliveries, waits, early, seen_again;
    int latest;
    /* Over all moves, and for each over the sites it goes to: how many others these have to hear of first. */
    unsigned moves_sent, waited_for, most_waited_for;
};

static uint8_t reply[FC_REPLY_BYTES];

static uint64_t random_state = 2026;

static unsigned below(unsigned limit)
{
    random_state ^= random_state << 13;
    random_state ^= random_state >> 7;
    random_state ^= random_state << 17;
    return (unsigned)(random_state >> 33) % limit;
}

static void must(bool holds, const char *what)
{
    if (!holds) {
        printf("policy: %s, code %u\n", what, reply[0]);
        exit(1);
    }
}

/* A file is touched at the site that holds it, and nowhere else. */
static unsigned holder(unsigned file)
{
    return file % SITE_COUNT;
}

/* The copy of the same document at its home site. It never goes to tape. */
static unsigned first_copy(unsigned file)
{
    unsigned document = file / SITE_COUNT, home = document % SITE_COUNT;
    return document * SITE_COUNT + home;
}

static uint16_t on_the_clock(int hour)
{
    return (uint16_t)(FIRST_HOUR + hour);
}

static bool unused(int last_read, int hour)
{
    return last_read != NEVER && hour - last_read >= THRESHOLD;
}

/* The next update of an origin; false if there is none, or it has to wait. */
static bool deliver(struct month *month, unsigned site, unsigned origin, int hour)
{
    uint32_t code = fc_deliver(site, origin, month->table, sizeof month->table, reply, sizeof reply);
    must(code == FC_OK || code == FC_NONE || code == FC_WAITS, "a delivery was refused");
    month->waits += code == FC_WAITS;
    if (code != FC_OK)
        return false;
    struct fc_answer update = fc_read(reply);
    struct news news = month->news[origin][update.clock];
    month->heard[site][update.key] = news.last_read;
    month->given[site][origin] = update.clock;
    month->early += news.rests_on.site != site && news.rests_on.clock > month->given[site][news.rests_on.site];
    month->deliveries++;
    if (hour - news.made > month->latest)
        month->latest = hour - news.made;
    return true;
}

/* Waits for every link: a site whose places are all under way can put no more until then. */
static void catch_up(struct month *month, int hour)
{
    for (bool moved = true; moved;) {
        moved = false;
        for (unsigned site = 0; site < SITE_COUNT; site++)
            for (unsigned origin = 0; origin < SITE_COUNT; origin++)
                while (site != origin && deliver(month, site, origin, hour))
                    moved = true;
    }
}

static uint32_t try_touch(struct month *month, unsigned file, int hour, unsigned toucher, unsigned tier)
{
    unsigned now = on_the_clock(hour);
    if (toucher == FC_BY_SCAN && month->scan_writes_now)
        return fc_put(holder(file), file, fc_touch_of((uint16_t)now, toucher, tier), month->table,
                      sizeof month->table, reply, sizeof reply);
    return fc_touch(holder(file), file, now, toucher, tier, month->table, sizeof month->table, reply, sizeof reply);
}

/* The clock of the put. */
static unsigned touch(struct month *month, unsigned file, int hour, unsigned toucher, unsigned tier)
{
    uint32_t code = try_touch(month, file, hour, toucher, tier);
    if (code == FC_ROOM) {
        catch_up(month, hour);
        code = try_touch(month, file, hour, toucher, tier);
    }
    must(code == FC_OK, "a touch was refused");
    unsigned clock = fc_read(reply).clock;
    must(clock < MOST_PUTS, "too many puts for one month");
    month->news[holder(file)][clock] = (struct news){.made = hour, .last_read = month->last_read[file]};
    month->heard[holder(file)][file] = month->last_read[file];
    return clock;
}

/* Whoever reads a file brings it back to the fast tier. */
static void read_file(struct month *month, unsigned file, int hour)
{
    month->last_read[file] = hour;
    touch(month, file, hour, FC_BY_USER, FAST);
}

static struct fc_answer record_of(struct month *month, unsigned file)
{
    must(fc_look(holder(file), file, month->table, sizeof month->table, reply, sizeof reply) == FC_OK, "no look");
    return fc_read(reply);
}

/* The scan opens every file that there is; for one that is not, its touch is refused. */
static void scan(struct month *month, int hour)
{
    for (unsigned file = 0; file < FILE_COUNT; file++) {
        struct fc_answer record = record_of(month, file);
        if (record.clock > 0)
            touch(month, file, hour, FC_BY_SCAN, fc_tier(record.value));
        else if (!month->scan_writes_now)
            must(try_touch(month, file, hour, FC_BY_SCAN, FAST) == FC_RECORD, "a scan of no file was accepted");
    }
}

/* A delivery on a copy of the table, and before it all that it waits for: notes the sites that these are of. */
static struct fc_answer bring(uint8_t *copy, unsigned site, unsigned origin, uint32_t *sites)
{
    while (fc_deliver(site, origin, copy, FC_TABLE_BYTES, reply, sizeof reply) == FC_WAITS) {
        *sites |= fc_read(reply).value;
        bring(copy, site, fc_read(reply).site, sites);
    }
    must(reply[0] == FC_OK, "a delivery was refused");
    return fc_read(reply);
}

/* Counts the sites that each other site has to hear of before it can take the put. */
static void count_waits(struct month *month, unsigned origin, unsigned clock)
{
    static uint8_t copy[FC_TABLE_BYTES];
    for (unsigned site = 0; site < SITE_COUNT; site++) {
        uint32_t sites = 0;
        unsigned count = 0;
        if (site == origin)
            continue;
        memcpy(copy, month->table, sizeof copy);
        while (bring(copy, site, origin, &sites).clock < clock)
            ;
        for (unsigned other = 0; other < SITE_COUNT; other++)
            count += sites >> other & 1;
        month->moves_sent++;
        month->waited_for += count;
        if (count > month->most_waited_for)
            month->most_waited_for = count;
    }
}

/* What the policy sees of a file at a site: by a look, or, as every list once did, by a get. */
static struct fc_answer see(struct month *month, unsigned site, unsigned file)
{
    uint32_t code = (month->policy_gets ? fc_get : fc_look)(site, file, month->table, sizeof month->table, reply,
                                                            sizeof reply);
    must(code == FC_OK, "no look");
    return fc_read(reply);
}

/* False if the site no longer holds what was seen. */
static bool adopt(struct month *month, unsigned site, struct fc_answer seen)
{
    uint32_t code =
        fc_adopt(site, seen.key, seen.site, seen.clock, month->table, sizeof month->table, reply, sizeof reply);
    must(code == FC_OK || code == FC_CHANGED, "an adopt was refused");
    struct fc_answer found = fc_read(reply);
    bool same = found.site == seen.site && found.clock == seen.clock && found.value == seen.value;
    must(code == FC_CHANGED || same, "an adopt of another record");
    return code == FC_OK;
}

/* Moves a cold file where it belongs by what was seen, or, if that has changed, by what is there now. */
static void move(struct month *month, unsigned file, int hour)
{
    unsigned site = holder(file), first = first_copy(file);
    struct fc_answer *own = &month->seen[site][file], *home = &month->seen[site][first];
    for (;; month->seen_again++) {
        unsigned tier = file != first && home->clock > 0 && fc_tier(home->value) != FAST ? TAPE : SLOW;
        if (fc_tier(own->value) >= tier)
            return;
        if (adopt(month, site, *own) && adopt(month, site, *home)) {
            unsigned clock = touch(month, file, hour, FC_BY_MIGRATION, tier);
            month->news[site][clock].rests_on = *home;
            count_waits(month, site, clock);
            return;
        }
        *own = see(month, site, file);
        *home = see(month, site, first);
    }
}

/* Asks the list of a site, holds it against what the site has heard, and looks at every record. */
static void ask_list(struct month *month, unsigned site, int hour)
{
    uint8_t list[FC_LIST_BYTES];
    must(fc_cold(site, on_the_clock(hour), THRESHOLD, month->table, sizeof month->table, list, sizeof list, reply,
                 sizeof reply) == FC_OK, "a cold list was refused");
    struct fc_answer answer = fc_read(reply);
    must(answer.site == 0 && answer.clock == 0, "a clock ahead, or a malformed record");
    month->lists++;
    unsigned at = 0;
    for (unsigned file = 0; file < FILE_COUNT; file++) {
        bool listed = month->listed[site][file] = at < answer.key && list[at] == file;
        at += listed;
        month->in_use += listed && !unused(month->heard[site][file], hour);
        month->left_out += !listed && unused(month->heard[site][file], hour);
        month->seen[site][file] = see(month, site, file);
    }
    must(at == answer.key, "a list that does not ascend");
}

/* What stands on the fast tier, and what of it nobody has used. */
struct kept {
    unsigned fast, unused;
};

static struct kept count_fast(struct month *month, int hour)
{
    struct kept kept = {0, 0};
    for (unsigned file = 0; file < FILE_COUNT; file++) {
        struct fc_answer record = record_of(month, file);
        bool fast = record.clock > 0 && fc_tier(record.value) == FAST;
        kept.fast += fast;
        kept.unused += fast && unused(month->last_read[file], hour);
    }
    return kept;
}

/* Some files are read every day, some once in a while, some in one week alone, some only as the month begins. */
static bool is_read(unsigned file, int hour)
{
    bool at_work = hour % DAY >= 8 && hour % DAY < 18;
    switch (file / SITE_COUNT % 4) {
    case 0:
        return at_work && below(8) == 0;
    case 1:
        return hour == 0 || (at_work && below(60) == 0);
    case 2:
        return at_work && hour / WEEK == (int)(file % 3) + 1 && below(12) == 0;
    default:
        return hour == 0;
    }
}

/* The order in which the links run this hour, and how much each carries; a late one hardly runs for a day. */
struct run {
    unsigned site, origin, most;
};

static void plan_links(struct run *runs, bool *late, int hour)
{
    unsigned count = 0;
    for (unsigned link = 0; link < SITE_COUNT * SITE_COUNT; link++) {
        if (hour % DAY == 0)
            late[link] = below(4) == 0;
        if (link / SITE_COUNT != link % SITE_COUNT)
            runs[count++] = (struct run){link / SITE_COUNT, link % SITE_COUNT, late[link] ? below(20) == 0 : below(6)};
    }
    for (unsigned left = count; left > 1; left--) {
        unsigned at = below(left);
        struct run last = runs[left - 1];
        runs[left - 1] = runs[at];
        runs[at] = last;
    }
}

static struct month months[MONTHS] = {
    [HERE] = {.name = "Forkcanyon"},
    [OLD_SCANS] = {.name = "the old way", .scan_writes_now = true},
    [ALL_GOT] = {.name = "all got", .policy_gets = true},
};

static void one_hour(struct month *month, const bool *reads, const struct run *runs, int hour)
{
    for (unsigned file = 0; file < FILE_COUNT; file++)
        if (reads[file])
            read_file(month, file, hour);
    if (hour % DAY == 1)
        scan(month, hour);
    for (unsigned site = 0; site < SITE_COUNT; site++)
        ask_list(month, site, hour);
    for (const struct run *run = runs; run < runs + LINK_COUNT; run++)
        for (unsigned times = 0; times < run->most; times++)
            deliver(month, run->site, run->origin, hour);
    for (unsigned file = 0; file < FILE_COUNT; file++)
        if (month->listed[holder(file)][file])
            move(month, file, hour);
    month->kept_hours += count_fast(month, hour).unused;
}

static void say_week(int hour)
{
    struct kept here = count_fast(&months[HERE], hour), old = count_fast(&months[OLD_SCANS], hour);
    const int *last_read = months[HERE].last_read;
    unsigned used = 0;
    for (unsigned file = 0; file < FILE_COUNT; file++)
        used += last_read[file] != NEVER && !unused(last_read[file], hour);
    printf("  %3d %12u %14u %14u %15u %14u\n", (hour + 1) / DAY, used, here.fast, here.unused, old.fast, old.unused);
}

static void begin(struct month *month)
{
    uint32_t code = fc_open(SITE_COUNT, FILE_COUNT, month->table, sizeof month->table, reply, sizeof reply);
    must(code == FC_OK, "no table");
    for (unsigned file = 0; file < FILE_COUNT; file++) {
        month->last_read[file] = NEVER;
        for (unsigned site = 0; site < SITE_COUNT; site++)
            month->heard[site][file] = NEVER;
    }
}

static void say_month(const struct month *month)
{
    printf("  %-12s %u lists: %u times a file in use was listed, %u times one out of use was left out;\n", month->name,
           month->lists, month->in_use, month->left_out);
    printf("  %-12s %u file-days on the fast tier for the scan's sake\n", "", month->kept_hours / DAY);
}

static void say_moves(const struct month *month, const char *policy)
{
    double mean = month->moves_sent > 0 ? (double)month->waited_for / month->moves_sent : 0;
    printf("  %-42s %4.2f on average, at most %u\n", policy, mean, month->most_waited_for);
}

/* Whether the moves of one month wait for fewer sites than those of the other, on average and at most. */
static bool waits_for_fewer(const struct month *one, const struct month *other)
{
    return one->most_waited_for <= other->most_waited_for &&
           (uint64_t)one->waited_for * other->moves_sent < (uint64_t)other->waited_for * one->moves_sent;
}

static bool fails(bool wrong, const char *what)
{
    if (wrong)
        printf("policy: FAILED: %s\n", what);
    return wrong;
}

int main(void)
{
    const struct month *here = &months[HERE], *old = &months[OLD_SCANS], *got = &months[ALL_GOT];
    for (struct month *month = months; month < months + MONTHS; month++)
        begin(month);
    printf("%d files at %d sites, scanned every night. A file is in use for %d hours after it was last read.\n",
           FILE_COUNT, SITE_COUNT, THRESHOLD);
    puts("How many are on the fast tier, and how many of these for the scan's sake:\n");
    printf("  %3s %12s %14s %14s %15s %14s\n", "day", "files in use", "Forkcanyon", "for the scan", "the old way",
           "for the scan");
    bool late[SITE_COUNT * SITE_COUNT], reads[FILE_COUNT];
    struct run runs[LINK_COUNT];
    for (int hour = 0; hour < MONTH; hour++) {
        for (unsigned file = 0; file < FILE_COUNT; file++)
            reads[file] = is_read(file, hour);
        plan_links(runs, late, hour);
        for (struct month *month = months; month < months + MONTHS; month++)
            one_hour(month, reads, runs, hour);
        if ((hour + 1) % WEEK == 0 || hour + 1 == MONTH)
            say_week(hour);
    }
    puts("\nOver the month, each list held against what its site had heard:");
    say_month(here);
    say_month(old);
    printf("  links        %u deliveries, up to %d hours late; %u tries had to wait for a cause\n", here->deliveries,
           here->latest, here->waits);
    puts("\nHow many other sites a site has to hear of before it can take a move, if the policy");
    say_moves(here, "looks at all and adopts what it acts on");
    say_moves(got, "gets all");
    printf("%u times a record had changed between its look and its adopt, and was looked at again.\n", here->seen_again);

    bool failed = fails(here->in_use > 0, "a list names a file that people read within the threshold");
    failed |= fails(here->left_out > 0 || here->kept_hours > 0, "a file is left out, or kept, for the scan's sake");
    failed |= fails(here->early > 0, "a site hears of a move before what it rests on");
    failed |= fails(!waits_for_fewer(here, got), "moves wait for as many sites as if every record were got");
    failed |= fails(here->seen_again == 0, "no record has changed before it was adopted, so this shows nothing");
    return fails(old->kept_hours == 0, "the old way kept nothing either, so this shows nothing") || failed;
}
