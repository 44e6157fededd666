/*
 * What short lists save: a month of eight sites, played with our calls on one table and with short lists on another.
 *
 * Each site holds a copy of each of eight documents as a file. People read files at their site; one time in four they
 * first get the records of one to three other copies. By day somebody at each site gets a record every hour, of any
 * file. Every night a backup scan opens every file. Every hour each site asks its cold list, and moves what of its files
 * nobody has read for three days: it adopts the record of the file and that of the document's first copy, at its home
 * site, and touches. Links run every hour, in any order, some of them a day late; where a site has no room left, all
 * that is under way is delivered.
 *
 * Of each update that a put or a touch makes it counts, in both tables, the clocks of its vector that are not 0: the
 * pairs of a site and a clock that its list has. As pairs, a list takes 3 bits of site and 16 of clock for each, in
 * whole bytes; its length then says how many there are. As columns it takes 8 clocks of 2 bytes.
 *
 * Each file is written at one site alone, so the calls with short lists, which keep the steps before request (e), answer
 * as ours do. Fails if the two ever answer another code, or if a short list has more pairs than ours of the same update.
 */
#include "rng.h"
#include "tables.h"

#include <stdio.h>
#include <stdlib.h>
#include <string.h>

enum { FILES = FC_KEYS, DAY = 24, DAYS = 30, THRESHOLD = 3 * DAY, FIRST_HOUR = 1000 };
enum { FAST, SLOW, TAPE };
enum { OURS, SHORT, ENGINES };
enum { PAIR_BITS = 3 + 16, COLUMN_BYTES = 2 * FC_SITES };

static const char *const lists[ENGINES] = {"our lists", "short lists"};
static struct rng rng = {2026};
static uint8_t tables[ENGINES][FC_TABLE_BYTES], replies[ENGINES][FC_REPLY_BYTES];

static uint64_t updates_with[ENGINES][FC_SITES + 1]; /* how many pairs */
static uint64_t updates_on[DAYS], pairs_on[ENGINES][DAYS];
static uint64_t reads, scans, moves, gets, deliveries, waits; /* how many of each */

static void fail(const char *what)
{
    printf("lists: FAILED: %s, codes %u and %u\n", what, replies[OURS][0], replies[SHORT][0]);
    exit(1);
}

/* A call of ours and the same with short lists: each on its table, and the code of both. */
#define BOTH(name, ...) \
    agreed(fc_##name(__VA_ARGS__, tables[OURS], FC_TABLE_BYTES, replies[OURS], FC_REPLY_BYTES), \
           fc_short_##name(__VA_ARGS__, tables[SHORT], FC_TABLE_BYTES, replies[SHORT], FC_REPLY_BYTES))

static uint32_t agreed(uint32_t one, uint32_t other)
{
    if (one != other)
        fail("the two answer another code");
    return one;
}

static unsigned pairs_of(const uint8_t *table, size_t origin, unsigned clock)
{
    unsigned pairs = 0;
    for (size_t column = 0; column < FC_SITES; column++)
        pairs += clock_at(table, update_at(origin, clock) + RECORD_VECTOR + 2 * column) != 0;
    return pairs;
}

static unsigned bytes_of(unsigned pairs)
{
    return (PAIR_BITS * pairs + 7) / 8;
}

static void count_update(size_t origin, int hour)
{
    unsigned clock = fc_read(replies[OURS]).clock, pairs[ENGINES];
    updates_on[hour / DAY]++;
    for (int engine = 0; engine < ENGINES; engine++) {
        pairs[engine] = pairs_of(tables[engine], origin, clock);
        updates_with[engine][pairs[engine]]++;
        pairs_on[engine][hour / DAY] += pairs[engine];
    }
    if (pairs[SHORT] > pairs[OURS])
        fail("a short list is longer");
}

static bool deliver(unsigned site, unsigned origin)
{
    uint32_t code = BOTH(deliver, site, origin);
    deliveries += code == FC_OK;
    waits += code == FC_WAITS;
    return code == FC_OK;
}

static void catch_up(void)
{
    for (unsigned site = 0; site < FC_SITES; site++) {
        if (BOTH(drain, site, FC_ENOUGH) != FC_OK)
            fail("a drain was refused");
        deliveries += fc_read(replies[OURS]).clock;
    }
}

static unsigned holder(unsigned file)
{
    return file % FC_SITES;
}

/* The copy of the same document at its home site. It never goes to tape. */
static unsigned first_copy(unsigned file)
{
    unsigned document = file / FC_SITES;
    return document * FC_SITES + document;
}

static void touch(unsigned file, int hour, unsigned toucher, unsigned tier)
{
    unsigned site = holder(file), now = (unsigned)(FIRST_HOUR + hour);
    uint32_t code = BOTH(touch, site, file, now, toucher, tier);
    if (code == FC_ROOM) {
        catch_up();
        code = BOTH(touch, site, file, now, toucher, tier);
    }
    if (code != FC_OK)
        fail("a touch was refused");
    count_update(site, hour);
}

/* A look serves both: what it answers is the same. */
static struct fc_answer look(unsigned site, unsigned file)
{
    for (int engine = 0; engine < ENGINES; engine++)
        fc_look(site, file, tables[engine], FC_TABLE_BYTES, replies[engine], FC_REPLY_BYTES);
    if (replies[OURS][0] != FC_OK || memcmp(replies[OURS], replies[SHORT], FC_REPLY_BYTES) != 0)
        fail("a look answers another record");
    return fc_read(replies[OURS]);
}

static bool at_work(int hour)
{
    return hour % DAY >= 8 && hour % DAY < 18;
}

/* Some files are read every day, some once in a while, some in one week alone, some only as the month begins. */
static bool is_read(unsigned file, int hour)
{
    switch ((file / FC_SITES + file) % 4) {
    case 0:
        return hour == 0 || (at_work(hour) && rng_below(&rng, 4) == 0);
    case 1:
        return hour == 0 || (at_work(hour) && rng_below(&rng, 30) == 0);
    case 2:
        return hour == 0 || (at_work(hour) && hour / (7 * DAY) == (int)(file % 3) + 1 && rng_below(&rng, 5) == 0);
    default:
        return hour == 0;
    }
}

static void get(unsigned site, unsigned file)
{
    if (BOTH(get, site, file) != FC_OK)
        fail("a get was refused");
    gets++;
}

static void read_files(int hour)
{
    for (unsigned file = 0; file < FILES; file++) {
        if (!is_read(file, hour))
            continue;
        unsigned copies = rng_below(&rng, 4) == 0 ? 1 + (unsigned)rng_below(&rng, 3) : 0;
        while (copies-- > 0)
            get(holder(file), file / FC_SITES * FC_SITES + (unsigned)rng_below(&rng, FC_SITES));
        reads++;
        touch(file, hour, FC_BY_USER, FAST);
    }
    for (unsigned site = 0; site < FC_SITES && at_work(hour); site++)
        get(site, (unsigned)rng_below(&rng, FILES));
}

static void scan_files(int hour)
{
    for (unsigned file = 0; file < FILES; file++, scans++)
        touch(file, hour, FC_BY_SCAN, fc_tier(look(holder(file), file).value));
}

static void adopt(unsigned site, struct fc_answer seen)
{
    if (BOTH(adopt, site, seen.key, seen.site, seen.clock) != FC_OK)
        fail("an adopt was refused");
}

static void move_cold_files(unsigned site, int hour)
{
    uint8_t list[FC_LIST_BYTES], reply[FC_REPLY_BYTES];
    if (fc_cold(site, (unsigned)(FIRST_HOUR + hour), THRESHOLD, tables[SHORT], FC_TABLE_BYTES, list, sizeof list,
                reply, sizeof reply) != FC_OK)
        fail("a cold list was refused");
    for (unsigned at = 0; at < fc_read(reply).key; at++) {
        unsigned file = list[at], first = first_copy(file);
        if (holder(file) != site)
            continue;
        struct fc_answer own = look(site, file), home = look(site, first);
        unsigned tier = file != first && home.clock > 0 && fc_tier(home.value) != FAST ? TAPE : SLOW;
        if (fc_tier(own.value) >= tier)
            continue;
        adopt(site, own);
        adopt(site, home);
        touch(file, hour, FC_BY_MIGRATION, tier);
        moves++;
    }
}

/* Each link in its turn, from one that changes with the hour on; a late one hardly runs for a day. */
static void run_links(bool *late, int hour)
{
    unsigned first = (unsigned)rng_below(&rng, FC_SITES * FC_SITES);
    for (unsigned count = 0; count < FC_SITES * FC_SITES; count++) {
        unsigned link = (first + 27 * count) % (FC_SITES * FC_SITES); /* 27 is odd: every link once */
        if (hour % DAY == 0)
            late[link] = rng_below(&rng, 4) == 0;
        unsigned most = (unsigned)(late[link] ? rng_below(&rng, 20) == 0 : rng_below(&rng, 6));
        while (most-- > 0 && link / FC_SITES != link % FC_SITES && deliver(link / FC_SITES, link % FC_SITES))
            ;
    }
}

static uint64_t updates(void)
{
    uint64_t sum = 0;
    for (int day = 0; day < DAYS; day++)
        sum += updates_on[day];
    return sum;
}

/* The mean over all updates of a number that depends on their pairs. */
static double mean(int engine, unsigned (*number)(unsigned))
{
    uint64_t sum = 0;
    for (unsigned pairs = 0; pairs <= FC_SITES; pairs++)
        sum += updates_with[engine][pairs] * number(pairs);
    return (double)sum / (double)updates();
}

static unsigned itself(unsigned pairs)
{
    return pairs;
}

/* The shorter of the two forms. */
static unsigned least_bytes(unsigned pairs)
{
    return bytes_of(pairs) < COLUMN_BYTES ? bytes_of(pairs) : COLUMN_BYTES;
}

static void say_row(const char *what, double of_ours, double of_short)
{
    printf("| %s | %.2f | %.2f |\n", what, of_ours, of_short);
}

static void say(void)
{
    printf("In %d days the 8 sites make %llu updates: %llu reads, %llu scans and %llu moves; and beside them %llu gets.\n",
           DAYS, (unsigned long long)updates(), (unsigned long long)reads, (unsigned long long)scans,
           (unsigned long long)moves, (unsigned long long)gets);
    printf("Links make %llu deliveries, and %llu tries that have to wait for a cause.\n\n",
           (unsigned long long)deliveries, (unsigned long long)waits);
    printf("| of an update's list, on average | %s | %s |\n|---|---|---|\n", lists[OURS], lists[SHORT]);
    say_row("clocks that are not 0, of eight", mean(OURS, itself), mean(SHORT, itself));
    say_row("bytes as pairs of 3 bits of site and 16 of clock", mean(OURS, bytes_of), mean(SHORT, bytes_of));
    say_row("bytes as eight columns of 2", COLUMN_BYTES, COLUMN_BYTES);
    say_row("bytes in the shorter of the two forms", mean(OURS, least_bytes), mean(SHORT, least_bytes));
    printf("\n| clocks that are not 0 |");
    for (unsigned pairs = 0; pairs <= FC_SITES; pairs++)
        printf(" %u |", pairs);
    printf("\n|---|---|---|---|---|---|---|---|---|---|\n");
    for (int engine = 0; engine < ENGINES; engine++) {
        printf("| updates with %s |", lists[engine]);
        for (unsigned pairs = 0; pairs <= FC_SITES; pairs++)
            printf(" %llu |", (unsigned long long)updates_with[engine][pairs]);
        putchar('\n');
    }
}

/* For the picture: how many updates have so many pairs, and the pairs of each day. */
static bool write_figures(const char *path)
{
    FILE *figures = fopen(path, "w");
    if (figures == NULL)
        return false;
    fputs("what\tat\tupdates\tour\tshort\n", figures);
    for (unsigned pairs = 0; pairs <= FC_SITES; pairs++)
        fprintf(figures, "pairs\t%u\t%llu\t%llu\t%llu\n", pairs, (unsigned long long)updates(),
                (unsigned long long)updates_with[OURS][pairs], (unsigned long long)updates_with[SHORT][pairs]);
    for (int day = 0; day < DAYS; day++)
        fprintf(figures, "day\t%d\t%llu\t%llu\t%llu\n", day + 1, (unsigned long long)updates_on[day],
                (unsigned long long)pairs_on[OURS][day], (unsigned long long)pairs_on[SHORT][day]);
    return fclose(figures) == 0;
}

int main(int argc, char **argv)
{
    bool late[FC_SITES * FC_SITES] = {false};
    if (argc != 2) {
        fputs("lists FIGURES.tsv\n", stderr);
        return 2;
    }
    for (int engine = 0; engine < ENGINES; engine++)
        fc_open(FC_SITES, FILES, tables[engine], FC_TABLE_BYTES, replies[engine], FC_REPLY_BYTES);
    for (int hour = 0; hour < DAYS * DAY; hour++) {
        read_files(hour);
        if (hour % DAY == 1)
            scan_files(hour);
        run_links(late, hour);
        for (unsigned site = 0; site < FC_SITES; site++)
            move_cold_files(site, hour);
    }
    say();
    if (!write_figures(argv[1])) {
        perror(argv[1]);
        return 2;
    }
    if (mean(SHORT, itself) >= mean(OURS, itself))
        fail("short lists save nothing");
    return 0;
}
