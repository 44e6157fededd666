/*
 * A branch is closed, its replica stops applying, and every put is refused; then it is retired, and the others go on.
 *
 * The office and the depot each put a record a day, and hear of each other's every night. On day 1 the branch puts its
 * last record, of which the office hears, and applies what the others put that day. From then on it applies nothing.
 * An update is kept until every live site has applied it, sixteen of each origin, so both soon have no room for another
 * put. On day 25 the branch is retired. What it had put stays: the depot, whose link from the branch is only mended on
 * day 30, still hears of its last record.
 *
 * Beside it the same days with a branch that is not retired. Fails if there the puts are not refused for good, if here
 * one is refused after the branch was retired, if the branch's last record is lost or the branch still takes part, or
 * if the office and the depot do not end with equal stores.
 */
#include "forkcanyon.h"

#include <stdbool.h>
#include <stdio.h>
#include <string.h>

enum { OFFICE, DEPOT, BRANCH, SITE_COUNT };
enum { OFFICE_FILE, DEPOT_FILE, BRANCH_FILE, KEY_COUNT };
enum { LAST_RECORD = 7, RETIRED_ON = 25, MENDED_ON = 30, DAYS = 60 };
enum { STAYS, RETIRED, TABLES };

static uint8_t tables[TABLES][FC_TABLE_BYTES], reply[FC_REPLY_BYTES];

static const char *failed; /* the first thing that was not as it should be */

static void expect(bool holds, const char *what)
{
    if (!holds && failed == NULL)
        failed = what;
}

static uint32_t put(uint8_t *table, unsigned site, unsigned key, uint32_t value)
{
    return fc_put(site, key, value, table, FC_TABLE_BYTES, reply, sizeof reply);
}

/* All that the link has to bring. */
static void hear(uint8_t *table, unsigned site, unsigned origin)
{
    while (fc_deliver(site, origin, table, FC_TABLE_BYTES, reply, sizeof reply) == FC_OK)
        ;
}

static bool has_last_record(uint8_t *table, unsigned site)
{
    return fc_look(site, BRANCH_FILE, table, FC_TABLE_BYTES, reply, sizeof reply) == FC_OK &&
           fc_read(reply).value == LAST_RECORD;
}

/* What a day brings: the codes of the two puts, and of a look at the branch. */
struct day {
    uint32_t office, depot, branch;
};

static struct day play(uint8_t *table, bool retires, unsigned day)
{
    struct day codes;
    if (day == 1)
        expect(put(table, BRANCH, BRANCH_FILE, LAST_RECORD) == FC_OK, "the branch can't put its last record");
    if (retires && day == RETIRED_ON)
        expect(fc_retire(BRANCH, table, FC_TABLE_BYTES, reply, sizeof reply) == FC_OK, "the branch can't be retired");
    codes.office = put(table, OFFICE, OFFICE_FILE, day);
    codes.depot = put(table, DEPOT, DEPOT_FILE, day);
    hear(table, OFFICE, DEPOT);
    hear(table, OFFICE, BRANCH);
    hear(table, DEPOT, OFFICE);
    if (day >= MENDED_ON)
        hear(table, DEPOT, BRANCH);
    if (day == 1) {
        hear(table, BRANCH, OFFICE);
        hear(table, BRANCH, DEPOT);
    }
    codes.branch = fc_look(BRANCH, BRANCH_FILE, table, FC_TABLE_BYTES, reply, sizeof reply);
    return codes;
}

static const char *in_words(uint32_t code)
{
    return code == FC_OK ? "accepted" : code == FC_ROOM ? "no room" : code == FC_RETIRED ? "retired" : "refused";
}

static void say(unsigned first, unsigned last, struct day codes)
{
    printf("  %2u to %2u   %-16s   %-15s   %s\n", first, last, in_words(codes.office), in_words(codes.depot),
           in_words(codes.branch));
}

/* Whether each entry of the office and the depot has the same value, origin and clock. */
static bool equal_stores(uint8_t *table)
{
    bool equal = true;
    for (unsigned key = 0; key < KEY_COUNT; key++) {
        uint8_t held[FC_REPLY_BYTES];
        equal = equal && fc_look(OFFICE, key, table, FC_TABLE_BYTES, held, sizeof held) == FC_OK &&
                fc_look(DEPOT, key, table, FC_TABLE_BYTES, reply, sizeof reply) == FC_OK &&
                memcmp(held, reply, sizeof held) == 0;
    }
    return equal;
}

static void drain(uint8_t *table, unsigned site, uint32_t code)
{
    expect(fc_drain(site, FC_ENOUGH, table, FC_TABLE_BYTES, reply, sizeof reply) == code,
           code == FC_OK ? "a drain was refused" : "the branch still takes part");
}

/* The day from which on a site has the branch's last record; 0: never. */
static unsigned heard[SITE_COUNT];

static void note_heard(uint8_t *table, unsigned day)
{
    for (unsigned site = OFFICE; site <= DEPOT; site++)
        if (heard[site] == 0 && has_last_record(table, site))
            heard[site] = day;
}

int main(void)
{
    unsigned accepted[TABLES] = {0, 0}, first = 1;
    struct day today, before = {0, 0, 0};
    for (int at = STAYS; at < TABLES; at++)
        expect(fc_open(SITE_COUNT, KEY_COUNT, tables[at], FC_TABLE_BYTES, reply, sizeof reply) == FC_OK, "no table");
    printf("The branch stops applying after day 1, and is retired on day %d:\n\n", RETIRED_ON);
    puts("  days       the office's put   the depot's put   a look at the branch");
    for (unsigned day = 1; day <= DAYS; day++, before = today) {
        today = play(tables[STAYS], false, day);
        accepted[STAYS] += (today.office == FC_OK) + (today.depot == FC_OK);
        expect(day < RETIRED_ON || (today.office == FC_ROOM && today.depot == FC_ROOM),
               "puts are not refused while the branch stays, so this shows nothing");
        today = play(tables[RETIRED], true, day);
        accepted[RETIRED] += (today.office == FC_OK) + (today.depot == FC_OK);
        note_heard(tables[RETIRED], day);
        expect(day < RETIRED_ON || (today.office == FC_OK && today.depot == FC_OK),
               "a put is refused though the branch is retired");
        expect(day < RETIRED_ON || today.branch == FC_RETIRED, "the branch still takes part");
        if (day > 1 && memcmp(&today, &before, sizeof today) != 0) {
            say(first, day - 1, before);
            first = day;
        }
    }
    say(first, DAYS, today);
    drain(tables[RETIRED], BRANCH, FC_RETIRED);
    drain(tables[RETIRED], OFFICE, FC_OK);
    drain(tables[RETIRED], DEPOT, FC_OK);
    expect(heard[OFFICE] > 0 && heard[DEPOT] > 0, "the branch's last record is lost");
    expect(equal_stores(tables[RETIRED]), "the office and the depot disagree");
    printf("\nThe branch's last record is at the office since day %u, at the depot since day %u.\n", heard[OFFICE],
           heard[DEPOT]);
    printf("Of %d puts at the office and the depot, accepted\n", 2 * DAYS);
    printf("  if the branch stays        %3u\n  if the branch is retired   %3u\n", accepted[STAYS], accepted[RETIRED]);
    if (failed != NULL)
        printf("closed: FAILED: %s\n", failed);
    return failed != NULL;
}
