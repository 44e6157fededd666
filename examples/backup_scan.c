/*
 * The buyer's story. A backup scan opens every file, so every file looks freshly used. The scan
 * therefore puts its mark first, and each site that has read the mark puts the touched times of its
 * files. The policy of a far site keeps fresh files on costly disks, unless it sees the mark.
 *
 * The links serve the far site in every order there is, with other traffic between, and the policy
 * looks after every delivery: here, and beside it in a plain replica in which the last writer wins.
 */
#include "forkcanyon.h"

#include <stdbool.h>
#include <stdio.h>
#include <stdlib.h>
#include <string.h>

enum { OFFICE, BRANCH, DEPOT, FAR, SITE_COUNT };
enum { MARK, LEDGER, PHOTOS, DRAWINGS, NOTE, KEY_COUNT };
enum { OLD_HOUR = 100, SCAN_HOUR = 900, SCAN = 1, MOST_UPDATES = 8 };

static const char *const sites[] = {"office", "branch", "depot", "far"};
static const char *const keys[] = {"the mark", "ledger", "photos", "drawings", "a note"};

/* What the office, the branch and the depot have put and the far site has not been given yet. */
struct update {
    unsigned key, value, stamp;
};
static struct update sent[SITE_COUNT][MOST_UPDATES];
static unsigned sent_count[SITE_COUNT];

/* A replica without causes: whatever comes is stored, unless what is there was written later. */
struct plain {
    unsigned value[KEY_COUNT], stamp[KEY_COUNT], given[SITE_COUNT];
};

static struct plain plain_start;
static uint8_t start[FC_TABLE_BYTES];
static uint8_t reply[FC_REPLY_BYTES];
static unsigned writes;

static void must(uint32_t code, const char *what)
{
    if (code != FC_OK) {
        printf("story: %s was refused with %u\n", what, (unsigned)code);
        exit(1);
    }
}

static void put(unsigned site, unsigned key, unsigned value)
{
    must(fc_put(site, key, value, start, sizeof start, reply, sizeof reply), "a put");
    sent[site][sent_count[site]++] = (struct update){key, value, ++writes};
}

/* Brings a site the news of the office, and reads the mark there: what it puts now has seen it. */
static void read_mark(unsigned site)
{
    must(fc_drain(site, FC_ENOUGH, start, sizeof start, reply, sizeof reply), "a drain");
    must(fc_get(site, MARK, start, sizeof start, reply, sizeof reply), "a get");
    if (fc_read(reply).value != SCAN)
        must(FC_NONE, "reading the mark");
}

static void quiet_start(void)
{
    must(fc_open(SITE_COUNT, KEY_COUNT, start, sizeof start, reply, sizeof reply), "opening");
    for (unsigned file = LEDGER; file <= DRAWINGS; file++)
        put(OFFICE, file, OLD_HOUR);
    for (unsigned site = BRANCH; site <= FAR; site++)
        must(fc_drain(site, FC_ENOUGH, start, sizeof start, reply, sizeof reply), "a drain");
    for (unsigned at = 0; at < sent_count[OFFICE]; at++) {
        plain_start.value[sent[OFFICE][at].key] = sent[OFFICE][at].value;
        plain_start.stamp[sent[OFFICE][at].key] = sent[OFFICE][at].stamp;
    }
    sent_count[OFFICE] = 0;
}

static void scan(void)
{
    put(BRANCH, NOTE, 1);
    put(OFFICE, MARK, SCAN);
    put(OFFICE, LEDGER, SCAN_HOUR);
    put(OFFICE, NOTE, 2);
    read_mark(BRANCH);
    put(BRANCH, PHOTOS, SCAN_HOUR + 1);
    put(BRANCH, NOTE, 3);
    read_mark(DEPOT);
    put(DEPOT, DRAWINGS, SCAN_HOUR + 2);
    put(DEPOT, NOTE, 4);
}

/* A fresh time without the mark: the policy would take the scan for people at work. */
static bool fooled(const unsigned *value)
{
    bool fresh = false;
    for (unsigned file = LEDGER; file <= DRAWINGS; file++)
        fresh = fresh || value[file] >= SCAN_HOUR;
    return fresh && value[MARK] != SCAN;
}

static void look(uint8_t *table, unsigned *value)
{
    for (unsigned key = 0; key < KEY_COUNT; key++) {
        must(fc_look(FAR, key, table, FC_TABLE_BYTES, reply, sizeof reply), "a look");
        value[key] = fc_read(reply).value;
    }
}

static const struct update *plain_deliver(struct plain *plain, unsigned origin)
{
    const struct update *update = &sent[origin][plain->given[origin]++];
    if (update->stamp > plain->stamp[update->key]) {
        plain->value[update->key] = update->value;
        plain->stamp[update->key] = update->stamp;
    }
    return update;
}

struct tally {
    unsigned orders, looks, fooled, plain_fooled, plain_orders;
};

static void say(unsigned origin, struct fc_answer answer, const struct update *update, bool ours, bool plains)
{
    char here[64], there[64] = "";
    if (answer.code == FC_WAITS)
        snprintf(here, sizeof here, "waits for %s, put %u", sites[answer.site], answer.clock);
    else
        snprintf(here, sizeof here, "takes %s %lu", keys[answer.key], (unsigned long)answer.value);
    if (update != NULL)
        snprintf(there, sizeof there, "takes %s %u", keys[update->key], update->value);
    printf("  %-7s %-28s%-9s %-*s%s\n", sites[origin], here, ours ? "FOOLED" : "", plains ? 20 : 0, there,
           plains ? "FOOLED" : "");
}

/* Serves the far site in one order, then what had to wait; both policies look after each delivery. */
static unsigned play(const unsigned *order, unsigned length, struct tally *tally, bool aloud)
{
    static uint8_t table[FC_TABLE_BYTES];
    struct plain plain = plain_start;
    unsigned plain_fooled = 0, delivered = 0, seen[KEY_COUNT] = {0};
    memcpy(table, start, sizeof table);
    for (unsigned turn = 0; delivered < length; turn++) {
        if (turn > length * length)
            must(FC_WAITS, "a delivery, again and again,");
        unsigned origin = order[turn % length];
        const struct update *update = turn < length ? plain_deliver(&plain, origin) : NULL;
        uint32_t code = fc_deliver(FAR, origin, table, sizeof table, reply, sizeof reply);
        if (code == FC_NONE)
            continue;
        struct fc_answer answer = fc_read(reply);
        if (code != FC_WAITS)
            must(code, "a delivery");
        delivered += code == FC_OK;
        look(table, seen);
        bool ours = fooled(seen), plains = fooled(plain.value);
        tally->looks++;
        tally->fooled += ours;
        plain_fooled += plains;
        if (aloud)
            say(origin, answer, update, ours, plains);
    }
    if (memcmp(seen, plain.value, NOTE * sizeof *seen) != 0)
        must(FC_WAITS, "a mark or a time, to the end,");
    tally->orders++;
    tally->plain_fooled += plain_fooled;
    tally->plain_orders += plain_fooled > 0;
    return plain_fooled;
}

static unsigned worst_order[SITE_COUNT * MOST_UPDATES], worst;

/* Every order in which the links can be served; remembers the one that fools the plain replica most. */
static void play_all(unsigned *order, unsigned at, unsigned length, unsigned *left, struct tally *tally)
{
    if (at == length) {
        unsigned plain_fooled = play(order, length, tally, false);
        if (plain_fooled > worst) {
            worst = plain_fooled;
            memcpy(worst_order, order, length * sizeof *order);
        }
        return;
    }
    for (unsigned origin = OFFICE; origin < FAR; origin++) {
        if (left[origin] == 0)
            continue;
        left[origin]--;
        order[at] = origin;
        play_all(order, at + 1, length, left, tally);
        left[origin]++;
    }
}

int main(void)
{
    quiet_start();
    scan();
    unsigned order[SITE_COUNT * MOST_UPDATES], left[SITE_COUNT], length = 0;
    for (unsigned site = 0; site < SITE_COUNT; site++)
        length += left[site] = sent_count[site];
    struct tally tally = {0}, once = {0};
    play_all(order, 0, length, left, &tally);

    puts("The office marks a scan and touches the ledger at hour 900. The branch and the depot read the");
    puts("mark, then touch photos and drawings. The worst order in which the far site can hear of it:\n");
    printf("  %-7s %-37s %s\n", "from", "Forkcanyon", "plain, last writer wins");
    if (worst > 0)
        play(worst_order, length, &once, true);
    printf("\nOver all %u orders and %u looks, the policy saw a fresh time without the mark\n", tally.orders,
           tally.looks);
    printf("  with Forkcanyon              %5u times\n", tally.fooled);
    printf("  with the plain replica       %5u times, in %u of the orders\n", tally.plain_fooled, tally.plain_orders);
    return tally.fooled > 0 || tally.plain_fooled == 0;
}
