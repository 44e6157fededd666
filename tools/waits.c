/*
 * A grid of a table's links: receivers down, origins across, and for each the state of its next delivery.
 * Everything it says was answered by the library, to calls on copies of the table.
 */
#include "forkcanyon.h"

#include <errno.h>
#include <stdio.h>
#include <string.h>

struct table {
    uint8_t bytes[FC_TABLE_BYTES];
};

/* The next delivery of a link: what it answers, and of each site it waits for the clock, 0 if no call tells it. */
struct link {
    struct fc_answer answer;
    uint16_t clock[FC_SITES];
};

enum { CELL = 8 * FC_SITES };

/* The answer to a delivery, which changes the table. */
static struct fc_answer deliver(struct table *table, unsigned site, unsigned origin)
{
    uint8_t reply[FC_REPLY_BYTES];
    fc_deliver(site, origin, table->bytes, sizeof table->bytes, reply, sizeof reply);
    return fc_read(reply);
}

/* The same without a change. */
static struct fc_answer would_deliver(const struct table *table, unsigned site, unsigned origin)
{
    struct table copy = *table;
    return deliver(&copy, site, origin);
}

/* One delivery to site from some other origin, whose clock is noted if the link no longer waits for that origin. */
static int bring_one(struct table *copy, unsigned site, unsigned origin, struct link *link)
{
    for (unsigned other = 0; other < FC_SITES; other++) {
        struct fc_answer before = would_deliver(copy, site, origin);
        if (before.code != FC_WAITS || other == origin)
            continue;
        struct fc_answer brought = deliver(copy, site, other);
        if (brought.code != FC_OK)
            continue;
        if (fc_waits_for(before, other) && !fc_waits_for(would_deliver(copy, site, origin), other))
            link->clock[other] = brought.clock;
        return 1;
    }
    return 0;
}

/* The answer names the lowest site's clock. Of the others it is the clock of the delivery that ends the wait for them. */
static struct link state_of(const struct table *table, unsigned site, unsigned origin)
{
    struct link link = {.answer = would_deliver(table, site, origin)};
    if (link.answer.code != FC_WAITS)
        return link;
    struct table copy = *table;
    while (bring_one(&copy, site, origin, &link))
        ;
    link.clock[link.answer.site] = link.answer.clock;
    return link;
}

static void write_words(char *words, const struct link *link)
{
    uint8_t code = link->answer.code;
    if (code != FC_WAITS)
        strcpy(words, code == FC_OK ? "ready" : code == FC_RETIRED ? "retired" : "-");
    for (unsigned site = 0; site < FC_SITES; site++) {
        const char *space = site == link->answer.site ? "" : " ";
        if (fc_waits_for(link->answer, site) && link->clock[site] == 0)
            words += sprintf(words, "%s%u:?", space, site);
        else if (fc_waits_for(link->answer, site))
            words += sprintf(words, "%s%u:%u", space, site, link->clock[site]);
    }
}

static unsigned sites_of(const struct table *table)
{
    unsigned sites = 0;
    while (sites < FC_SITES && would_deliver(table, sites, sites).code != FC_SITE)
        sites++;
    return sites;
}

static void print_grid(const struct table *table)
{
    static char words[FC_SITES][FC_SITES][CELL];
    unsigned sites = sites_of(table);
    int width[FC_SITES] = {0}, unknown = 0, strange = 0, retired = 0;
    for (unsigned origin = 0; origin < sites; origin++) {
        width[origin] = (int)strlen("from 0");
        for (unsigned site = 0; site < sites; site++) {
            if (site == origin)
                continue;
            struct link link = state_of(table, site, origin);
            write_words(words[site][origin], &link);
            retired = retired || link.answer.code == FC_RETIRED;
            int length = (int)strlen(words[site][origin]);
            width[origin] = length > width[origin] ? length : width[origin];
            for (unsigned named = 0; named < FC_SITES; named++) {
                unknown = unknown || (fc_waits_for(link.answer, named) && link.clock[named] == 0);
                strange = strange || (fc_waits_for(link.answer, named) && named >= sites);
            }
        }
    }
    fputs("    ", stdout);
    for (unsigned origin = 0; origin < sites; origin++)
        printf("  from %-*u", origin + 1 < sites ? width[origin] - (int)strlen("from ") : 0, origin);
    for (unsigned site = 0; site < sites; site++) {
        printf("\nto %u", site);
        for (unsigned origin = 0; origin < sites; origin++)
            printf("  %-*s", origin + 1 < sites ? width[origin] : 0, words[site][origin]);
    }
    puts("\n- nothing to deliver; ready; or site:clock, each put that the link's next one waits for");
    if (retired)
        puts("retired: nothing is delivered there any more; what it has put is still delivered to the others");
    if (unknown)
        puts("? a clock that no call tells, since nothing can be delivered from that site now");
    if (strange)
        printf("sites from %u on are none of the table's: what waits for one will never be ready\n", sites);
}

/* Reads the file whole; one byte more than a table has is enough to see that it is too long. */
static size_t read_file(const char *name, uint8_t *bytes, size_t most)
{
    FILE *file = fopen(name, "rb");
    size_t length = file == NULL ? 0 : fread(bytes, 1, most, file);
    if (file == NULL || ferror(file)) {
        fprintf(stderr, "%s: %s\n", name, strerror(errno));
        return SIZE_MAX;
    }
    fclose(file);
    return length;
}

int main(int argc, char **argv)
{
    static uint8_t bytes[FC_TABLE_BYTES + 1], reply[FC_REPLY_BYTES];
    static struct table table;
    if (argc != 2) {
        fputs("usage: waits FILE, the bytes of a table\n", stderr);
        return 2;
    }
    size_t length = read_file(argv[1], bytes, sizeof bytes);
    if (length == SIZE_MAX)
        return 1;
    memcpy(table.bytes, bytes, sizeof table.bytes);
    switch (fc_drain(0, 0, bytes, length, reply, sizeof reply)) {
    case FC_SIZE:
        fprintf(stderr, "%s: %s than the %d bytes of a table\n", argv[1], length > FC_TABLE_BYTES ? "more" : "fewer",
                FC_TABLE_BYTES);
        return 1;
    case FC_UNSOUND:
        fprintf(stderr, "%s: the table is not sound; fc_open() in forkcanyon.h says what that asks\n", argv[1]);
        return 1;
    default:
        print_grid(&table);
        return 0;
    }
}
