/*
 * The table that a schedule leaves: reads the text that tools/sched plain writes, makes its calls and writes the
 * table's bytes. With the word listing it writes the lines that run_schedule would, of a text with a retire too, which
 * no schedule has. A step that sets a field which it does not use is none: a schedule refuses it with 12.
 */
#include "forkcanyon.h"

#include <stdbool.h>
#include <stdio.h>
#include <string.h>

static uint8_t table[FC_TABLE_BYTES], reply[FC_REPLY_BYTES];

/* Whether there is a table then. */
static bool open_table(const char *line)
{
    unsigned long sites, keys;
    return sscanf(line, "sites %lu keys %lu", &sites, &keys) == 2 &&
           fc_open(sites, keys, table, sizeof table, reply, sizeof reply) == FC_OK;
}

static void make_call(const char *step)
{
    unsigned long first, second, third;
    memset(reply, 0, sizeof reply);
    if (strchr(step, '=') != NULL)
        reply[0] = FC_UNUSED;
    else if (sscanf(step, "put %lu %lu %lu", &first, &second, &third) == 3)
        fc_put(first, second, (uint32_t)third, table, sizeof table, reply, sizeof reply);
    else if (sscanf(step, "get %lu %lu", &first, &second) == 2)
        fc_get(first, second, table, sizeof table, reply, sizeof reply);
    else if (sscanf(step, "deliver %lu %lu", &first, &second) == 2)
        fc_deliver(first, second, table, sizeof table, reply, sizeof reply);
    else if (sscanf(step, "drain %lu", &first) == 1)
        fc_drain(first, FC_ENOUGH, table, sizeof table, reply, sizeof reply);
    else if (sscanf(step, "retire %lu", &first) == 1)
        fc_retire(first, table, sizeof table, reply, sizeof reply);
}

static void print_line(unsigned step)
{
    struct fc_answer answer = fc_read(reply);
    printf("%u %u %u %u %u %u\n", step, answer.code, answer.key, answer.site, answer.clock, (unsigned)answer.value);
}

int main(int argc, char **argv)
{
    char line[128];
    bool listing = argc == 2 && strcmp(argv[1], "listing") == 0;
    unsigned steps = 0;
    bool opened = fgets(line, sizeof line, stdin) != NULL && open_table(line);
    if (listing)
        print_line(0);
    else if (!opened) {
        fputs("table: the schedule's open is refused\n", stderr);
        return 1;
    }
    while (opened && fgets(line, sizeof line, stdin) != NULL && strncmp(line, "bytes", 5) != 0) {
        make_call(line);
        steps++;
        if (listing)
            print_line(steps);
    }
    if (listing)
        return printf("end %u\n", steps) < 0;
    return fwrite(table, sizeof table, 1, stdout) == 1 ? 0 : 1;
}
