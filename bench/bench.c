/* Times the library against the second program, in turns, and writes the nanoseconds of both for every scene. */
#include "scenes.h"
#include "traffic.h"

#include <sched.h>
#include <stdio.h>
#include <stdlib.h>
#include <string.h>
#include <time.h>

static double now_ns(void)
{
    struct timespec time;
    clock_gettime(CLOCK_MONOTONIC, &time);
    return (double)time.tv_sec * 1e9 + (double)time.tv_nsec;
}

/* A change of cores in the middle would favour whichever program runs after it. */
static void stay_on_this_core(void)
{
    cpu_set_t here;
    CPU_ZERO(&here);
    CPU_SET((size_t)sched_getcpu(), &here);
    if (sched_setaffinity(0, sizeof here, &here) != 0)
        fputs("bench: may move between cores\n", stderr);
}

struct starts {
    uint8_t tables[MOST_TABLES][FC_TABLE_BYTES];
    unsigned count;
};

/* Plays the scene once, so that each adopt of it can name what its key holds by then. */
static void name_adopted(struct scene *scene, const struct starts *starts, unsigned turn)
{
    static uint8_t tables[MOST_TABLES][FC_TABLE_BYTES];
    memcpy(tables, starts->tables, starts->count * sizeof tables[0]);
    for (unsigned at = 0; at < scene->count; at++) {
        struct call *call = &scene->calls[at];
        uint8_t *table = tables[(at + turn) % starts->count];
        if (namesake(call->kind) == ADOPT)
            name_held(call, table);
        if (make_plain_call(&twin, *call, table) != FC_OK && namesake(call->kind) == ADOPT) {
            fputs("bench: an adopt was refused\n", stderr);
            exit(2);
        }
    }
}

static bool adopts(const struct scene *scene)
{
    unsigned at = 0;
    while (at < scene->count && namesake(scene->calls[at].kind) != ADOPT)
        at++;
    return at < scene->count;
}

/* Each call is made on the next table, in every turn from another one on: a processor is not to learn them by heart. */
static double time_scene(const struct library *library, const struct scene *scene, const struct starts *starts,
                         unsigned turn)
{
    static uint8_t tables[MOST_TABLES][FC_TABLE_BYTES], list[FC_LIST_BYTES], reply[FC_REPLY_BYTES];
    struct buffers lent = {{NULL, sizeof tables[0]}, {list, sizeof list}, {reply, sizeof reply}};
    memcpy(tables, starts->tables, starts->count * sizeof tables[0]);
    double begun = now_ns();
    for (unsigned at = 0; at < scene->count; at++) {
        lent.table.bytes = tables[(at + turn) % starts->count];
        make_call(library, &scene->calls[at], &lent);
    }
    return (now_ns() - begun) / scene->count;
}

struct cost {
    double ours, twins;
};

/* Nanoseconds a call: the least of many turns, which other work on the machine disturbs least. */
static struct cost cost_of(struct scene *scene, const struct starts *starts, unsigned turns)
{
    struct cost least = {1e18, 1e18};
    for (unsigned turn = 0; turn < turns; turn++) {
        if (adopts(scene))
            name_adopted(scene, starts, turn);
        double ours = time_scene(&forkcanyon, scene, starts, turn);
        double twins = time_scene(&twin, scene, starts, turn);
        least.ours = ours < least.ours ? ours : least.ours;
        least.twins = twins < least.twins ? twins : least.twins;
    }
    return least;
}

int main(int argc, char **argv)
{
    static const unsigned site_counts[] = {1, 2, 4, 8}, key_counts[] = {1, 16, 64};
    static struct starts starts[2]; /* with our calls, and with short lists */
    if (argc != 3) {
        fputs("bench TURNS FIGURES.tsv\n", stderr);
        return 2;
    }
    unsigned turns = (unsigned)strtoul(argv[1], NULL, 10);
    FILE *figures = fopen(argv[2], "w");
    if (figures == NULL || turns == 0) {
        fprintf(stderr, "bench: cannot write %s, or no turns\n", argv[2]);
        return 2;
    }
    stay_on_this_core();
    fputs("table\tsites\tkeys\tscene\tmix\tours_ns\ttwins_ns\n", figures);
    for (unsigned row = 0; row < 12 * FILLINGS; row++) {
        enum filling filling = (enum filling)(row / 12);
        unsigned sites = site_counts[row / 3 % 4], keys = key_counts[row % 3];
        for (int lists = 0; lists < 2; lists++)
            starts[lists].count = make_starts(starts[lists].tables, lists, filling, sites, keys);
        for (unsigned which = 0; which < SCENES; which++) {
            struct scene scene = make_scene(which, filling, sites, keys);
            struct cost cost = cost_of(&scene, &starts[scene_is_short(which)], turns);
            fprintf(figures, "%s\t%u\t%u\t%s\t%d\t%.1f\t%.1f\n", filling_names[filling], sites, keys,
                    scene_name(which), which >= FIRST_MIX, cost.ours, cost.twins);
        }
    }
    return fclose(figures) == 0 ? 0 : 2;
}
