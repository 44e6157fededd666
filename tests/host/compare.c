/* Random calls in one process, the library against the second program: every byte, every code. */
#include "laws.h"
#include "lent.h"
#include "met.h"
#include "tables.h"
#include "traffic.h"

#include <stdio.h>
#include <stdlib.h>
#include <string.h>
#include <time.h>

static struct rng rng;
static struct met met;
static uint64_t calls;
static struct room table_room, list_room, reply_room;
static uint8_t held[LENT_MOST]; /* the table between calls */
static enum start held_is;

struct lengths {
    size_t table, list, reply;
};
static const struct lengths right = {FC_TABLE_BYTES, FC_LIST_BYTES, FC_REPLY_BYTES};

/* What the list and the reply hold before the call: garbage. */
static uint8_t old_list[LENT_MOST], old_reply[LENT_MOST];

/* What is wrong with the library's outcome, or NULL. */
static const char *wrong(const struct call *call, struct outcome ours, struct outcome twins, struct lengths length)
{
    if (ours.code != twins.code)
        return "the codes returned";
    if (memcmp(ours.table, twins.table, length.table) != 0)
        return "the tables";
    if (memcmp(ours.list, twins.list, length.list) != 0)
        return "the lists";
    if (memcmp(ours.reply, twins.reply, length.reply) != 0)
        return "the replies";
    if (!room_is_clean(&table_room) || !room_is_clean(&list_room) || !room_is_clean(&reply_room))
        return "bytes beside a buffer";
    if ((ours.code == FC_RANGE) != out_of_range(call, length.list))
        return "14 comes first of all, and for nothing else";
    if ((call->kind != COLD || ours.code != FC_OK) && memcmp(ours.list, old_list, length.list) != 0)
        return "a refusal keeps the list, and so does any other call";
    if (length.reply != FC_REPLY_BYTES &&
        ((ours.code != FC_SIZE && ours.code != FC_RANGE) || memcmp(ours.reply, old_reply, length.reply) != 0))
        return "a reply of another length, or its code";
    if (length.reply == FC_REPLY_BYTES && ours.reply[0] != ours.code)
        return "the code returned and the reply's";
    if (length.table == FC_TABLE_BYTES && length.reply == FC_REPLY_BYTES)
        return broken_law(held_is, call, held, ours);
    return memcmp(ours.table, held, length.table) != 0 ? "a buffer of another length" : NULL;
}

static void show_difference(const char *name, const uint8_t *ours, const uint8_t *twins, size_t length)
{
    for (size_t at = 0; at < length; at++) {
        if (ours[at] != twins[at]) {
            printf("  byte %zu of the %s: forkcanyon %u, twin %u\n", at, name, ours[at], twins[at]);
            return;
        }
    }
}

static void complain(const char *what, const struct call *call, struct outcome ours, struct outcome twins,
                     struct lengths length)
{
    printf("host: DIFFERENT at call %llu: %s\n  %s of", (unsigned long long)calls, what, kind_names[call->kind]);
    for (int at = 0; at < MOST_NUMBERS; at++)
        printf(" %llu", (unsigned long long)call->numbers[at]);
    printf(", table of %zu, list of %zu, reply of %zu\n", length.table, length.list, length.reply);
    printf("  forkcanyon answers %u, twin %u\n", ours.code, twins.code);
    show_difference("table", ours.table, twins.table, length.table);
    show_difference("list", ours.list, twins.list, length.list);
    show_difference("reply", ours.reply, twins.reply, length.reply);
    exit(1);
}

/* Lends a copy to both, and says where they are. */
static struct lent lend_both(struct room *room, uint8_t *twins, const uint8_t *bytes, size_t length)
{
    struct lent lent = {room_lend(room, &rng, length), length};
    memcpy(lent.bytes, bytes, length);
    memcpy(twins, bytes, length);
    return lent;
}

static struct outcome outcome_of(const struct library *library, const struct call *call, struct buffers lent)
{
    uint32_t code = make_call(library, call, &lent);
    return (struct outcome){code, lent.table.bytes, lent.list.bytes, lent.reply.bytes};
}

/* One call on held, which becomes the table the library leaves. */
static void compare(struct call call, struct lengths length)
{
    static uint8_t twin_table[LENT_MOST], twin_list[LENT_MOST], twin_reply[LENT_MOST];
    rng_fill(&rng, old_list, length.list);
    rng_fill(&rng, old_reply, length.reply);
    struct buffers lent = {lend_both(&table_room, twin_table, held, length.table),
                           lend_both(&list_room, twin_list, old_list, length.list),
                           lend_both(&reply_room, twin_reply, old_reply, length.reply)};
    struct buffers twin_lent = {
        {twin_table, length.table}, {twin_list, length.list}, {twin_reply, length.reply}};

    struct outcome ours = outcome_of(&forkcanyon, &call, lent), twins = outcome_of(&twin, &call, twin_lent);
    const char *what = wrong(&call, ours, twins, length);
    if (what != NULL)
        complain(what, &call, ours, twins, length);
    calls += 1;
    if (length.reply == FC_REPLY_BYTES)
        met_note(&met, &call, held, ours, memcmp(held, ours.table, length.table) != 0);
    memcpy(held, ours.table, length.table);
}

static void compare_some(struct traffic *traffic, uint64_t times)
{
    while (times-- > 0)
        compare(some_call(&rng, traffic), right);
}

/* The traffic that suits the counts of the table that is held, with so many more drains and retirements. */
static struct traffic traffic_of_held(unsigned wild, unsigned more)
{
    struct traffic traffic = some_traffic(&rng, held[0] ? held[0] : 1, held[1] ? held[1] : 1, wild);
    traffic.weights[OPEN] = rng_chance(&rng, 20);
    traffic.weights[DRAIN] += more;
    traffic.weights[SHORT_DRAIN] += more;
    traffic.weights[RETIRE] += more;
    traffic.table = held;
    return traffic;
}

static void walk_from_opening(uint64_t length)
{
    struct call open = {OPEN, {1 + rng_below(&rng, FC_SITES), 1 + rng_below(&rng, FC_KEYS)}};
    if (rng_chance(&rng, 50))
        open.numbers[1] = 1 + rng_below(&rng, 3);
    compare(open, right);
    held_is = REACHED;
    struct traffic traffic = traffic_of_held(2, 0);
    traffic.weights[OPEN] = 0;
    keep_one_engine(&traffic, rng_chance(&rng, 50));
    compare_some(&traffic, length);
}

static void unreached_table(void)
{
    make_sound_table(&rng, held);
    held_is = SOUND;
    struct traffic traffic = traffic_of_held(5, 1);
    compare_some(&traffic, 1 + rng_below(&rng, 40));
}

static void damaged_table(void)
{
    if (rng_chance(&rng, 50))
        make_sound_table(&rng, held);
    damage_table(&rng, held);
    held_is = ANYTHING;
    struct traffic traffic = traffic_of_held(10, 1);
    compare_some(&traffic, 1 + rng_below(&rng, 3));
}

static size_t some_length(size_t right)
{
    const size_t near[] = {0, 1, right - 1, right, right, right + 1, 2 * right};
    return rng_chance(&rng, 80) ? near[rng_below(&rng, 7)] : rng_below(&rng, LENT_MOST + 1);
}

static void wrong_lengths(void)
{
    held_is = ANYTHING;
    struct traffic traffic = traffic_of_held(5, 5);
    traffic.weights[OPEN] = 5;
    for (int times = 0; times < 5; times++) {
        struct lengths length = {some_length(FC_TABLE_BYTES), some_length(FC_LIST_BYTES), some_length(FC_REPLY_BYTES)};
        if (rng_chance(&rng, 50))
            length.list = FC_LIST_BYTES; /* else a cold list of 14 hides the other lengths */
        compare(some_call(&rng, &traffic), length);
    }
}

static void round_of_calls(void)
{
    switch (rng_below(&rng, 8)) {
    case 0:
        walk_from_opening(300);
        break;
    case 1:
    case 2:
        unreached_table();
        break;
    case 3:
    case 4:
    case 5:
        damaged_table();
        break;
    default:
        wrong_lengths();
    }
}

int main(int argc, char **argv)
{
    if (argc != 4) {
        fputs("compare SEED CALLS SECONDS: goes on until both are reached\n", stderr);
        return 2;
    }
    rng.state = strtoull(argv[1], NULL, 10);
    uint64_t enough = strtoull(argv[2], NULL, 10);
    time_t until = time(NULL) + atol(argv[3]);
    room_build(&table_room);
    room_build(&list_room);
    room_build(&reply_room);
    for (int short_lists = 0; short_lists < 2; short_lists++) {
        const char *what = broken_by_a_look_or_an_adopt(short_lists, &met.engines[short_lists].threes);
        if (what != NULL) {
            printf("host: FAILED: %s: %s\n", short_lists ? "short lists" : "ours", what);
            return 1;
        }
    }
    while (calls < enough || time(NULL) < until)
        round_of_calls();
    met_print(&met);
    printf("host: %llu calls, every byte the same\n", (unsigned long long)calls);
    if (!met_all(&met)) {
        puts("host: FAILED: a code that can be met was not, or one that cannot be was");
        return 1;
    }
    return 0;
}
