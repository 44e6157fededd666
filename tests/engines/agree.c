/*
 * The same calls from opening, with the library's short lists on one table and with the second program's long ones, by the
 * steps before request (e), on another: after every step the codes, the answers, the entries and the applied counts are
 * the same. Only the site, clock and value beside a 10 may differ, and in the tables only what the sites depend on and
 * the vectors.
 */
#include "tables.h"
#include "traffic.h"

#include <stdio.h>
#include <stdlib.h>
#include <string.h>

static struct rng rng;

/* One engine's run: its table, and what its last call left. */
struct side {
    uint8_t table[FC_TABLE_BYTES], list[FC_LIST_BYTES], reply[FC_REPLY_BYTES];
    uint32_t code;
};
static struct side long_side, short_side;

static struct {
    uint64_t steps, opens, refusals, drains, retirements, waits, other_waits, other_vectors;
    uint64_t entries; /* looked at, on both tables */
} seen;

/* The bytes of a table that may differ: what the sites depend on, and the vectors of entries and updates. */
static bool may_differ(size_t at)
{
    return at >= STORE ? (at - STORE) % RECORD >= RECORD_VECTOR : at >= DEPENDS;
}

/* A list of the immediate causes has no clock above that of all causes. */
static const char *wrong_tables(void)
{
    for (size_t at = 0; at < FC_TABLE_BYTES; at++)
        if (long_side.table[at] != short_side.table[at] && !may_differ(at))
            return at < DEPENDS ? "the counts or the retired sites" : "a value, origin, key or clock";
    for (size_t at = DEPENDS; at < FC_TABLE_BYTES; at += 2)
        if (may_differ(at) && clock_at(short_side.table, at) > clock_at(long_side.table, at))
            return "a short list with a clock that the long one has not";
    return NULL;
}

static struct fc_answer look(struct side *side, uint64_t site, uint64_t key)
{
    uint8_t reply[FC_REPLY_BYTES];
    if (fc_look(site, key, side->table, sizeof side->table, reply, sizeof reply) != FC_OK) {
        puts("engines: FAILED: a look was refused");
        exit(1);
    }
    return fc_read(reply);
}

/* At a retired site nobody may look; its bytes have been compared. */
static const char *wrong_entries(void)
{
    for (uint64_t site = 0; site < long_side.table[0]; site++)
        for (uint64_t key = 0; key < long_side.table[1] && !is_retired(long_side.table, site); key++) {
            struct fc_answer one = look(&long_side, site, key), other = look(&short_side, site, key);
            if (one.value != other.value || one.site != other.site || one.clock != other.clock)
                return "value, origin and clock of an entry";
            seen.entries++;
        }
    return NULL;
}

static const char *wrong_answers(void)
{
    struct fc_answer all = fc_read(long_side.reply), immediate = fc_read(short_side.reply);
    if (long_side.code != short_side.code)
        return "the codes";
    if (memcmp(long_side.list, short_side.list, FC_LIST_BYTES) != 0)
        return "the cold lists";
    if (long_side.code != FC_WAITS)
        return memcmp(long_side.reply, short_side.reply, FC_REPLY_BYTES) != 0 ? "the answers" : NULL;
    seen.waits++;
    seen.other_waits += memcmp(long_side.reply, short_side.reply, FC_REPLY_BYTES) != 0;
    if (all.code != immediate.code || all.key != immediate.key)
        return "code and key beside a 10";
    return (immediate.value & ~all.value) != 0 ? "a site that short lists wait for and long ones do not" : NULL;
}

/* One of the buffers is at times of another length. */
struct lengths {
    size_t table, list, reply;
};

static struct lengths some_lengths(void)
{
    struct lengths lengths = {FC_TABLE_BYTES, FC_LIST_BYTES, FC_REPLY_BYTES};
    if (rng_chance(&rng, 2))
        lengths.table = rng_below(&rng, FC_TABLE_BYTES);
    if (rng_chance(&rng, 1))
        lengths.list = rng_below(&rng, FC_LIST_BYTES);
    if (rng_chance(&rng, 1))
        lengths.reply = rng_below(&rng, FC_REPLY_BYTES);
    return lengths;
}

/* The same garbage stands in both replies and lists before the call. */
static void make(struct side *side, const struct library *library, struct call call, struct lengths lengths)
{
    memset(side->list, 0xA5, sizeof side->list);
    memset(side->reply, 0xA5, sizeof side->reply);
    struct buffers lent = {
        {side->table, lengths.table}, {side->list, lengths.list}, {side->reply, lengths.reply}};
    side->code = make_call(library, &call, &lent);
}

static void complain(const char *what, const struct call *call)
{
    printf("engines: DIFFERENT at step %llu: %s\n  %s of", (unsigned long long)seen.steps, what,
           kind_names[call->kind]);
    for (int at = 0; at < MOST_NUMBERS; at++)
        printf(" %llu", (unsigned long long)call->numbers[at]);
    printf("\n  long lists answer %u, short ones %u\n", long_side.code, short_side.code);
    exit(1);
}

static void step(struct call call, struct lengths lengths)
{
    struct call with_short = call;
    with_short.kind = with_short_lists(call.kind);
    make(&long_side, &before, call, lengths);
    make(&short_side, &forkcanyon, with_short, lengths);
    seen.steps++;
    const char *what = wrong_answers();
    if (what == NULL)
        what = wrong_tables();
    if (what == NULL)
        what = wrong_entries();
    if (what != NULL)
        complain(what, &call);
    seen.opens += call.kind == OPEN && long_side.code == FC_OK;
    seen.drains += call.kind == DRAIN && long_side.code == FC_OK;
    seen.retirements += call.kind == RETIRE && long_side.code == FC_OK;
    seen.refusals += long_side.code != FC_OK;
    seen.other_vectors += memcmp(long_side.table, short_side.table, FC_TABLE_BYTES) != 0;
}

static const struct lengths right = {FC_TABLE_BYTES, FC_LIST_BYTES, FC_REPLY_BYTES};

/* Mostly many sites and few keys, so that reads meet what other sites have put; and links of which half are slow, so that
   deliveries wait for sites that are not heard of. */
static void walk(uint64_t steps)
{
    static unsigned walks;
    uint64_t sites = rng_chance(&rng, 80) ? 4 + rng_below(&rng, FC_SITES - 3) : 1 + rng_below(&rng, 3);
    uint64_t keys = 1 + rng_below(&rng, rng_chance(&rng, 90) ? 6 : FC_KEYS);
    step((struct call){OPEN, {sites, keys}}, right);
    struct traffic traffic = some_traffic(&rng, (unsigned)sites, (unsigned)keys, 2);
    keep_one_engine(&traffic, false);
    traffic.weights[OPEN] = rng_chance(&rng, 10);
    traffic.weights[LOOK] = traffic.weights[COLD] = 1;
    traffic.weights[RETIRE] = walks++ % 2;
    traffic.weights[GET] += 4;
    traffic.weights[DELIVER] += 10;
    traffic.slow = rng_bits(&rng);
    traffic.table = long_side.table;
    while (steps-- > 0)
        step(some_call(&rng, &traffic), some_lengths());
}

/* Site 2 has got what site 1 put, which had got what site 0 put: site 3 waits for two sites, or is told of one. */
static void chain_of_three(void)
{
    static const struct call calls[] = {
        {OPEN, {4, 3}},    {PUT, {0, 0, 5}},  {DELIVER, {1, 0}}, {GET, {1, 0}},    {PUT, {1, 1, 6}},
        {DELIVER, {2, 0}}, {DELIVER, {2, 1}}, {GET, {2, 1}},     {PUT, {2, 2, 7}}, {DELIVER, {3, 2}},
    };
    for (const struct call *call = calls; call < calls + sizeof calls / sizeof *calls; call++)
        step(*call, right);
}

/* The header's examples of a table that both kinds of calls have changed: site 1 puts this way, the others with our
   calls. The sites that site 3 is told to wait for. */
static uint32_t told_to_site_3(enum kind put)
{
    uint8_t table[FC_TABLE_BYTES], reply[FC_REPLY_BYTES];
    const struct call calls[] = {
        {OPEN, {4, 4}},    {PUT, {0, 0, 5}},  {DELIVER, {1, 0}}, {GET, {1, 0}},  {put, {1, 1, 6}}, {put, {1, 2, 7}},
        {DELIVER, {2, 0}}, {DELIVER, {2, 1}}, {DELIVER, {2, 1}}, {GET, {2, 2}}, {PUT, {2, 3, 8}},
    };
    for (const struct call *call = calls; call < calls + sizeof calls / sizeof *calls; call++)
        make_plain_call(&forkcanyon, *call, table);
    fc_deliver(3, 2, table, sizeof table, reply, sizeof reply);
    return fc_read(reply).code == FC_WAITS ? fc_read(reply).value : 0;
}

/* Site 1 has both of site 0's puts and puts over them: what site 2 holds in the end. */
static uint32_t held_by_site_2(enum kind put)
{
    uint8_t table[FC_TABLE_BYTES], reply[FC_REPLY_BYTES];
    const struct call calls[] = {
        {OPEN, {3, 1}},           {PUT, {0, 0, 5}}, {PUT, {0, 0, 6}},
        {DRAIN, {1, FC_ENOUGH}}, {put, {1, 0, 7}}, {DRAIN, {2, FC_ENOUGH}},
    };
    for (const struct call *call = calls; call < calls + sizeof calls / sizeof *calls; call++)
        make_plain_call(&forkcanyon, *call, table);
    fc_look(2, 0, table, sizeof table, reply, sizeof reply);
    return fc_read(reply).value;
}

int main(int argc, char **argv)
{
    uint64_t enough = argc == 3 ? strtoull(argv[2], NULL, 10) : 0;
    if (enough < 2000) {
        fputs("agree SEED STEPS, of which 2000 or more show something\n", stderr);
        return 2;
    }
    rng.state = strtoull(argv[1], NULL, 10);
    chain_of_three();
    while (seen.steps < enough)
        walk(300);
    printf("engines: %llu steps on both, every code, answer, entry and applied count the same: %llu opens, %llu "
           "refusals, %llu drains, %llu retirements, %llu entries\n",
           (unsigned long long)seen.steps, (unsigned long long)seen.opens, (unsigned long long)seen.refusals,
           (unsigned long long)seen.drains, (unsigned long long)seen.retirements, (unsigned long long)seen.entries);
    printf("engines: after %llu steps the lists differed, and beside %llu of %llu refusals 10 what is named\n",
           (unsigned long long)seen.other_vectors, (unsigned long long)seen.other_waits,
           (unsigned long long)seen.waits);
    if (seen.other_vectors * 4 < seen.steps || seen.other_waits == 0 || seen.retirements == 0) {
        puts("engines: FAILED: the lists hardly ever differed, so this shows nothing, or no site was retired");
        return 1;
    }
    if (told_to_site_3(PUT) != (1 << 0 | 1 << 1) || told_to_site_3(SHORT_PUT) != 1 << 1) {
        puts("engines: FAILED: on a mixed table, what is named is not what the header says");
        return 1;
    }
    if (held_by_site_2(PUT) != 7 || held_by_site_2(SHORT_PUT) != 6) {
        puts("engines: FAILED: on a mixed table, what a site ends with is not what the header says");
        return 1;
    }
    return 0;
}
