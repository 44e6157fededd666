/* Every call on 4 KiB of stack that end at a page nobody may touch: how deep each one goes below its caller. */
#include "calls.h"
#include "tables.h"
#include "traffic.h"

#include <signal.h>
#include <stdio.h>
#include <stdlib.h>
#include <string.h>
#include <sys/mman.h>
#include <sys/wait.h>
#include <ucontext.h>
#include <unistd.h>

enum { STACK = 4096, PAINT = 0xB2, KNOWN = 1000, MOST = 512, TABLES = 400, CALLS_EACH = 60 };

static uint8_t *stack; /* the page below it is the one that nobody may touch */
static ucontext_t here, there;

/* What the call on the small stack is to be. */
static const struct library *library;
static struct call call;
static uint8_t table[FC_TABLE_BYTES], list[FC_LIST_BYTES], reply[FC_REPLY_BYTES];
static struct buffers lent = {{table, sizeof table}, {list, sizeof list}, {reply, sizeof reply}};
static size_t clean;    /* bytes of paint left after it */
static uint8_t *caller; /* where the stack stood as a call that does nothing was made */

static uint32_t nothing_one(uint64_t a, uint8_t *t, size_t tl, uint8_t *r, size_t rl)
{
    caller = __builtin_dwarf_cfa();
    return (uint32_t)(a + tl + rl + (t == r));
}

static uint32_t nothing_two(uint64_t a, uint64_t b, uint8_t *t, size_t tl, uint8_t *r, size_t rl)
{
    caller = __builtin_dwarf_cfa();
    return (uint32_t)(a + b + tl + rl + (t == r));
}

static uint32_t nothing_put(uint64_t a, uint64_t b, uint32_t v, uint8_t *t, size_t tl, uint8_t *r, size_t rl)
{
    caller = __builtin_dwarf_cfa();
    return (uint32_t)(a + b + v + tl + rl + (t == r));
}

static uint32_t nothing_adopt(uint64_t a, uint64_t b, uint64_t c, uint64_t d, uint8_t *t, size_t tl, uint8_t *r,
                              size_t rl)
{
    caller = __builtin_dwarf_cfa();
    return (uint32_t)(a + b + c + d + tl + rl + (t == r));
}

static uint32_t nothing_touch(uint64_t a, uint64_t b, uint64_t c, uint64_t d, uint64_t e, uint8_t *t, size_t tl,
                              uint8_t *r, size_t rl)
{
    caller = __builtin_dwarf_cfa();
    return (uint32_t)(a + b + c + d + e + tl + rl + (t == r));
}

static uint32_t nothing_cold(uint64_t a, uint64_t b, uint64_t c, uint8_t *t, size_t tl, uint8_t *l, size_t ll,
                             uint8_t *r, size_t rl)
{
    caller = __builtin_dwarf_cfa();
    return (uint32_t)(a + b + c + tl + ll + rl + (t == r) + (l == r));
}

/* Calls that do nothing but tell where their caller's stack ends. */
#define NOTHING {nothing_two, nothing_two, nothing_two, nothing_put, nothing_adopt, nothing_touch}
static const struct library nothing = {
    "nothing", nothing_two, nothing_two, nothing_cold, nothing_one, NOTHING, NOTHING};

static uint32_t known_two(uint64_t a, uint64_t b, uint8_t *t, size_t tl, uint8_t *r, size_t rl)
{
    volatile uint8_t taken[KNOWN];
    for (size_t at = 0; at < KNOWN; at++)
        taken[at] = (uint8_t)at;
    return taken[0] + nothing_two(a, b, t, tl, r, rl);
}

/* Opening takes KNOWN bytes: a measure that does not find them measures nothing. */
static const struct library known = {.name = "known", .open = known_two};

static uint32_t over_two(uint64_t a, uint64_t b, uint8_t *t, size_t tl, uint8_t *r, size_t rl)
{
    volatile uint8_t taken[STACK];
    for (size_t at = STACK; at-- > 0;)
        taken[at] = (uint8_t)at;
    return taken[0] + nothing_two(a, b, t, tl, r, rl);
}

/* Opening takes the whole stack, and its caller is on it already: it has to end at the page below. */
static const struct library over = {.name = "over", .open = over_two};

/* Looks at the paint before it leaves: the way back goes deeper than a small call. */
static void on_the_small_stack(void)
{
    make_call(library, &call, &lent);
    clean = 0;
    while (clean < STACK && stack[clean] == PAINT)
        clean++;
}

static size_t depth_with(const struct library *chosen)
{
    library = chosen;
    memset(stack, PAINT, STACK);
    if (getcontext(&there) != 0)
        abort();
    there.uc_stack.ss_sp = stack;
    there.uc_stack.ss_size = STACK;
    there.uc_link = &here;
    makecontext(&there, on_the_small_stack, 0);
    if (swapcontext(&here, &there) != 0)
        abort();
    return STACK - clean;
}

/* What a call takes below its caller, with its return address where the processor has that on the stack. */
static size_t taken_by(const struct library *chosen)
{
    size_t depth = depth_with(chosen);
    depth_with(&nothing);
    size_t way = (size_t)(stack + STACK - caller);
    return depth > way ? depth - way : 0;
}

static size_t deepest[KINDS];
static bool measured[KINDS];

static void measure(struct call chosen, size_t length)
{
    call = chosen;
    lent.table.length = length;
    size_t depth = taken_by(&forkcanyon);
    measured[call.kind] = true;
    if (depth > deepest[call.kind])
        deepest[call.kind] = depth;
}

static bool too_deep(size_t depth)
{
    return depth > MOST;
}

static bool ends_at_the_page(const struct library *chosen)
{
    int ended;
    pid_t child = fork();
    if (child == 0) {
        depth_with(chosen);
        _exit(0);
    }
    return child > 0 && waitpid(child, &ended, 0) == child && WIFSIGNALED(ended) && WTERMSIG(ended) == SIGSEGV;
}

/* Every key written at every site, and each origin with all its places under way. */
static void fill_table(void)
{
    make_plain_call(&forkcanyon, (struct call){OPEN, {FC_SITES, FC_KEYS}}, table);
    for (uint64_t key = 0; key < FC_KEYS; key++) {
        for (uint64_t site = 0; site < FC_SITES; site++)
            make_plain_call(&forkcanyon, (struct call){PUT, {site, key, (uint32_t)key}}, table);
        for (uint64_t site = 0; site < FC_SITES && key < FC_KEYS - FC_PLACES; site++)
            make_plain_call(&forkcanyon, (struct call){DRAIN, {site, FC_ENOUGH}}, table);
    }
}

enum start { OPENED, FULL, CONJURED, DAMAGED, STARTS };

static void start_from(enum start start, struct rng *rng)
{
    if (start == OPENED)
        make_plain_call(&forkcanyon, (struct call){OPEN, {FC_SITES, FC_KEYS}}, table);
    if (start == FULL)
        fill_table();
    if (start == CONJURED || start == DAMAGED)
        make_sound_table(rng, table);
    if (start == DAMAGED)
        damage_table(rng, table);
}

int main(void)
{
    struct rng rng = {1};
    size_t page = (size_t)sysconf(_SC_PAGESIZE);
    uint8_t *pages = mmap(NULL, 2 * page, PROT_NONE, MAP_PRIVATE | MAP_ANONYMOUS, -1, 0);
    if (page < STACK || pages == MAP_FAILED || mprotect(pages + page, page, PROT_READ | PROT_WRITE) != 0) {
        perror("stack: no pages");
        return 2;
    }
    stack = pages + page;
    for (unsigned times = 0; times < TABLES; times++) {
        start_from((enum start)(times % STARTS), &rng);
        struct traffic traffic = some_traffic(&rng, FC_SITES, FC_KEYS, 5);
        traffic.weights[DRAIN] = traffic.weights[SHORT_DRAIN] = traffic.weights[OPEN] = traffic.weights[RETIRE] = 1;
        traffic.table = table;
        for (int calls = 0; calls < CALLS_EACH; calls++)
            measure(some_call(&rng, &traffic), calls == 0 ? FC_TABLE_BYTES - 1 : FC_TABLE_BYTES);
    }
    bool failed = false;
    printf("stack: deepest use in bytes, on a stack of %d\n", STACK);
    for (int kind = 0; kind < KINDS; kind++) {
        printf("  fc_%-13s %5zu\n", kind_names[kind], deepest[kind]);
        if (!measured[kind] || too_deep(deepest[kind])) {
            printf("stack: FAILED: fc_%s takes more than %d bytes, or was not measured\n", kind_names[kind], MOST);
            failed = true;
        }
    }

    call = (struct call){OPEN, {1, 1}};
    size_t found = taken_by(&known);
    if (found < KNOWN || found > KNOWN + 64 || !too_deep(found)) {
        printf("stack: FAILED: a call known to take %d was measured as %zu, or passed\n", KNOWN, found);
        failed = true;
    }
    if (!ends_at_the_page(&over) || ends_at_the_page(&known)) {
        printf("stack: FAILED: a call of %d bytes did not end at the page below, or one of %d did\n", STACK, KNOWN);
        failed = true;
    }
    return failed;
}
