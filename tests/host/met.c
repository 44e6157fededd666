#include "met.h"

#include "tables.h"

#include <stdio.h>
#include <string.h>

/* The codes of each call, by documents 01 and 02. */
static const bool possible[KINDS][CODES] = {
    [OPEN] = {[0] = true, [1] = true, [3] = true},
    [PUT] = {[0] = true, [1] = true, [2] = true, [4] = true, [6] = true, [7] = true, [8] = true, [16] = true},
    [GET] = {[0] = true, [1] = true, [2] = true, [4] = true, [6] = true, [16] = true},
    [LOOK] = {[0] = true, [1] = true, [2] = true, [4] = true, [6] = true, [16] = true},
    [ADOPT] = {[0] = true, [1] = true, [2] = true, [4] = true, [6] = true, [15] = true, [16] = true},
    [DELIVER] = {[0] = true, [1] = true, [2] = true, [4] = true, [5] = true, [9] = true, [10] = true, [16] = true},
    [DRAIN] = {[0] = true, [1] = true, [2] = true, [4] = true, [11] = true, [16] = true},
    [TOUCH] = {[0] = true, [1] = true, [2] = true, [4] = true, [6] = true, [7] = true, [8] = true, [13] = true,
               [14] = true, [16] = true},
    [COLD] = {[0] = true, [1] = true, [2] = true, [4] = true, [14] = true, [16] = true},
    [RETIRE] = {[0] = true, [1] = true, [2] = true, [4] = true, [16] = true, [17] = true},
};

/* A short call has the codes of its namesake. */
static bool can_answer(enum kind kind, int code)
{
    return possible[namesake(kind)][code];
}

/* Whether an accepted put sends what was not in its site's row. */
static bool sends_more(const struct call *put, const uint8_t *before, struct outcome after)
{
    size_t site = put->numbers[0], update = update_at(site, fc_read(after.reply).clock);
    return memcmp(before + depends_at(site, 0), after.table + update + RECORD_VECTOR, VECTOR) != 0;
}

/* Whether some site, of an accepted put a retired one, has applied 16 fewer of the site's puts than it has made. */
static bool held_up(const struct call *put, const uint8_t *before)
{
    size_t site = put->numbers[0];
    unsigned own = clock_at(before, applied_at(site, site));
    bool lags = false;
    for (size_t other = 0; other < before[0]; other++)
        lags = lags || clock_at(before, applied_at(other, site)) + FC_PLACES == own;
    return lags;
}

void met_note(struct met *met, const struct call *call, const uint8_t *before, struct outcome after, bool changed)
{
    uint32_t code = after.code;
    met->codes[call->kind][code < CODES ? code : CODES - 1] += 1;
    struct fc_answer answer = fc_read(after.reply);
    struct met_by_engine *engine = &met->engines[is_short(call->kind)];
    enum kind kind = namesake(call->kind);
    engine->never_written += kind == GET && code == FC_OK && answer.clock == 0;
    engine->learned += kind == GET && code == FC_OK && changed;
    engine->adopted_none += kind == ADOPT && code == FC_OK && answer.clock == 0;
    engine->adopted += kind == ADOPT && code == FC_OK && changed;
    engine->wide_clocks += kind == ADOPT && code == FC_CHANGED && call->numbers[3] > FC_CLOCKS;
    engine->delivered += kind == DRAIN && code == FC_OK && answer.clock > 8;
    engine->stopped_late += kind == DRAIN && code == FC_BUDGET && answer.clock > 0;
    engine->hours_kept += kind == TOUCH && code == FC_OK &&
                          (fc_toucher(answer.value) == FC_BY_SCAN || fc_toucher(answer.value) == FC_BY_MIGRATION);
    if (kind == DELIVER && code == FC_OK)
        engine->meetings[meeting_of(call, before, after.reply)] += 1;
    engine->sent_more += kind == PUT && code == FC_OK && sends_more(call, before, after);
    engine->went_on += kind == PUT && code == FC_OK && held_up(call, before);
    engine->from_retired += kind == DELIVER && code == FC_OK && is_retired(before, answer.site);
    met->looked += kind == LOOK && code == FC_OK && answer.clock > 0;
    unsigned waited = 0;
    for (unsigned site = 0; site < FC_SITES; site++) {
        met->waits_for[site] += fc_waits_for(answer, site) != 0;
        waited += fc_waits_for(answer, site) != 0;
    }
    met->waits[waited] += code == FC_WAITS;
    met->listed += call->kind == COLD && answer.key > 0;
    met->ahead += call->kind == COLD && answer.site > 0;
    met->malformed += call->kind == COLD && answer.clock > 0;
}

bool met_all(const struct met *met)
{
    bool all = met->looked && met->listed && met->ahead && met->malformed && !met->waits[0];
    all = all && met->engines[false].sent_more && !met->engines[true].sent_more;
    for (const struct met_by_engine *engine = met->engines; engine < met->engines + 2; engine++)
        all = all && engine->never_written && engine->learned && engine->adopted_none && engine->adopted &&
              engine->wide_clocks && engine->delivered && engine->stopped_late && engine->hours_kept &&
              engine->went_on && engine->from_retired &&
              engine->threes == FC_SITES * (FC_SITES - 1) * (FC_SITES - 2);
    for (int meeting = 0; meeting < MEETINGS; meeting++)
        all = all && met->engines[false].meetings[meeting] && met->engines[true].meetings[meeting];
    for (unsigned site = 0; site < FC_SITES; site++)
        all = all && met->waits_for[site];
    for (unsigned sites = 1; sites < 5; sites++)
        all = all && met->waits[sites];
    for (int kind = 0; kind < KINDS; kind++)
        for (int code = 0; code < CODES; code++)
            all = all && can_answer((enum kind)kind, code) == (met->codes[kind][code] > 0);
    return all;
}

static void print_engine(const char *calls, const struct met_by_engine *engine)
{
    printf("%s: gets of a never-written key %llu, gets that change the list %llu, drains of more than 8 %llu, "
           "drains stopped after a delivery %llu,\n",
           calls, (unsigned long long)engine->never_written, (unsigned long long)engine->learned,
           (unsigned long long)engine->delivered, (unsigned long long)engine->stopped_late);
    printf("  adopts of a never-written key %llu, adopts that change the list %llu, adopts of a clock above 65,535 "
           "%llu, touches that keep the hour %llu\n",
           (unsigned long long)engine->adopted_none, (unsigned long long)engine->adopted,
           (unsigned long long)engine->wide_clocks, (unsigned long long)engine->hours_kept);
    printf("  puts that send more than the row %llu, deliveries that meet a never-written key %llu, a lower rank %llu, an "
           "equal one %llu,\n  a higher one %llu, an equal one of a higher origin %llu\n",
           (unsigned long long)engine->sent_more, (unsigned long long)engine->meetings[NEVER_WRITTEN],
           (unsigned long long)engine->meetings[HIGHER_RANK], (unsigned long long)engine->meetings[ORIGIN_NOT_LOWER],
           (unsigned long long)engine->meetings[LOWER_RANK], (unsigned long long)engine->meetings[LOWER_ORIGIN]);
    printf("  puts that a retired site no longer holds up %llu, deliveries of a retired origin's puts %llu\n",
           (unsigned long long)engine->went_on, (unsigned long long)engine->from_retired);
}

void met_print(const struct met *met)
{
    printf("%13s", "code");
    for (int code = 0; code < CODES; code++)
        printf("%8d", code);
    for (int kind = 0; kind < KINDS; kind++) {
        printf("\n%13s", kind_names[kind]);
        for (int code = 0; code < CODES; code++) {
            if (can_answer((enum kind)kind, code) || met->codes[kind][code])
                printf("%8llu", (unsigned long long)met->codes[kind][code]);
            else
                printf("%8s", ".");
        }
    }
    putchar('\n');
    print_engine("ours", &met->engines[false]);
    print_engine("short lists", &met->engines[true]);
    printf("looks of a written key %llu, cold lists with a key %llu, with a clock ahead %llu, "
           "with a malformed value %llu\n",
           (unsigned long long)met->looked, (unsigned long long)met->listed, (unsigned long long)met->ahead,
           (unsigned long long)met->malformed);
    fputs("deliveries that wait for 1 site and more", stdout);
    for (unsigned sites = 1; sites <= FC_SITES; sites++)
        printf(" %llu", (unsigned long long)met->waits[sites]);
    putchar('\n');
}
