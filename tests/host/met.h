/* Which codes each call has answered, and whether all that it can answer were met. */
#ifndef MET_H
#define MET_H

#include "laws.h"

enum { CODES = 19 }; /* no call may answer 12, a schedule's, nor the last, which stands for anything beyond 17 */

/* What is met with our calls and again with short lists. */
struct met_by_engine {
    uint64_t never_written, learned, delivered, stopped_late;
    uint64_t sent_more; /* puts that send what was not in the row before */
    uint64_t meetings[MEETINGS];
    uint64_t adopted_none, adopted, wide_clocks, hours_kept;
    uint64_t went_on, from_retired; /* puts that a retired site would have held up, deliveries of a retired origin's */
    uint64_t threes; /* any three sites, tried with a look and with an adopt */
};

struct met {
    uint64_t codes[KINDS][CODES];
    struct met_by_engine engines[2]; /* by is_short */
    uint64_t looked, listed, ahead, malformed;
    uint64_t waits[FC_SITES + 1]; /* deliveries that wait for one site, for two, .. */
    uint64_t waits_for[FC_SITES];
};

/* Notes a call whose reply is whole; changed: whether the table did. The table before is read where it was accepted. */
void met_note(struct met *met, const struct call *call, const uint8_t *before, struct outcome after, bool changed);
bool met_all(const struct met *met);
void met_print(const struct met *met);

#endif
