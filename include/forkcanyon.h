/*
 * Forkcanyon: a causally consistent replicated table in a lent buffer.
 *
 * THE TABLE
 *
 * One buffer of FC_TABLE_BYTES holds the replicas of 1 to 8 sites over 1 to 64 keys, how many updates
 * of each origin each site has applied, what each site depends on, and the updates still under way.
 * A put at a site is stored there at once and becomes an update for every other live site. A delivery
 * carries the next update of one origin to one site, and is accepted only when the site has applied
 * everything that update depends on: all that its origin had put, got or adopted before, and the put
 * that it overwrites. So whoever reads a value at a site also finds there what the writer of that value
 * had put, got, adopted or overwritten before it, or what has taken the place of that.
 *
 * A site that has stopped for good can be retired, and then nobody waits for it; see RETIRED SITES below.
 * The sites that are not retired are the live ones.
 *
 * The library keeps nothing between calls: no heap, no globals, no files, no clock. What there is to
 * remember is in the table, and the table may be copied, moved or saved between calls like any bytes.
 * Calls on different tables may run at the same time; calls on one table must not.
 *
 * A session in five lines:
 *
 *     uint8_t table[FC_TABLE_BYTES], reply[FC_REPLY_BYTES];
 *     fc_open(2, 4, table, sizeof table, reply, sizeof reply);
 *     fc_put(0, 1, 7, table, sizeof table, reply, sizeof reply);
 *     fc_deliver(1, 0, table, sizeof table, reply, sizeof reply);
 *     if (fc_get(1, 1, table, sizeof table, reply, sizeof reply) == FC_OK) use(fc_read(reply).value);
 *
 * fc_get reads, and later puts of its site depend on what it read. Where many keys are read and few
 * acted on, fc_look reads and no more, and fc_adopt then takes on the dependence for those few.
 *
 * The fc_short_ calls send shorter lists of what a put depends on, and keep the steps from before
 * ONE WINNER; see SHORT LISTS below, and choose one kind of calls for a table.
 *
 * A value may be anything to fc_put and fc_get. fc_touch writes touch records, values that say when a
 * file was last used, and fc_cold lists the keys whose records are old; see TOUCH RECORDS below.
 *
 * ONE WINNER
 *
 * Two sites may write one key before either hears of the other. Which of the two puts stays is a matter
 * of ranks. The rank of a put is the sum of the clocks, one for each site, of what it depends on; it
 * depends on the put that it overwrites, and so outranks it. A delivery replaces what the site holds under
 * the key if that was never written, if the update's rank is higher, or if the ranks are equal and the
 * update's origin is not lower. Otherwise the site keeps what it holds, and the update counts as applied
 * all the same.
 *
 * So what came last decides nothing. In a table that was opened and then changed only by these calls, the
 * fc_short_ ones left out, a site holds of each key the highest of the puts that it has applied; and when
 * every live site has applied every put, their stores are equal, in every byte of every entry. fc_drain() of
 * each live site, once, with FC_ENOUGH, brings that about. Ranks do not know which of two puts is the better:
 * where that matters, look at the key when all has come, and put again.
 *
 * RETIRED SITES
 *
 * An update is kept until every live site has applied it, and there is room for FC_PLACES of each origin. So a
 * site that stops applying, because its branch was closed or its link will not come back, soon has the puts of
 * all others answer FC_ROOM. fc_retire() takes it out. From then on:
 * - Nobody waits for it. It no longer counts for FC_ROOM, and an update that it alone lacks is kept no longer.
 * - What it has put stays for the others. Its updates that a live site lacks are delivered as any others, in
 *   their order and after their causes, and are causes as any others; no put that was accepted is lost.
 * - It takes no more part. Every call at it is refused, a delivery or a drain to it too: with FC_RETIRED, where
 *   nothing that is asked before holds. So fc_look() of any key there tells whether it is retired. What it holds
 *   and has applied stays in the table as it is.
 * - It cannot be undone. What it alone lacked may be gone with the next put, so it could never catch up. Its
 *   number is not given to another: a branch that opens anew needs a new table.
 * One site stays live: the last one answers FC_LAST.
 *
 * WHAT THE CALLER OWES
 *
 * - table points to table_len bytes, reply to reply_len bytes and the list of fc_cold to list_len
 *   bytes, lent for the length of the call.
 * - No two of them overlap.
 * - No pointer is NULL; a length of 0 may come with any pointer that is not NULL.
 *
 * Nothing else: any numbers, any lengths and any bytes in the buffers are met with an answer.
 *
 * WHAT EVERY CALL DOES
 *
 * - It returns the code, and writes the whole reply: the code again in its first byte, then the other
 *   numbers of the answer. See fc_read() below for where they stand.
 * - A refused call (any code but FC_OK) leaves every byte of the table as it was, FC_BUDGET alone
 *   excepted, and every byte of the list; the other numbers of its reply are 0, FC_WAITS and
 *   FC_BUDGET excepted.
 * - If reply_len is not FC_REPLY_BYTES, it writes no buffer and returns FC_SIZE, or FC_RANGE where
 *   that applies too.
 * - Where several refusals apply, the one that is asked first is answered, see fc_code.
 * - Sites, origins and keys count from 0. A number too large for its place in the table, up to
 *   2^64 - 1, is refused as out of range, a clock as one that no entry has; none is ever cut short.
 */
#ifndef FORKCANYON_H
#define FORKCANYON_H

#include <stddef.h>
#include <stdint.h>

#ifdef __cplusplus
extern "C" {
#endif

#define FC_TABLE_BYTES 15620 /* a table buffer, exactly */
#define FC_REPLY_BYTES 12    /* a reply buffer, exactly */
#define FC_LIST_BYTES 64     /* the list of fc_cold, exactly: a byte for each key there can be */
#define FC_SITES 8           /* the most sites of a table */
#define FC_KEYS 64           /* the most keys of a table */
#define FC_PLACES 16         /* how many updates of one origin may be under way */
#define FC_CLOCKS 65535      /* how many puts one site may make */
#define FC_ENOUGH 903        /* a budget with which fc_drain never answers FC_BUDGET */

/*
 * The codes, by number. They are asked in this order, each call leaving out those it has not:
 *
 *     FC_UNUSED, FC_RANGE, FC_SIZE, FC_UNSOUND, FC_COUNTS, FC_SITE, FC_SAME, FC_RETIRED, FC_LAST,
 *     FC_KEY, FC_CHANGED, FC_RECORD, FC_SPENT, FC_ROOM, FC_NONE, FC_WAITS, FC_BUDGET
 *
 * applied(s, o) is how many updates of origin o site s has applied; applied(s, s) is how many puts s
 * has made. n and k are the table's counts.
 */
enum fc_code {
    FC_OK = 0,       /* accepted */
    FC_SIZE = 1,     /* table_len is not FC_TABLE_BYTES, or reply_len is not FC_REPLY_BYTES */
    FC_UNSOUND = 2,  /* the table is not sound, see fc_open(); not asked by fc_open */
    FC_COUNTS = 3,   /* fc_open: sites is not 1 to 8, or keys is not 1 to 64 */
    FC_SITE = 4,     /* a named site or origin is not below n */
    FC_SAME = 5,     /* fc_deliver: site and origin are the same */
    FC_KEY = 6,      /* key is not below k */
    FC_SPENT = 7,    /* a put or touch: applied(site, site) is 65,535; the site can put no more */
    FC_ROOM = 8,     /* a put or touch: some live site has applied 16 fewer of this site's puts than it has made */
    FC_NONE = 9,     /* fc_deliver: applied(site, origin) equals applied(origin, origin) */
    FC_WAITS = 10,   /* fc_deliver: the site lacks causes of the update; the reply names the sites they are of */
    FC_BUDGET = 11,  /* fc_drain: the budget was spent with a try due; what was delivered stays */
    FC_UNUSED = 12,  /* only in a schedule: a step with a field set that it does not use */
    FC_RECORD = 13,  /* fc_touch, by the scan or by migration: the key has no touch record, so no hour to keep */
    FC_RANGE = 14,   /* fc_cold, fc_touch: a number of the policy's, or list_len, is out of range */
    FC_CHANGED = 15, /* fc_adopt: the site does not hold the named put under key, or no longer; look again */
    FC_RETIRED = 16, /* the call's site is retired; the origin that it names may be so */
    FC_LAST = 17     /* fc_retire: no other site is live */
};

/*
 * Opens a table: all bytes 0, then the two counts. Opening again starts a new history.
 *
 * FC_OK: the other numbers of the reply are 0. Refusals: FC_SIZE, FC_COUNTS.
 *
 * A table that was opened and then changed only by these calls is sound. Every call but fc_open asks
 * for these facts before anything else of the table, so a damaged table is refused with FC_UNSOUND if
 * one of them fails:
 * - n is 1 to 8, k is 1 to 64, byte 2 has bit m (worth 2 to the power m) for each retired site m, all of
 *   them below n and not all n, and byte 3 is 0;
 * - for sites s and o below n, applied(s, o) is at most applied(o, o), and if s is live at most 16 below it;
 * - each entry of a site s below n and a key below k is all 0 (never written), or names an origin
 *   below n and a clock from 1 to applied(s, origin);
 * - each update that some live site has not applied yet stands in its place, with its clock and a key
 *   below k.
 * Every accepted call on a sound table leaves a sound one, and so does a drain that answers FC_BUDGET.
 */
uint32_t fc_open(uint64_t sites, uint64_t keys,
                 uint8_t *table, size_t table_len, uint8_t *reply, size_t reply_len);

/*
 * Writes value under key at site, and makes it the site's next update. It first takes on the dependence
 * of what it overwrites, as fc_get would; refused, it has taken on nothing.
 *
 * FC_OK: the reply holds key, site, the put's clock (1 for a site's first put, then 2, ..) and value.
 * The update depends on all that the site had put, got or adopted before, on the put that it overwrites,
 * and on all that one depended on.
 * Refusals: FC_SIZE, FC_UNSOUND, FC_SITE, FC_RETIRED, FC_KEY, FC_SPENT, FC_ROOM.
 */
uint32_t fc_put(uint64_t site, uint64_t key, uint32_t value,
                uint8_t *table, size_t table_len, uint8_t *reply, size_t reply_len);

/*
 * Reads key at site. Not a pure read: later puts of the site depend on the put that was read and on
 * all that one depended on, so the table's dependency row of the site may change. It is fc_look and, at
 * once, fc_adopt of the site and clock that fc_look answered: the same reply, bytes and refusals.
 *
 * FC_OK: the reply holds key, and the origin (as site), clock and value of the put it reads. For a
 * key never written at this site these are 0 and the table keeps all bytes; clock 0 is the mark,
 * since 0 is also a site.
 * Refusals: FC_SIZE, FC_UNSOUND, FC_SITE, FC_RETIRED, FC_KEY.
 */
uint32_t fc_get(uint64_t site, uint64_t key,
                uint8_t *table, size_t table_len, uint8_t *reply, size_t reply_len);

/*
 * Reads key at site and changes no byte of the table: later puts of the site do not depend on what was
 * read, unless it is adopted or put over.
 *
 * FC_OK: the reply is that of fc_get.
 * Refusals: FC_SIZE, FC_UNSOUND, FC_SITE, FC_RETIRED, FC_KEY.
 *
 * Get what you act on. To choose among many keys, look at all of them and adopt those that the choice
 * rests on, before the put that comes of it: after 64 gets every put of the site waits, at every other
 * site, for all that was read. But what was only looked at is not waited for: another site may hear of
 * the put and not yet of what you saw.
 */
uint32_t fc_look(uint64_t site, uint64_t key,
                 uint8_t *table, size_t table_len, uint8_t *reply, size_t reply_len);

/*
 * Takes on the dependence that fc_get would, if the site still holds under key the put of this origin
 * and clock: those that fc_look answered, as site and clock. Later puts of the site depend on that
 * put and on all that one depended on.
 *
 * FC_OK: the reply is that of fc_get. A key never written at this site has origin 0 and clock 0;
 * adopting these keeps all bytes of the table.
 * FC_CHANGED: the site holds another put under key, or none. A put, a touch, a delivery or a drain
 * has come between, or no entry can have that clock. Look again, and choose by what is there now.
 * Refusals: FC_SIZE, FC_UNSOUND, FC_SITE (of site or origin), FC_RETIRED (of site), FC_KEY, FC_CHANGED.
 */
uint32_t fc_adopt(uint64_t site, uint64_t key, uint64_t origin, uint64_t clock,
                  uint8_t *table, size_t table_len, uint8_t *reply, size_t reply_len);

/*
 * Applies at site the next update of origin, the one with clock applied(site, origin) + 1. The origin may be
 * retired.
 *
 * FC_OK: the reply holds the update's key, origin (as site), clock and value, and the site has applied
 * it. The site now holds it under that key, or still what it held, if that is the higher: see ONE WINNER
 * above. The reply is the same for both; fc_look() tells. What the site depends on does not change until
 * it gets, adopts or puts over the key.
 * FC_WAITS: the reply's value says all sites of which a cause is missing, bit m (worth 2 to the
 * power m) for site m: ask fc_waits_for(). 1 is site 0 alone, 6 the sites 1 and 2, 128 site 7. The
 * reply's site and clock name the lowest of them, and the clock up to which its updates must be applied
 * first. Deliver from each site that is named: fc_drain(), or all their links at once. That can
 * always be done in a table that was opened and then changed only by these calls. In any other one,
 * sound as it may be, a named site can be at or above n, or retired with fewer puts than that: then
 * nothing will ever bring what the update waits for, and its origin's later updates wait behind it
 * until FC_ROOM stops the puts there. Go back to a copy from before the damage, or open a new table
 * and put into it what fc_look still reads in this one.
 * Refusals: FC_SIZE, FC_UNSOUND, FC_SITE, FC_SAME, FC_RETIRED (of site), FC_NONE, FC_WAITS.
 */
uint32_t fc_deliver(uint64_t site, uint64_t origin,
                    uint8_t *table, size_t table_len, uint8_t *reply, size_t reply_len);

/*
 * Delivers to site all that can be delivered, with at most budget tries; a budget above 65,535 counts
 * as 65,535. Passes over the other sites in order; at each it delivers until one delivery is refused;
 * ends after a pass that delivered nothing. A refused delivery is a try too.
 *
 * FC_OK: the reply holds the deliveries made (as clock) and the tries made (as value). In a table
 * that was opened and then changed only by these calls, the fc_short_ ones left out, the site has now
 * applied every accepted put, those of retired sites too; and when every live site has, their stores are equal.
 * FC_BUDGET: the same two numbers, as far as it came; what was delivered stays.
 * Refusals: FC_SIZE, FC_UNSOUND, FC_SITE, FC_RETIRED, FC_BUDGET. FC_ENOUGH is always enough.
 */
uint32_t fc_drain(uint64_t site, uint64_t budget,
                  uint8_t *table, size_t table_len, uint8_t *reply, size_t reply_len);

/*
 * Retires site, for good: see RETIRED SITES above. Byte 2 of the table gets its bit, and no other byte changes.
 *
 * FC_OK: the other numbers of the reply are 0.
 * FC_RETIRED: it is retired already. FC_LAST: it is the last live site.
 * Refusals: FC_SIZE, FC_UNSOUND, FC_SITE, FC_RETIRED, FC_LAST.
 */
uint32_t fc_retire(uint64_t site,
                   uint8_t *table, size_t table_len, uint8_t *reply, size_t reply_len);

/*
 * TOUCH RECORDS
 *
 * A touch record is a value that says when a file was last used, by whom it was last touched and on
 * which tier it is: hour (16 bits), toucher (3), tier (2) and eleven zero bits, from the top. Values
 * of any other form are malformed: eleven low bits that are not all zero, or a toucher above 3.
 *
 * Hours are counted from wherever the caller likes, and the count runs round after 65,535. So the age
 * of a record is now minus its hour, modulo 65,536. Above 32,767 hours, three years and eight months,
 * it counts as a clock ahead: as a record of an hour to come.
 */

/* Who touches a file. */
enum fc_touched_by {
    FC_BY_USER = 0,
    FC_BY_SCAN = 1,      /* the backup scan: keeps the hour */
    FC_BY_MIGRATION = 2, /* the policy, when it moves a file: keeps the hour */
    FC_BY_RESTORE = 3
};

/*
 * Gets key at site and puts a touch record of this toucher and tier there: with the hour of the record
 * it got for FC_BY_SCAN and FC_BY_MIGRATION, with now for FC_BY_USER and FC_BY_RESTORE. So a scan or a
 * move does not make a file look used: no key's age changes at the site.
 *
 * FC_OK: the reply holds key, site, the put's clock and the record as value; the table is as after
 * fc_get and fc_put. Refused, the get has not been made either.
 * FC_RECORD: the toucher is FC_BY_SCAN or FC_BY_MIGRATION, and the key was never written at this site
 * or its value is malformed.
 * FC_RANGE: toucher or tier is above 3, or now is above 65,535.
 * Refusals: FC_RANGE, FC_SIZE, FC_UNSOUND, FC_SITE, FC_RETIRED, FC_KEY, FC_RECORD, FC_SPENT, FC_ROOM.
 *
 * As with any put, where two sites write one key and neither has heard of the other, all live sites end
 * with the same one of the two, even if its hour is the older: see ONE WINNER above. If a key is touched at one
 * site alone, every site has the newest record of it that it has heard of.
 */
uint32_t fc_touch(uint64_t site, uint64_t key, uint64_t now, uint64_t toucher, uint64_t tier,
                  uint8_t *table, size_t table_len, uint8_t *reply, size_t reply_len);

/*
 * Lists the keys that are cold at site: those with a touch record whose age is threshold to 32,767.
 * Keys come ascending, a byte each; the rest of the list is 0, so read as many as the reply says. Keys
 * never written at this site are left out.
 *
 * FC_OK: the reply holds how many keys are listed (as key), how many have a clock ahead (as site) and
 * how many a malformed value (as clock); no key counts twice. Value is 0.
 * FC_RANGE: threshold is not 1 to 32,767, now is above 65,535, or list_len is not FC_LIST_BYTES.
 * Refusals: FC_RANGE, FC_SIZE, FC_UNSOUND, FC_SITE, FC_RETIRED; the list then keeps its bytes.
 *
 * It looks at every key, as fc_look does, and changes no byte of the table: later puts of the site do
 * not depend on what it has read. fc_touch gets the key that it touches; adopt what else you act on.
 */
uint32_t fc_cold(uint64_t site, uint64_t now, uint64_t threshold,
                 uint8_t *table, size_t table_len, uint8_t *list, size_t list_len,
                 uint8_t *reply, size_t reply_len);

/* The touch record of an hour, a toucher (fc_touched_by) and a tier from 0 to 3. */
static inline uint32_t fc_touch_of(uint16_t hour, unsigned toucher, unsigned tier)
{
    return (uint32_t)hour << 16 | (uint32_t)(toucher & 7) << 13 | (uint32_t)(tier & 3) << 11;
}

/* Whether a value is a touch record. The three below mean nothing for other values. */
static inline int fc_is_touch(uint32_t value)
{
    return (value & 0x87FF) == 0;
}

static inline uint16_t fc_hour(uint32_t value)
{
    return (uint16_t)(value >> 16);
}

static inline unsigned fc_toucher(uint32_t value)
{
    return value >> 13 & 7;
}

static inline unsigned fc_tier(uint32_t value)
{
    return value >> 11 & 3;
}

/*
 * SHORT LISTS
 *
 * With the calls above an update carries all that it depends on, the causes of its causes too: in time a
 * clock for every site, most of them old news. With the calls below it carries the list of its immediate
 * causes: the site's own last put, and what the site has got or adopted since. A site takes an update only
 * after those, and has taken each of those only after its own causes. What is proved of these calls is that
 * they answer and hold, call for call, what the same calls with whole lists would by the steps they keep; of
 * orders and equal stores nothing is.
 *
 * These calls keep the steps from before ONE WINNER. A put takes on nothing of what it overwrites, and every
 * delivery replaces what the site holds. So of two sites that write one key before they hear of each other,
 * each ends with the other's put, and they disagree for good, though all has been delivered.
 *
 * Each has the arguments and the refusals of its namesake, and answers in the same form. fc_open opens the
 * table for both kinds of calls; fc_look, fc_cold and fc_retire serve both. Beside FC_WAITS the reply's value,
 * site and clock speak of the immediate causes alone. What these wait for in their turn is told when they are
 * delivered.
 *
 * Which to choose: short lists where what an update carries counts, since few of its eight clocks are not 0,
 * and where each key is written at one site, or a disagreement does no harm. Else the calls above; also where
 * somebody mends links by what FC_WAITS says, since there it names every site of which a cause is missing, at
 * once.
 *
 * Do not mix them on one table, from fc_open to the next fc_open. The table does not say which calls have
 * changed it, and no call refuses a table of the other kind; each still does what it says. But:
 * - Stores no longer end equal, and a put can lose to the one that it overwrote. Say site 0 has put key 0
 *   twice, and site 1, which has both, puts over them with fc_short_put. That depends on nothing, so its rank
 *   is the lower: site 2, given all three with fc_drain, ends with site 0's second put, and site 1 with its own.
 * - FC_WAITS then names less than all that is missing, even to fc_deliver. An fc_get takes on what the
 *   update carried that it reads: if that was put with fc_short_put, only its immediate causes. Say site 0
 *   has put key 0; site 1 gets it and puts keys 1 and 2; site 2 gets key 2 and puts key 3. Site 3, which
 *   has heard of nothing, is told to wait for the sites 0 and 1; if site 1's puts were fc_short_put, for
 *   site 1 alone, and meets site 0 when it has mended that link.
 * - Lists do not stay short: an fc_get takes on the whole of a long one.
 * - What is said of a table that was opened and then changed only by these calls is said of one kind or
 *   the other, not of both on one table: that a drain leaves no accepted put behind, and that no site takes
 *   an update before its causes.
 */

/*
 * As fc_put, but it takes on nothing of what it overwrites. The update depends on what the site's list has;
 * the list is then this put alone.
 * Refusals: FC_SIZE, FC_UNSOUND, FC_SITE, FC_RETIRED, FC_KEY, FC_SPENT, FC_ROOM.
 */
uint32_t fc_short_put(uint64_t site, uint64_t key, uint32_t value,
                      uint8_t *table, size_t table_len, uint8_t *reply, size_t reply_len);

/*
 * As fc_get. The put that was read joins the site's list, and nothing of what that one depended on.
 * Refusals: FC_SIZE, FC_UNSOUND, FC_SITE, FC_RETIRED, FC_KEY.
 */
uint32_t fc_short_get(uint64_t site, uint64_t key,
                      uint8_t *table, size_t table_len, uint8_t *reply, size_t reply_len);

/*
 * As fc_adopt, with the dependence that fc_short_get takes on.
 * Refusals: FC_SIZE, FC_UNSOUND, FC_SITE (of site or origin), FC_RETIRED (of site), FC_KEY, FC_CHANGED.
 */
uint32_t fc_short_adopt(uint64_t site, uint64_t key, uint64_t origin, uint64_t clock,
                        uint8_t *table, size_t table_len, uint8_t *reply, size_t reply_len);

/*
 * As fc_touch; the table is as after fc_short_get and fc_short_put.
 * Refusals: FC_RANGE, FC_SIZE, FC_UNSOUND, FC_SITE, FC_RETIRED, FC_KEY, FC_RECORD, FC_SPENT, FC_ROOM.
 */
uint32_t fc_short_touch(uint64_t site, uint64_t key, uint64_t now, uint64_t toucher, uint64_t tier,
                        uint8_t *table, size_t table_len, uint8_t *reply, size_t reply_len);

/*
 * As fc_deliver, but the site then holds the update, whatever it held under that key. FC_WAITS: the reply's
 * value says the sites of which an immediate cause is missing, its site and clock the lowest of them and up
 * to where.
 * Refusals: FC_SIZE, FC_UNSOUND, FC_SITE, FC_SAME, FC_RETIRED (of site), FC_NONE, FC_WAITS.
 */
uint32_t fc_short_deliver(uint64_t site, uint64_t origin,
                          uint8_t *table, size_t table_len, uint8_t *reply, size_t reply_len);

/*
 * As fc_drain: the same deliveries and the same tries, each delivery as fc_short_deliver makes it. When every
 * live site has applied every put, stores can differ all the same.
 * Refusals: FC_SIZE, FC_UNSOUND, FC_SITE, FC_RETIRED, FC_BUDGET. FC_ENOUGH is always enough.
 */
uint32_t fc_short_drain(uint64_t site, uint64_t budget,
                        uint8_t *table, size_t table_len, uint8_t *reply, size_t reply_len);

/*
 * The five numbers of a reply. For fc_drain, clock holds the deliveries and value the tries; for
 * fc_cold, key holds the keys listed, site the clocks ahead and clock the malformed values.
 * Beside FC_WAITS, value holds the sites waited for, see fc_waits_for().
 */
struct fc_answer {
    uint8_t code;
    uint8_t key;
    uint8_t site;
    uint16_t clock;
    uint32_t value;
};

/*
 * Reads the FC_REPLY_BYTES of a reply: code (1 byte), key (1), site (1), zero (1), clock (2), zeros
 * (2), value (4), most significant byte first.
 */
static inline struct fc_answer fc_read(const uint8_t *reply)
{
    struct fc_answer answer;
    answer.code = reply[0];
    answer.key = reply[1];
    answer.site = reply[2];
    answer.clock = (uint16_t)(reply[4] << 8 | reply[5]);
    answer.value = (uint32_t)reply[8] << 24 | (uint32_t)reply[9] << 16 | (uint32_t)reply[10] << 8 | reply[11];
    return answer;
}

/* Whether this is a delivery that waits for updates of the site; 0 for any other answer and any site above 7. */
static inline int fc_waits_for(struct fc_answer answer, unsigned site)
{
    return answer.code == FC_WAITS && site < FC_SITES && (answer.value >> site & 1u) != 0;
}

#ifdef __cplusplus
}
#endif

#endif
