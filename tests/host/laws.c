#include "laws.h"

#include "tables.h"

#include <string.h>

static unsigned sum_of_row(const uint8_t *table, size_t site)
{
    unsigned sum = 0;
    for (size_t origin = 0; origin < FC_SITES; origin++)
        sum += clock_at(table, applied_at(site, origin));
    return sum;
}

/* How many updates of the others the site has not applied. */
static unsigned undelivered(const uint8_t *table, size_t site)
{
    unsigned sum = 0;
    for (size_t origin = 0; origin < table[0]; origin++)
        sum += clock_at(table, applied_at(origin, origin)) - clock_at(table, applied_at(site, origin));
    return sum;
}

/* So many tries of single deliveries: round the other origins, at each until one is refused. */
static void deliver_round(const struct call *drain, unsigned tries, uint8_t *table)
{
    uint64_t site = drain->numbers[0];
    for (uint64_t origin = 0; tries > 0; origin = (origin + 1) % table[0]) {
        const struct call deliver = {is_short(drain->kind) ? SHORT_DELIVER : DELIVER, {site, origin}};
        for (bool goes_on = origin != site; goes_on && tries > 0; tries--)
            goes_on = make_plain_call(&forkcanyon, deliver, table) == FC_OK;
    }
}

static const char *broken_by_drain(enum start start, const struct call *call, const uint8_t *before,
                                   struct outcome after)
{
    struct fc_answer answer = fc_read(after.reply);
    size_t site = call->numbers[0];
    unsigned due = undelivered(before, site), others = before[0] - 1u;
    uint64_t budget = call->numbers[1] < 65535 ? call->numbers[1] : 65535;
    if (answer.clock != sum_of_row(after.table, site) - sum_of_row(before, site))
        return "deliveries are the rise in the sum of the applied row";
    if (answer.value > due + others * (due + 1))
        return "at most P + (n - 1)(P + 1) tries";
    if (answer.value > budget || (after.code == FC_BUDGET && answer.value != budget))
        return "it stops when a try is due and the budget is spent";
    if (after.code == FC_BUDGET && budget >= FC_ENOUGH)
        return "a budget of 903 is always enough";
    if (after.code == FC_OK && start == REACHED && undelivered(after.table, site) > 0)
        return "a drain that answers 0 has left the site holding every accepted put";
    uint8_t table[FC_TABLE_BYTES];
    memcpy(table, before, sizeof table);
    deliver_round(call, answer.value, table);
    return memcmp(table, after.table, sizeof table) == 0 ? NULL : "a drain leaves what its deliveries do, one by one";
}

bool out_of_range(const struct call *call, size_t list_len)
{
    const uint64_t *number = call->numbers;
    switch (namesake(call->kind)) {
    case COLD:
        return number[1] > 65535 || number[2] < 1 || number[2] > 32767 || list_len != FC_LIST_BYTES;
    case TOUCH:
        return number[2] > 65535 || number[3] > 3 || number[4] > 3;
    default:
        return false;
    }
}

static const char *broken_by_cold(const struct call *call, const uint8_t *before, struct outcome after)
{
    size_t site = call->numbers[0];
    unsigned listed = 0, ahead = 0, malformed = 0;
    uint8_t list[FC_LIST_BYTES] = {0};
    for (size_t key = 0; key < before[1]; key++) {
        size_t entry = entry_at(site, key);
        uint32_t value = value_at(before, entry);
        uint16_t age = (uint16_t)(call->numbers[1] - fc_hour(value));
        if (clock_at(before, entry + RECORD_CLOCK) == 0)
            continue;
        if (!fc_is_touch(value))
            malformed++;
        else if (age > 32767)
            ahead++;
        else if (age >= call->numbers[2])
            list[listed++] = (uint8_t)key;
    }
    struct fc_answer answer = fc_read(after.reply);
    if (memcmp(list, after.list, sizeof list) != 0)
        return "the list is the cold keys, ascending, and zeros";
    if (answer.key != listed || answer.site != ahead || answer.clock != malformed || answer.value != 0)
        return "the answer counts keys listed, clocks ahead and malformed values";
    return memcmp(before, after.table, FC_TABLE_BYTES) == 0 ? NULL : "a cold list changes no byte of the table";
}

/* The call of this kind, with the lists that the other has. */
static enum kind like(const struct call *other, enum kind kind)
{
    return is_short(other->kind) ? with_short_lists(kind) : kind;
}

static const char *broken_by_touch(const struct call *call, const uint8_t *before, struct outcome after)
{
    const uint64_t *number = call->numbers;
    uint8_t both[FC_TABLE_BYTES];
    uint32_t value = fc_read(after.reply).value;
    memcpy(both, before, sizeof both);
    if (make_plain_call(&forkcanyon, (struct call){like(call, GET), {number[0], number[1]}}, both) != FC_OK ||
        make_plain_call(&forkcanyon, (struct call){like(call, PUT), {number[0], number[1], value}}, both) != FC_OK ||
        memcmp(both, after.table, sizeof both) != 0)
        return "a touch is its get and its put";
    if (!fc_is_touch(value) || fc_toucher(value) != number[3] || fc_tier(value) != number[4])
        return "a touch puts a record of the given toucher and tier";
    bool keeps = number[3] == FC_BY_SCAN || number[3] == FC_BY_MIGRATION;
    if (!keeps)
        return fc_hour(value) == number[2] ? NULL : "a touch by a user or a restore has the hour now";
    /* Whether a key is cold depends on no more than this, whatever now and the threshold are. */
    for (size_t at = entry_at(number[0], 0); at < entry_at(number[0], before[1]); at += RECORD) {
        uint32_t old = value_at(before, at), new = value_at(after.table, at);
        if (fc_hour(old) != fc_hour(new) || fc_is_touch(old) != fc_is_touch(new) ||
            (clock_at(before, at + RECORD_CLOCK) == 0) != (clock_at(after.table, at + RECORD_CLOCK) == 0))
            return "a touch by the scan or by migration changes no key's coldness at its site";
    }
    return NULL;
}

/* A call of the library on the table, and its reply. */
static uint32_t answered(struct call call, uint8_t *table, uint8_t *reply)
{
    struct buffers lent = {.table = {table, FC_TABLE_BYTES}, .reply = {reply, FC_REPLY_BYTES}};
    return make_call(&forkcanyon, &call, &lent);
}

/* Whether these calls, made on the table before, end with this answer and these bytes. */
static bool ends_so(const struct call *calls, size_t count, const uint8_t *before, struct outcome after)
{
    uint8_t table[FC_TABLE_BYTES], reply[FC_REPLY_BYTES];
    uint32_t code = 0;
    memcpy(table, before, sizeof table);
    for (size_t at = 0; at < count; at++)
        code = answered(calls[at], table, reply);
    return code == after.code && memcmp(reply, after.reply, sizeof reply) == 0 &&
           memcmp(table, after.table, sizeof table) == 0;
}

/* Whatever it answers, refusals too. */
static const char *broken_by_get(const struct call *call, const uint8_t *before, struct outcome after)
{
    uint64_t site = call->numbers[0], key = call->numbers[1];
    struct fc_answer answer = fc_read(after.reply);
    if (after.code == FC_OK && (memcmp(before, after.table, DEPENDS) != 0 ||
                                memcmp(before + STORE, after.table + STORE, FC_TABLE_BYTES - STORE) != 0))
        return "a get changes only what the site depends on";
    const struct call both[] = {{LOOK, {site, key}}, {like(call, ADOPT), {site, key, answer.site, answer.clock}}};
    return ends_so(both, 2, before, after) ? NULL : "a get is a look and the adopt of what it answered";
}

static const char *broken_by_look(const struct call *call, const uint8_t *before, struct outcome after)
{
    if (memcmp(before, after.table, FC_TABLE_BYTES) != 0)
        return "a look changes nothing";
    uint8_t table[FC_TABLE_BYTES], reply[FC_REPLY_BYTES];
    memcpy(table, before, sizeof table);
    answered((struct call){GET, {call->numbers[0], call->numbers[1]}}, table, reply);
    return memcmp(reply, after.reply, sizeof reply) == 0 ? NULL : "a look answers as get";
}

static const char *broken_by_adopt(const struct call *call, const uint8_t *before, struct outcome after)
{
    const uint64_t *number = call->numbers;
    if (after.code != FC_OK && after.code != FC_CHANGED)
        return NULL;
    if (number[1] >= before[1])
        return "15 is asked after 6";
    size_t entry = entry_at(number[0], number[1]);
    bool same = before[entry + RECORD_NAME] == number[2] && clock_at(before, entry + RECORD_CLOCK) == number[3];
    if (same != (after.code == FC_OK))
        return "15 exactly when the entry has another origin or clock";
    if (!same)
        return NULL;
    if (number[3] == 0 && memcmp(before, after.table, FC_TABLE_BYTES) != 0)
        return "adopting (0, 0) of a never-written key changes nothing";
    const struct call get = {like(call, GET), {number[0], number[1]}};
    return ends_so(&get, 1, before, after) ? NULL : "an adopt takes on what a get would, and answers as it";
}

/* On one table, so beside 10 too: what differs there is what the two kinds of calls have left before. */
static const char *broken_by_short_lists(const struct call *call, const uint8_t *before, struct outcome after)
{
    uint8_t table[FC_TABLE_BYTES], reply[FC_REPLY_BYTES];
    struct call plain = *call;
    plain.kind = namesake(call->kind);
    memcpy(table, before, sizeof table);
    if (answered(plain, table, reply) != after.code || memcmp(reply, after.reply, sizeof reply) != 0)
        return "a short call answers as its namesake on the same table";
    if (after.code != FC_OK || (plain.kind != GET && plain.kind != ADOPT))
        return NULL;
    size_t entry = entry_at(call->numbers[0], call->numbers[1]);
    size_t column = depends_at(call->numbers[0], before[entry + RECORD_NAME]);
    memcpy(table, before, sizeof table);
    if (clock_at(before, entry + RECORD_CLOCK) > clock_at(before, column))
        set_clock(table, column, clock_at(before, entry + RECORD_CLOCK));
    return memcmp(table, after.table, sizeof table) == 0 ? NULL : "a get with short lists adds the one pair it read";
}

/* What the site depends on before, as a get of the key leaves it: with short lists a put takes on nothing. */
static void row_to_send(const struct call *put, const uint8_t *before, uint8_t *row)
{
    uint8_t table[FC_TABLE_BYTES];
    memcpy(table, before, sizeof table);
    if (!is_short(put->kind))
        make_plain_call(&forkcanyon, (struct call){GET, {put->numbers[0], put->numbers[1]}}, table);
    memcpy(row, table + depends_at(put->numbers[0], 0), VECTOR);
}

static const char *broken_by_put(const struct call *call, const uint8_t *before, struct outcome after)
{
    static const uint8_t zeros[VECTOR];
    size_t site = call->numbers[0], entry = entry_at(site, call->numbers[1]);
    unsigned clock = fc_read(after.reply).clock;
    uint8_t sent[VECTOR], row[VECTOR];
    row_to_send(call, before, sent);
    if (memcmp(after.table + update_at(site, clock) + RECORD_VECTOR, sent, VECTOR) != 0)
        return is_short(call->kind) ? "a put with short lists sends the list of its site"
                                    : "a put first takes on the dependence of the entry it overwrites, as a get would";
    if (memcmp(after.table + entry + RECORD_VECTOR, is_short(call->kind) ? zeros : sent, VECTOR) != 0)
        return is_short(call->kind) ? "an own put with short lists is stored with zeros"
                                    : "an own put is stored with its update's vector";
    memcpy(row, is_short(call->kind) ? zeros : sent, VECTOR);
    if (clock > clock_at(row, 2 * site))
        set_clock(row, 2 * site, clock);
    return memcmp(after.table + depends_at(site, 0), row, VECTOR) == 0
               ? NULL
               : "after a put its site depends on it, and on what it sent unless lists are short";
}

/* The sum of the columns of a record's vector. */
static unsigned rank_at(const uint8_t *table, size_t record)
{
    unsigned sum = 0;
    for (size_t column = 0; column < FC_SITES; column++)
        sum += clock_at(table, record + RECORD_VECTOR + 2 * column);
    return sum;
}

enum meeting meeting_of(const struct call *delivery, const uint8_t *before, const uint8_t *reply)
{
    struct fc_answer answer = fc_read(reply);
    size_t entry = entry_at(delivery->numbers[0], answer.key), update = update_at(answer.site, answer.clock);
    unsigned held = rank_at(before, entry), comes = rank_at(before, update);
    if (clock_at(before, entry + RECORD_CLOCK) == 0)
        return NEVER_WRITTEN;
    if (held != comes)
        return comes > held ? HIGHER_RANK : LOWER_RANK;
    return answer.site >= before[entry + RECORD_NAME] ? ORIGIN_NOT_LOWER : LOWER_ORIGIN;
}

static const char *broken_by_delivery(const struct call *call, const uint8_t *before, struct outcome after)
{
    struct fc_answer answer = fc_read(after.reply);
    size_t site = call->numbers[0], entry = entry_at(site, answer.key), update = update_at(answer.site, answer.clock);
    enum meeting meeting = meeting_of(call, before, after.reply);
    bool replaces = is_short(call->kind) || (meeting != LOWER_RANK && meeting != LOWER_ORIGIN);
    uint8_t table[FC_TABLE_BYTES];
    memcpy(table, before, sizeof table);
    set_clock(table, applied_at(site, answer.site), answer.clock);
    if (replaces) {
        memcpy(table + entry, before + update, RECORD);
        table[entry + RECORD_NAME] = answer.site;
        table[entry + RECORD_NAME + 1] = 0;
    }
    if (memcmp(table, after.table, sizeof table) == 0)
        return NULL;
    return replaces ? "a delivery replaces the entry if never written, by a higher rank or an equal one of an origin not lower"
                    : "otherwise only the applied count rises";
}

/* Reader has the put of origin's, reads it this way and puts another key: what third answers. */
static struct fc_answer answer_at_third(enum kind way, bool short_lists, unsigned origin, unsigned reader, unsigned third)
{
    uint8_t table[FC_TABLE_BYTES], reply[FC_REPLY_BYTES];
    const struct call calls[] = {{OPEN, {FC_SITES, 2}},         {PUT, {origin, 0, 5}}, {DELIVER, {reader, origin}},
                                 {way, {reader, 0, origin, 1}}, {PUT, {reader, 1, 6}}, {DELIVER, {third, reader}}};
    for (size_t at = 0; at < sizeof calls / sizeof *calls; at++) {
        struct call call = calls[at];
        if (short_lists)
            call.kind = with_short_lists(call.kind);
        answered(call, table, reply);
    }
    return fc_read(reply);
}

const char *broken_by_a_look_or_an_adopt(bool short_lists, uint64_t *threes)
{
    for (unsigned names = 0; names < FC_SITES * FC_SITES * FC_SITES; names++) {
        unsigned origin = names % FC_SITES, reader = names / FC_SITES % FC_SITES, third = names / FC_SITES / FC_SITES;
        if (origin == reader || reader == third || third == origin)
            continue;
        struct fc_answer looked = answer_at_third(LOOK, short_lists, origin, reader, third);
        struct fc_answer adopted = answer_at_third(ADOPT, short_lists, origin, reader, third);
        if (looked.code != FC_OK || looked.value != 6)
            return "a put that was only looked at is not waited for";
        if (adopted.code != FC_WAITS || adopted.value != 1u << origin || adopted.clock != 1)
            return "an adopted put is waited for, and no other";
        *threes += 1;
    }
    return NULL;
}

/* Whether all that the call names as a site or an origin is below n. */
static bool names_sites(const struct call *call, const uint8_t *table)
{
    enum kind kind = namesake(call->kind);
    uint64_t origin = kind == DELIVER ? call->numbers[1] : kind == ADOPT ? call->numbers[2] : 0;
    return call->numbers[0] < table[0] && origin < table[0];
}

/* Of a sound table, where nothing but its bytes and the call's numbers count: 4, then 5, then 16, then the rest. */
static const char *broken_by_names(const struct call *call, const uint8_t *before, struct outcome after)
{
    if (call->kind == OPEN || after.code == FC_RANGE || after.code == FC_UNSOUND)
        return NULL;
    if (names_sites(call, before) == (after.code == FC_SITE))
        return "4 exactly when a named site or origin is not below n, retired or not";
    if (after.code == FC_SITE)
        return NULL;
    bool same = namesake(call->kind) == DELIVER && call->numbers[0] == call->numbers[1];
    if (same != (after.code == FC_SAME))
        return "5 exactly when a delivery names one site as both, retired or not";
    if (!same && is_retired(before, call->numbers[0]) != (after.code == FC_RETIRED))
        return "16 exactly when the acting site is retired, after 5 and before all others";
    return NULL;
}

/* Whether some live site has applied 16 fewer of the site's puts than it has made. */
static bool is_full(const uint8_t *table, size_t site)
{
    unsigned own = clock_at(table, applied_at(site, site));
    bool full = false;
    for (size_t other = 0; other < table[0]; other++)
        full = full || (!is_retired(table, other) && clock_at(table, applied_at(other, site)) + FC_PLACES == own);
    return full;
}

static const char *broken_by_room(const struct call *call, const uint8_t *before, struct outcome after)
{
    enum kind kind = namesake(call->kind);
    if ((kind != PUT && kind != TOUCH) || (after.code != FC_OK && after.code != FC_ROOM))
        return NULL;
    return is_full(before, call->numbers[0]) == (after.code == FC_ROOM)
               ? NULL
               : "8 exactly when some live site has applied 16 fewer of the site's puts than it";
}

static const char *broken_by_retirement(const struct call *call, const uint8_t *before, struct outcome after)
{
    static const uint8_t zeros[FC_REPLY_BYTES];
    size_t site = call->numbers[0];
    uint8_t table[FC_TABLE_BYTES];
    memcpy(table, before, sizeof table);
    table[RETIRED] |= (uint8_t)(1u << site);
    bool last = table[RETIRED] == (1u << before[0]) - 1;
    if (last != (after.code == FC_LAST))
        return "17 exactly when the last live site is to be retired";
    if (last)
        return NULL;
    if (memcmp(after.reply, zeros, sizeof zeros) != 0)
        return "retirement answers zeros";
    return memcmp(table, after.table, sizeof table) == 0 ? NULL : "retirement sets the bit and changes no other byte";
}

/* The sum of 2 to the power m over the columns m of the next update's vector that are above the applied row. */
static uint32_t failing_columns(const uint8_t *table, size_t site, size_t origin)
{
    unsigned clock = clock_at(table, applied_at(site, origin)) + 1;
    uint32_t sum = 0, power = 1;
    for (size_t column = 0; column < FC_SITES; column++, power *= 2)
        if (clock_at(table, update_at(origin, clock) + RECORD_VECTOR + 2 * column) >
            clock_at(table, applied_at(site, column)))
            sum += power;
    return sum;
}

/* The lowest site that the answer waits for; 8 if none. */
static unsigned lowest_waited_for(struct fc_answer answer)
{
    unsigned site = 0;
    while (site < FC_SITES && !fc_waits_for(answer, site))
        site++;
    return site;
}

static const char *broken_by_waiting(const struct call *call, const uint8_t *before, struct outcome after)
{
    struct fc_answer answer = fc_read(after.reply);
    if (answer.value != failing_columns(before, call->numbers[0], call->numbers[1]))
        return "beside 10, the value is the sum of 2 to the power m over the failing columns m";
    if (lowest_waited_for(answer) != answer.site)
        return "beside 10, the site is the lowest of those in the value";
    return NULL;
}

const char *broken_law(enum start start, const struct call *call, const uint8_t *before, struct outcome after)
{
    enum kind kind = namesake(call->kind);
    if (start != ANYTHING && after.code == FC_UNSOUND)
        return "every accepted call on a sound table leaves a sound one";
    if (after.code != FC_OK && after.code != FC_BUDGET && memcmp(before, after.table, FC_TABLE_BYTES) != 0)
        return "a refused call keeps all bytes";
    const char *broken = is_short(call->kind) ? broken_by_short_lists(call, before, after) : NULL;
    if (broken != NULL)
        return broken;
    broken = broken_by_names(call, before, after);
    if (broken == NULL)
        broken = broken_by_room(call, before, after);
    if (broken != NULL)
        return broken;
    if (kind == RETIRE && (after.code == FC_OK || after.code == FC_LAST))
        return broken_by_retirement(call, before, after);
    if (after.code == FC_WAITS)
        return broken_by_waiting(call, before, after);
    if (kind == GET)
        return broken_by_get(call, before, after);
    if (kind == LOOK)
        return broken_by_look(call, before, after);
    if (kind == ADOPT)
        return broken_by_adopt(call, before, after);
    if (after.code != FC_OK && after.code != FC_BUDGET)
        return NULL;
    switch (kind) {
    case PUT:
        return broken_by_put(call, before, after);
    case DELIVER:
        return broken_by_delivery(call, before, after);
    case DRAIN:
        return broken_by_drain(start, call, before, after);
    case COLD:
        return broken_by_cold(call, before, after);
    case TOUCH:
        return broken_by_touch(call, before, after);
    default:
        return NULL;
    }
}
