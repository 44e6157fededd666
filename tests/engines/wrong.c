/* Short calls that are wrong in one way each, put in the place of the library's by the linker's --wrap. */
#include "tables.h"

#include <string.h>

#if defined WRONG_GET

uint32_t __wrap_fc_short_get(uint64_t, uint64_t, uint8_t *, size_t, uint8_t *, size_t);

/* A get that notes nothing. */
uint32_t __wrap_fc_short_get(uint64_t site, uint64_t key, uint8_t *table, size_t table_len, uint8_t *reply,
                             size_t reply_len)
{
    return fc_look(site, key, table, table_len, reply, reply_len);
}

#elif defined WRONG_GET_LONG

uint32_t __wrap_fc_short_get(uint64_t, uint64_t, uint8_t *, size_t, uint8_t *, size_t);

/* A get that notes a clock too many. */
uint32_t __wrap_fc_short_get(uint64_t site, uint64_t key, uint8_t *table, size_t table_len, uint8_t *reply,
                             size_t reply_len)
{
    uint32_t code = fc_get(site, key, table, table_len, reply, reply_len);
    struct fc_answer answer = fc_read(reply);
    if (code == FC_OK && answer.clock > 0 && answer.clock < clock_at(table, applied_at(answer.site, answer.site)))
        set_clock(table, depends_at(site, answer.site), answer.clock + 1u);
    return code;
}

#elif defined WRONG_ADOPT

uint32_t __real_fc_short_adopt(uint64_t, uint64_t, uint64_t, uint64_t, uint8_t *, size_t, uint8_t *, size_t);
uint32_t __wrap_fc_short_adopt(uint64_t, uint64_t, uint64_t, uint64_t, uint8_t *, size_t, uint8_t *, size_t);

/* An adopt that notes nothing. */
uint32_t __wrap_fc_short_adopt(uint64_t site, uint64_t key, uint64_t origin, uint64_t clock, uint8_t *table,
                               size_t table_len, uint8_t *reply, size_t reply_len)
{
    uint8_t row[VECTOR];
    if (table_len != FC_TABLE_BYTES || site >= FC_SITES)
        return __real_fc_short_adopt(site, key, origin, clock, table, table_len, reply, reply_len);
    memcpy(row, table + depends_at(site, 0), VECTOR);
    uint32_t code = __real_fc_short_adopt(site, key, origin, clock, table, table_len, reply, reply_len);
    memcpy(table + depends_at(site, 0), row, VECTOR);
    return code;
}

#elif defined WRONG_PUT

uint32_t __real_fc_short_put(uint64_t, uint64_t, uint32_t, uint8_t *, size_t, uint8_t *, size_t);
uint32_t __wrap_fc_short_put(uint64_t, uint64_t, uint32_t, uint8_t *, size_t, uint8_t *, size_t);

/* A put that forgets its list before it sends it. */
uint32_t __wrap_fc_short_put(uint64_t site, uint64_t key, uint32_t value, uint8_t *table, size_t table_len,
                             uint8_t *reply, size_t reply_len)
{
    uint32_t code = __real_fc_short_put(site, key, value, table, table_len, reply, reply_len);
    if (code == FC_OK)
        memset(table + update_at(site, fc_read(reply).clock) + RECORD_VECTOR, 0, VECTOR);
    return code;
}

#elif defined WRONG_ROOM

uint32_t __real_fc_short_put(uint64_t, uint64_t, uint32_t, uint8_t *, size_t, uint8_t *, size_t);
uint32_t __wrap_fc_short_put(uint64_t, uint64_t, uint32_t, uint8_t *, size_t, uint8_t *, size_t);

/* A put that a retired site still holds up. */
uint32_t __wrap_fc_short_put(uint64_t site, uint64_t key, uint32_t value, uint8_t *table, size_t table_len,
                             uint8_t *reply, size_t reply_len)
{
    uint8_t before[FC_TABLE_BYTES];
    memcpy(before, table, table_len);
    uint32_t code = __real_fc_short_put(site, key, value, table, table_len, reply, reply_len);
    for (size_t other = 0; code == FC_OK && other < before[0]; other++)
        if (clock_at(before, applied_at(other, site)) + FC_PLACES == clock_at(before, applied_at(site, site))) {
            memcpy(table, before, table_len);
            memset(reply, 0, reply_len);
            code = reply[0] = FC_ROOM;
        }
    return code;
}

#elif defined WRONG_TOUCH

uint32_t __real_fc_short_touch(uint64_t, uint64_t, uint64_t, uint64_t, uint64_t, uint8_t *, size_t, uint8_t *, size_t);
uint32_t __wrap_fc_short_touch(uint64_t, uint64_t, uint64_t, uint64_t, uint64_t, uint8_t *, size_t, uint8_t *, size_t);

/* A touch that puts and does not get. */
uint32_t __wrap_fc_short_touch(uint64_t site, uint64_t key, uint64_t now, uint64_t toucher, uint64_t tier,
                               uint8_t *table, size_t table_len, uint8_t *reply, size_t reply_len)
{
    uint8_t row[VECTOR];
    if (table_len != FC_TABLE_BYTES || site >= FC_SITES)
        return __real_fc_short_touch(site, key, now, toucher, tier, table, table_len, reply, reply_len);
    memcpy(row, table + depends_at(site, 0), VECTOR);
    uint32_t code = __real_fc_short_touch(site, key, now, toucher, tier, table, table_len, reply, reply_len);
    if (code == FC_OK)
        memcpy(table + update_at(site, fc_read(reply).clock) + RECORD_VECTOR, row, VECTOR);
    return code;
}

#elif defined WRONG_DELIVER

uint32_t __real_fc_short_deliver(uint64_t, uint64_t, uint8_t *, size_t, uint8_t *, size_t);
uint32_t __wrap_fc_short_deliver(uint64_t, uint64_t, uint8_t *, size_t, uint8_t *, size_t);

/* A delivery that looks only at its origin's column. */
uint32_t __wrap_fc_short_deliver(uint64_t site, uint64_t origin, uint8_t *table, size_t table_len, uint8_t *reply,
                                 size_t reply_len)
{
    uint32_t code = __real_fc_short_deliver(site, origin, table, table_len, reply, reply_len);
    if (code != FC_WAITS)
        return code;
    size_t vector = update_at(origin, clock_at(table, applied_at(site, origin)) + 1) + RECORD_VECTOR;
    memset(table + vector, 0, VECTOR);
    return __real_fc_short_deliver(site, origin, table, table_len, reply, reply_len);
}

#elif defined WRONG_DRAIN

uint32_t __real_fc_short_drain(uint64_t, uint64_t, uint8_t *, size_t, uint8_t *, size_t);
uint32_t __wrap_fc_short_drain(uint64_t, uint64_t, uint8_t *, size_t, uint8_t *, size_t);

/* A drain that may try once less. */
uint32_t __wrap_fc_short_drain(uint64_t site, uint64_t budget, uint8_t *table, size_t table_len, uint8_t *reply,
                               size_t reply_len)
{
    return __real_fc_short_drain(site, budget > 0 ? budget - 1 : 0, table, table_len, reply, reply_len);
}

#elif defined WRONG_RANKS

uint32_t __wrap_fc_short_deliver(uint64_t, uint64_t, uint8_t *, size_t, uint8_t *, size_t);

/* A delivery that replaces by rank, as ours. */
uint32_t __wrap_fc_short_deliver(uint64_t site, uint64_t origin, uint8_t *table, size_t table_len, uint8_t *reply,
                                 size_t reply_len)
{
    return fc_deliver(site, origin, table, table_len, reply, reply_len);
}

#elif defined WRONG_LEARNS

uint32_t __real_fc_short_put(uint64_t, uint64_t, uint32_t, uint8_t *, size_t, uint8_t *, size_t);
uint32_t __wrap_fc_short_put(uint64_t, uint64_t, uint32_t, uint8_t *, size_t, uint8_t *, size_t);

/* A put that first takes on what it overwrites, as ours. */
uint32_t __wrap_fc_short_put(uint64_t site, uint64_t key, uint32_t value, uint8_t *table, size_t table_len,
                             uint8_t *reply, size_t reply_len)
{
    fc_short_get(site, key, table, table_len, reply, reply_len);
    return __real_fc_short_put(site, key, value, table, table_len, reply, reply_len);
}

#else

/* Calls with long lists under the names of short ones: of the second program, by the steps before request (e), they agree
   with it and show nothing; ours do not agree. */
#ifdef WRONG_LONG
#define INSTEAD(name) twin_long_##name
#else
#define INSTEAD(name) fc_##name
#endif
#define LONG(name, parameters, ...) \
    uint32_t INSTEAD(name)(parameters, uint8_t *, size_t, uint8_t *, size_t); \
    uint32_t __wrap_fc_short_##name(parameters, uint8_t *, size_t, uint8_t *, size_t); \
    uint32_t __wrap_fc_short_##name(parameters, uint8_t *table, size_t table_len, uint8_t *reply, size_t reply_len) \
    { \
        return INSTEAD(name)(__VA_ARGS__, table, table_len, reply, reply_len); \
    }
#define COMMA ,
LONG(put, uint64_t site COMMA uint64_t key COMMA uint32_t value, site, key, value)
LONG(get, uint64_t site COMMA uint64_t key, site, key)
LONG(adopt, uint64_t site COMMA uint64_t key COMMA uint64_t origin COMMA uint64_t clock, site, key, origin, clock)
LONG(touch, uint64_t site COMMA uint64_t key COMMA uint64_t now COMMA uint64_t toucher COMMA uint64_t tier, site, key,
     now, toucher, tier)

#endif
