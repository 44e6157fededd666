/* Calls that are wrong in one way each, put in the place of the library's by the linker's --wrap. */
#include "calls.h"
#include "tables.h"

#include <string.h>

#if defined WRONG_ALWAYS

two_numbers __wrap_fc_deliver, __wrap_fc_drain;

/* Every delivery replaces. */
uint32_t __wrap_fc_deliver(uint64_t site, uint64_t origin, uint8_t *table, size_t table_len, uint8_t *reply,
                           size_t reply_len)
{
    return fc_short_deliver(site, origin, table, table_len, reply, reply_len);
}

uint32_t __wrap_fc_drain(uint64_t site, uint64_t budget, uint8_t *table, size_t table_len, uint8_t *reply,
                         size_t reply_len)
{
    return fc_short_drain(site, budget, table, table_len, reply, reply_len);
}

#elif defined WRONG_NEVER || defined WRONG_LOWER_ORIGIN

two_numbers __real_fc_deliver, __wrap_fc_deliver;

static unsigned rank_at(const uint8_t *table, size_t record)
{
    unsigned sum = 0;
    for (size_t column = 0; column < FC_SITES; column++)
        sum += clock_at(table, record + RECORD_VECTOR + 2 * column);
    return sum;
}

/* No delivery replaces what is written; or, of equal ranks, that of the lower origin. */
uint32_t __wrap_fc_deliver(uint64_t site, uint64_t origin, uint8_t *table, size_t table_len, uint8_t *reply,
                           size_t reply_len)
{
    uint8_t before[FC_TABLE_BYTES];
    memcpy(before, table, sizeof before);
    uint32_t code = __real_fc_deliver(site, origin, table, table_len, reply, reply_len);
    struct fc_answer answer = fc_read(reply);
    size_t entry = entry_at(site, answer.key), update = update_at(origin, answer.clock);
    if (code != FC_OK || clock_at(before, entry + RECORD_CLOCK) == 0)
        return code;
#ifdef WRONG_NEVER
    (void)update, (void)rank_at;
    memcpy(table + entry, before + entry, RECORD);
#else
    if (rank_at(before, entry) != rank_at(before, update))
        return code;
    memcpy(table + entry, before + (origin < before[entry + RECORD_NAME] ? update : entry), RECORD);
    if (origin < before[entry + RECORD_NAME])
        table[entry + RECORD_NAME] = (uint8_t)origin;
#endif
    return code;
}

#elif defined WRONG_DROPS

one_number __real_fc_retire, __wrap_fc_retire;

/* A retirement that drops the site's puts: the others count them as applied. */
uint32_t __wrap_fc_retire(uint64_t site, uint8_t *table, size_t table_len, uint8_t *reply, size_t reply_len)
{
    uint32_t code = __real_fc_retire(site, table, table_len, reply, reply_len);
    for (size_t other = 0; code == FC_OK && other < table[0]; other++)
        memcpy(table + applied_at(other, site), table + applied_at(site, site), 2);
    return code;
}

#elif defined WRONG_NOBODY

one_number __wrap_fc_retire;

/* A retirement that does nothing. */
uint32_t __wrap_fc_retire(uint64_t site, uint8_t *table, size_t table_len, uint8_t *reply, size_t reply_len)
{
    return fc_look(site, 0, table, table_len, reply, reply_len);
}

#elif defined WRONG_SHORT

/* Our calls under the names of short ones: none disagrees. */
two_numbers __wrap_fc_short_deliver, __wrap_fc_short_drain;
put_call __wrap_fc_short_put;
five_numbers __wrap_fc_short_touch;

uint32_t __wrap_fc_short_deliver(uint64_t site, uint64_t origin, uint8_t *table, size_t table_len, uint8_t *reply,
                                 size_t reply_len)
{
    return fc_deliver(site, origin, table, table_len, reply, reply_len);
}

uint32_t __wrap_fc_short_drain(uint64_t site, uint64_t budget, uint8_t *table, size_t table_len, uint8_t *reply,
                               size_t reply_len)
{
    return fc_drain(site, budget, table, table_len, reply, reply_len);
}

uint32_t __wrap_fc_short_put(uint64_t site, uint64_t key, uint32_t value, uint8_t *table, size_t table_len,
                             uint8_t *reply, size_t reply_len)
{
    return fc_put(site, key, value, table, table_len, reply, reply_len);
}

uint32_t __wrap_fc_short_touch(uint64_t site, uint64_t key, uint64_t now, uint64_t toucher, uint64_t tier,
                               uint8_t *table, size_t table_len, uint8_t *reply, size_t reply_len)
{
    return fc_touch(site, key, now, toucher, tier, table, table_len, reply, reply_len);
}

#else

put_call __real_fc_put, __wrap_fc_put;

/* A put that takes on nothing, one that is stored with zeros, or one that is stored with what its site then depends on. */
uint32_t __wrap_fc_put(uint64_t site, uint64_t key, uint32_t value, uint8_t *table, size_t table_len, uint8_t *reply,
                       size_t reply_len)
{
    uint8_t row[VECTOR] = {0};
    if (site < FC_SITES)
        memcpy(row, table + depends_at(site, 0), VECTOR);
    uint32_t code = __real_fc_put(site, key, value, table, table_len, reply, reply_len);
    if (code != FC_OK)
        return code;
    size_t entry = entry_at(site, key) + RECORD_VECTOR;
#if defined WRONG_LEARNS_NOT
    unsigned clock = fc_read(reply).clock;
    memcpy(table + update_at(site, clock) + RECORD_VECTOR, row, VECTOR);
    memcpy(table + entry, row, VECTOR);
    memcpy(table + depends_at(site, 0), row, VECTOR);
    set_clock(table, depends_at(site, site), clock);
#elif defined WRONG_ZEROS
    memset(table + entry, 0, VECTOR);
#else
    memcpy(table + entry, table + depends_at(site, 0), VECTOR);
#endif
    return code;
}

#endif
