/* Calls that are wrong in one way each, put in the place of the library's by the linker's --wrap. */
#include "tables.h"

#include <string.h>

#if defined WRONG_COUNTS || defined WRONG_ROOM

uint32_t __real_fc_put(uint64_t, uint64_t, uint32_t, uint8_t *, size_t, uint8_t *, size_t);
uint32_t __wrap_fc_put(uint64_t, uint64_t, uint32_t, uint8_t *, size_t, uint8_t *, size_t);

/* A put for which the retired sites count too; or one for which no other site counts. */
uint32_t __wrap_fc_put(uint64_t site, uint64_t key, uint32_t value, uint8_t *table, size_t table_len, uint8_t *reply,
                       size_t reply_len)
{
    uint8_t retired = table[RETIRED];
#ifdef WRONG_COUNTS
    for (size_t other = 0; other < table[0]; other++)
        if (clock_at(table, applied_at(other, site)) + FC_PLACES <= clock_at(table, applied_at(site, site)))
            return FC_ROOM;
#else
    table[RETIRED] = (uint8_t)(((1u << table[0]) - 1) & ~(1u << site));
#endif
    uint32_t code = __real_fc_put(site, key, value, table, table_len, reply, reply_len);
    table[RETIRED] = retired;
    return code;
}

#elif defined WRONG_DROPS

uint32_t __real_fc_retire(uint64_t, uint8_t *, size_t, uint8_t *, size_t);
uint32_t __wrap_fc_retire(uint64_t, uint8_t *, size_t, uint8_t *, size_t);

/* A retirement that drops the site's puts: the others count them as applied. */
uint32_t __wrap_fc_retire(uint64_t site, uint8_t *table, size_t table_len, uint8_t *reply, size_t reply_len)
{
    uint32_t code = __real_fc_retire(site, table, table_len, reply, reply_len);
    for (size_t other = 0; code == FC_OK && other < table[0]; other++)
        memcpy(table + applied_at(other, site), table + applied_at(site, site), 2);
    return code;
}

#else

uint32_t __real_fc_look(uint64_t, uint64_t, uint8_t *, size_t, uint8_t *, size_t);
uint32_t __wrap_fc_look(uint64_t, uint64_t, uint8_t *, size_t, uint8_t *, size_t);

/* A look at a retired site that is answered. */
uint32_t __wrap_fc_look(uint64_t site, uint64_t key, uint8_t *table, size_t table_len, uint8_t *reply, size_t reply_len)
{
    uint8_t before[FC_TABLE_BYTES];
    memcpy(before, table, sizeof before);
    table[RETIRED] = 0;
    for (size_t origin = 0; origin < table[0]; origin++) /* sound without it only if it lags by 16 at most */
        memcpy(table + applied_at(site, origin), table + applied_at(origin, origin), 2);
    uint32_t code = __real_fc_look(site, key, table, table_len, reply, reply_len);
    memcpy(table, before, sizeof before);
    return code;
}

#endif
