/* Calls that are wrong in one way each, put in the place of the library's by the linker's --wrap. */
#include "forkcanyon.h"

#include <string.h>

#if defined WRONG_SCAN || defined WRONG_MIGRATION

uint32_t __real_fc_touch(uint64_t, uint64_t, uint64_t, uint64_t, uint64_t, uint8_t *, size_t, uint8_t *, size_t);
uint32_t __wrap_fc_touch(uint64_t, uint64_t, uint64_t, uint64_t, uint64_t, uint8_t *, size_t, uint8_t *, size_t);

/* A scan, or a migration, that does not keep the hour, on a file that has one. */
uint32_t __wrap_fc_touch(uint64_t site, uint64_t key, uint64_t now, uint64_t toucher, uint64_t tier,
                         uint8_t *table, size_t table_len, uint8_t *reply, size_t reply_len)
{
#ifdef WRONG_SCAN
    const uint64_t wrong = FC_BY_SCAN;
#else
    const uint64_t wrong = FC_BY_MIGRATION;
#endif
    uint32_t code = __real_fc_touch(site, key, now, toucher, tier, table, table_len, reply, reply_len);
    if (code == FC_OK && toucher == wrong)
        return __real_fc_touch(site, key, now, FC_BY_RESTORE, tier, table, table_len, reply, reply_len);
    return code;
}

#elif defined WRONG_LOOK

uint32_t __wrap_fc_look(uint64_t, uint64_t, uint8_t *, size_t, uint8_t *, size_t);

/* A look that adopts. */
uint32_t __wrap_fc_look(uint64_t site, uint64_t key, uint8_t *table, size_t table_len, uint8_t *reply,
                        size_t reply_len)
{
    return fc_get(site, key, table, table_len, reply, reply_len);
}

#elif defined WRONG_ADOPT

uint32_t __wrap_fc_adopt(uint64_t, uint64_t, uint64_t, uint64_t, uint8_t *, size_t, uint8_t *, size_t);

/* An adopt that takes on nothing. */
uint32_t __wrap_fc_adopt(uint64_t site, uint64_t key, uint64_t origin, uint64_t clock, uint8_t *table,
                         size_t table_len, uint8_t *reply, size_t reply_len)
{
    uint32_t code = fc_look(site, key, table, table_len, reply, reply_len);
    struct fc_answer answer = fc_read(reply);
    return code == FC_OK && (answer.site != origin || answer.clock != clock) ? FC_CHANGED : code;
}

#elif defined WRONG_ANY

uint32_t __wrap_fc_adopt(uint64_t, uint64_t, uint64_t, uint64_t, uint8_t *, size_t, uint8_t *, size_t);

/* An adopt of whatever is there. */
uint32_t __wrap_fc_adopt(uint64_t site, uint64_t key, uint64_t origin, uint64_t clock, uint8_t *table,
                         size_t table_len, uint8_t *reply, size_t reply_len)
{
    (void)origin, (void)clock;
    return fc_get(site, key, table, table_len, reply, reply_len);
}

#else

uint32_t __real_fc_cold(uint64_t, uint64_t, uint64_t, uint8_t *, size_t, uint8_t *, size_t, uint8_t *, size_t);
uint32_t __wrap_fc_cold(uint64_t, uint64_t, uint64_t, uint8_t *, size_t, uint8_t *, size_t, uint8_t *, size_t);

/* A threshold an hour too short, a list that starts at key 1, or one that gets every key. */
uint32_t __wrap_fc_cold(uint64_t site, uint64_t now, uint64_t threshold, uint8_t *table, size_t table_len,
                        uint8_t *list, size_t list_len, uint8_t *reply, size_t reply_len)
{
#ifdef WRONG_THRESHOLD
    threshold -= 1;
#endif
    uint32_t code = __real_fc_cold(site, now, threshold, table, table_len, list, list_len, reply, reply_len);
#ifdef WRONG_FIRST_KEY
    if (code == FC_OK && reply[1] > 0 && list[0] == 0) {
        memmove(list, list + 1, list_len - 1);
        reply[1]--;
    }
#endif
#ifdef WRONG_GETS
    uint8_t got[FC_REPLY_BYTES];
    for (uint64_t key = 0; code == FC_OK && key < FC_KEYS; key++)
        fc_get(site, key, table, table_len, got, sizeof got);
#endif
    return code;
}

#endif
