/* One kind of calls under the names of the other, by the linker's --wrap. */
#include "forkcanyon.h"

#ifdef WRONG_NOW
#define WRAPPED(name) __wrap_fc_##name
#define INSTEAD(name) fc_short_##name
#else
#define WRAPPED(name) __wrap_fc_short_##name
#define INSTEAD(name) fc_##name
#endif

uint32_t WRAPPED(deliver)(uint64_t, uint64_t, uint8_t *, size_t, uint8_t *, size_t);
uint32_t WRAPPED(drain)(uint64_t, uint64_t, uint8_t *, size_t, uint8_t *, size_t);

uint32_t WRAPPED(deliver)(uint64_t site, uint64_t origin, uint8_t *table, size_t table_len, uint8_t *reply,
                          size_t reply_len)
{
    return INSTEAD(deliver)(site, origin, table, table_len, reply, reply_len);
}

uint32_t WRAPPED(drain)(uint64_t site, uint64_t budget, uint8_t *table, size_t table_len, uint8_t *reply,
                        size_t reply_len)
{
    return INSTEAD(drain)(site, budget, table, table_len, reply, reply_len);
}

#ifdef WRONG_BEFORE
uint32_t WRAPPED(touch)(uint64_t, uint64_t, uint64_t, uint64_t, uint64_t, uint8_t *, size_t, uint8_t *, size_t);

uint32_t WRAPPED(touch)(uint64_t site, uint64_t key, uint64_t now, uint64_t toucher, uint64_t tier, uint8_t *table,
                        size_t table_len, uint8_t *reply, size_t reply_len)
{
    return INSTEAD(touch)(site, key, now, toucher, tier, table, table_len, reply, reply_len);
}
#endif
