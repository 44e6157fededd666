#include "calls.h"

#include <stdlib.h>

two_numbers twin_open, twin_look;
two_numbers twin_get, twin_deliver, twin_drain, twin_short_get, twin_short_deliver, twin_short_drain;
two_numbers twin_long_get, twin_long_deliver, twin_long_drain;
put_call twin_put, twin_short_put, twin_long_put;
four_numbers twin_adopt, twin_short_adopt, twin_long_adopt;
five_numbers twin_touch, twin_short_touch, twin_long_touch;
three_buffers twin_cold;
one_number twin_retire;

#define ENGINE(in) \
    {.get = in##_get, .deliver = in##_deliver, .drain = in##_drain, .put = in##_put, .adopt = in##_adopt, \
     .touch = in##_touch}
#define LIBRARY(title, in, engine) \
    {.name = title, .open = in##_open, .look = in##_look, .cold = in##_cold, .retire = in##_retire, \
     .ours = ENGINE(engine), .short_lists = ENGINE(in##_short)}

const struct library forkcanyon = LIBRARY("forkcanyon", fc, fc);
const struct library twin = LIBRARY("twin", twin, twin);
const struct library before = LIBRARY("before", twin, twin_long);
const char *const kind_names[KINDS] = {"open", "put", "get", "look", "adopt", "deliver", "drain", "touch", "cold",
                                       "retire", "short_put", "short_get", "short_adopt", "short_deliver",
                                       "short_drain", "short_touch"};

static const enum kind namesakes[KINDS] = {
    [OPEN] = OPEN, [PUT] = PUT, [GET] = GET, [LOOK] = LOOK, [ADOPT] = ADOPT, [DELIVER] = DELIVER, [DRAIN] = DRAIN,
    [TOUCH] = TOUCH, [COLD] = COLD, [RETIRE] = RETIRE, [SHORT_PUT] = PUT, [SHORT_GET] = GET, [SHORT_ADOPT] = ADOPT,
    [SHORT_DELIVER] = DELIVER, [SHORT_DRAIN] = DRAIN, [SHORT_TOUCH] = TOUCH};

enum kind namesake(enum kind kind)
{
    return namesakes[kind];
}

enum kind with_short_lists(enum kind kind)
{
    for (enum kind each = SHORT_PUT; each < KINDS; each++)
        if (namesakes[each] == kind)
            return each;
    return kind;
}

uint32_t make_call(const struct library *library, const struct call *call, const struct buffers *lent)
{
    const struct engine *engine = is_short(call->kind) ? &library->short_lists : &library->ours;
    const uint64_t *number = call->numbers;
    struct lent table = lent->table, list = lent->list, reply = lent->reply;
    two_numbers *chosen = NULL;
    switch (namesake(call->kind)) {
    case PUT:
        return engine->put(number[0], number[1], (uint32_t)number[2], table.bytes, table.length, reply.bytes,
                           reply.length);
    case ADOPT:
        return engine->adopt(number[0], number[1], number[2], number[3], table.bytes, table.length, reply.bytes,
                             reply.length);
    case TOUCH:
        return engine->touch(number[0], number[1], number[2], number[3], number[4], table.bytes, table.length,
                             reply.bytes, reply.length);
    case COLD:
        return library->cold(number[0], number[1], number[2], table.bytes, table.length, list.bytes, list.length,
                             reply.bytes, reply.length);
    case RETIRE:
        return library->retire(number[0], table.bytes, table.length, reply.bytes, reply.length);
    case OPEN:
        chosen = library->open;
        break;
    case GET:
        chosen = engine->get;
        break;
    case LOOK:
        chosen = library->look;
        break;
    case DELIVER:
        chosen = engine->deliver;
        break;
    case DRAIN:
        chosen = engine->drain;
        break;
    case SHORT_PUT:
    case SHORT_GET:
    case SHORT_ADOPT:
    case SHORT_DELIVER:
    case SHORT_DRAIN:
    case SHORT_TOUCH:
    case KINDS:
        abort();
    }
    return chosen(number[0], number[1], table.bytes, table.length, reply.bytes, reply.length);
}

uint32_t make_plain_call(const struct library *library, struct call call, uint8_t *table)
{
    uint8_t list[FC_LIST_BYTES], reply[FC_REPLY_BYTES];
    struct buffers lent = {{table, FC_TABLE_BYTES}, {list, sizeof list}, {reply, sizeof reply}};
    return make_call(library, &call, &lent);
}
