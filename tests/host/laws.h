/* Sentences of documents 01 and 02 that every outcome must obey, whatever the second program says. */
#ifndef LAWS_H
#define LAWS_H

#include "calls.h"

#include <stdbool.h>

/* What is known of the table before the call: reached from opening, sound, or nothing. */
enum start { REACHED, SOUND, ANYTHING };

struct outcome {
    uint32_t code;
    const uint8_t *table, *list, *reply;
};

/* Whether a call's own numbers, or the length of its list, are refused with 14. */
bool out_of_range(const struct call *call, size_t list_len);

/* The sentence that a call on a table and a reply of the right lengths breaks, or NULL. */
const char *broken_law(enum start start, const struct call *call, const uint8_t *before, struct outcome after);

/* What an accepted delivery meets: why it replaces the entry, or, in the last two, why it does not. */
enum meeting { NEVER_WRITTEN, HIGHER_RANK, ORIGIN_NOT_LOWER, LOWER_RANK, LOWER_ORIGIN, MEETINGS };

enum meeting meeting_of(const struct call *delivery, const uint8_t *before, const uint8_t *reply);

/* The same of "a look makes no cause until adopted": whether a put waits for what was read, between any three
   sites. It counts them. */
const char *broken_by_a_look_or_an_adopt(bool short_lists, uint64_t *threes);

#endif
