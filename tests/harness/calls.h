/* The calls of the library and of the second program, behind one door. */
#ifndef CALLS_H
#define CALLS_H

#include "forkcanyon.h"

#include <stdbool.h>

enum kind {
    OPEN, PUT, GET, LOOK, ADOPT, DELIVER, DRAIN, TOUCH, COLD, RETIRE,
    SHORT_PUT, SHORT_GET, SHORT_ADOPT, SHORT_DELIVER, SHORT_DRAIN, SHORT_TOUCH,
    KINDS
};
enum { MOST_NUMBERS = 5 };

/* The call's numbers in the order of its arguments; a put's third is its value, which has 32 bits. */
struct call {
    enum kind kind;
    uint64_t numbers[MOST_NUMBERS];
};

struct lent {
    uint8_t *bytes;
    size_t length;
};

/* Only a cold list is lent the list. */
struct buffers {
    struct lent table, list, reply;
};

typedef uint32_t one_number(uint64_t, uint8_t *, size_t, uint8_t *, size_t);
typedef uint32_t two_numbers(uint64_t, uint64_t, uint8_t *, size_t, uint8_t *, size_t);
typedef uint32_t put_call(uint64_t, uint64_t, uint32_t, uint8_t *, size_t, uint8_t *, size_t);
typedef uint32_t four_numbers(uint64_t, uint64_t, uint64_t, uint64_t, uint8_t *, size_t, uint8_t *, size_t);
typedef uint32_t five_numbers(uint64_t, uint64_t, uint64_t, uint64_t, uint64_t, uint8_t *, size_t, uint8_t *, size_t);
typedef uint32_t three_buffers(uint64_t, uint64_t, uint64_t, uint8_t *, size_t, uint8_t *, size_t, uint8_t *, size_t);

/* The calls that there are of ours, and again with short lists. */
struct engine {
    two_numbers *get, *deliver, *drain;
    put_call *put;
    four_numbers *adopt;
    five_numbers *touch;
};

struct library {
    const char *name;
    two_numbers *open, *look;
    three_buffers *cold;
    one_number *retire;
    struct engine ours, short_lists;
};

/* Before: the second program, whose ours are by the steps before request (e). Short lists agree with these. */
extern const struct library forkcanyon, twin, before;
extern const char *const kind_names[KINDS];

/* Our call that has the same arguments; of a call that both engines share, itself. */
enum kind namesake(enum kind kind);

/* The call that stands for this one where lists are short. */
enum kind with_short_lists(enum kind kind);

static inline bool is_short(enum kind kind)
{
    return namesake(kind) != kind;
}

uint32_t make_call(const struct library *library, const struct call *call, const struct buffers *lent);

/* The same on buffers of the right lengths, for a reply and a list that nobody looks at. */
uint32_t make_plain_call(const struct library *library, struct call call, uint8_t *table);

#endif
