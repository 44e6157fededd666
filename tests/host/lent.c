#include "lent.h"

#include <stdio.h>
#include <stdlib.h>
#include <string.h>
#include <sys/mman.h>

enum { PAGE = 4096, WATCHED = 64, PAINT = 0xC7 };

void room_build(struct room *room)
{
    room->size = LENT_MOST + 4 * PAGE;
    uint8_t *pages = mmap(NULL, room->size + 2 * PAGE, PROT_NONE, MAP_PRIVATE | MAP_ANONYMOUS, -1, 0);
    if (pages == MAP_FAILED || mprotect(pages + PAGE, room->size, PROT_READ | PROT_WRITE) != 0) {
        perror("host: no pages");
        exit(2);
    }
    room->bytes = pages + PAGE;
}

/* The watched bytes before and behind what is lent, as far as the room goes. */
static size_t before(const struct room *room)
{
    size_t free = (size_t)(room->lent - room->bytes);
    return free < WATCHED ? free : WATCHED;
}

static size_t behind(const struct room *room)
{
    size_t free = room->size - room->length - (size_t)(room->lent - room->bytes);
    return free < WATCHED ? free : WATCHED;
}

uint8_t *room_lend(struct room *room, struct rng *rng, size_t length)
{
    size_t at = 0;
    if (rng_chance(rng, 50))
        at = room->size - length;
    else if (rng_chance(rng, 50))
        at = rng_below(rng, 100);
    room->lent = room->bytes + at;
    room->length = length;
    memset(room->lent - before(room), PAINT, before(room));
    memset(room->lent + length, PAINT, behind(room));
    return room->lent;
}

bool room_is_clean(const struct room *room)
{
    uint8_t paint[WATCHED];
    memset(paint, PAINT, sizeof paint);
    return memcmp(room->lent - before(room), paint, before(room)) == 0 &&
           memcmp(room->lent + room->length, paint, behind(room)) == 0;
}
