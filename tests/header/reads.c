/* The header as C11 and as C++: every number of it, the reader of a reply and of the sites waited for, and touch records. */
#include "forkcanyon.h"
#include "forkcanyon.h"

#include <stdio.h>

static int failures;

static void expect(const char *what, unsigned long found, unsigned long wanted)
{
    if (found != wanted) {
        printf("header: %s is %lu, not %lu\n", what, found, wanted);
        failures++;
    }
}

#define EXPECT(name, wanted) expect(#name, (unsigned long)(name), wanted);

/* Every code, with document 01's number. */
#define CODES(EACH) \
    EACH(FC_OK, 0) \
    EACH(FC_SIZE, 1) \
    EACH(FC_UNSOUND, 2) \
    EACH(FC_COUNTS, 3) \
    EACH(FC_SITE, 4) \
    EACH(FC_SAME, 5) \
    EACH(FC_KEY, 6) \
    EACH(FC_SPENT, 7) \
    EACH(FC_ROOM, 8) \
    EACH(FC_NONE, 9) \
    EACH(FC_WAITS, 10) \
    EACH(FC_BUDGET, 11) \
    EACH(FC_UNUSED, 12) \
    EACH(FC_RECORD, 13) \
    EACH(FC_RANGE, 14) \
    EACH(FC_CHANGED, 15) \
    EACH(FC_RETIRED, 16) \
    EACH(FC_LAST, 17)

/* Document 02's touchers. */
#define TOUCHERS(EACH) \
    EACH(FC_BY_USER, 0) \
    EACH(FC_BY_SCAN, 1) \
    EACH(FC_BY_MIGRATION, 2) \
    EACH(FC_BY_RESTORE, 3)

/* The compiler refuses a switch that leaves out a code or a toucher of the header. */
#define CASE(name, number) \
    case name: \
        return number;
static unsigned number_of(enum fc_code code)
{
    switch (code) {
        CODES(CASE)
    }
    return 255;
}

static unsigned toucher_number(enum fc_touched_by toucher)
{
    switch (toucher) {
        TOUCHERS(CASE)
    }
    return 255;
}

/* Every record comes back whole; no other value is one. */
static void touch_records(void)
{
    static const uint16_t hours[] = {0, 1, 0x1234, 32767, 32768, 65535};
    for (unsigned at = 0; at < 6 * 4 * 4; at++) {
        uint16_t hour = hours[at / 16];
        unsigned toucher = at / 4 % 4, tier = at % 4;
        uint32_t value = fc_touch_of(hour, toucher, tier);
        expect("a record", value, hour * 65536ul + toucher * 8192 + tier * 2048);
        expect("its form", fc_is_touch(value) != 0, 1);
        expect("its hour", fc_hour(value), hour);
        expect("its toucher", fc_toucher(value), toucher);
        expect("its tier", fc_tier(value), tier);
        for (unsigned bit = 0; bit < 11; bit++)
            expect("the form of a record with a low bit set", fc_is_touch(value | 1u << bit) != 0, 0);
        expect("the form of a record of toucher 4 to 7", fc_is_touch(fc_touch_of(hour, toucher + 4, tier)) != 0, 0);
    }
    expect("hour 0x1234, migration, tier 3", fc_touch_of(0x1234, FC_BY_MIGRATION, 3), 0x12345800);
    expect("restore", toucher_number(FC_BY_RESTORE), 3);
}

int main(void)
{
    static const uint8_t reply[FC_REPLY_BYTES] = {10, 63, 7, 0, 0xFE, 0xDC, 0, 0, 0xFF, 0xEE, 0xDD, 0xCC};
    struct fc_answer answer = fc_read(reply);
    expect("code", answer.code, number_of(FC_WAITS));
    expect("key", answer.key, 63);
    expect("site", answer.site, 7);
    expect("clock", answer.clock, 0xFEDC);
    expect("value", answer.value, 0xFFEEDDCC);

    /* Of the sites 0, 1 and 7 a cause is missing, and of no other. */
    static const uint8_t waits[FC_REPLY_BYTES] = {FC_WAITS, 0, 0, 0, 0, 1, 0, 0, 0, 0, 0, 131};
    for (unsigned site = 0; site < 70; site++)
        expect("a site waited for", (unsigned long)fc_waits_for(fc_read(waits), site), site == 0 || site == 1 || site == 7);
    answer = fc_read(waits);
    answer.code = FC_OK;
    expect("a site waited for in another answer", (unsigned long)fc_waits_for(answer, 0), 0);
    answer.code = FC_WAITS;
    answer.value = UINT32_MAX;
    expect("a site above 7", (unsigned long)fc_waits_for(answer, 8), 0);

    CODES(EXPECT)
    TOUCHERS(EXPECT)
    touch_records();
    EXPECT(FC_TABLE_BYTES, 15620)
    EXPECT(FC_REPLY_BYTES, 12)
    EXPECT(FC_LIST_BYTES, 64)
    EXPECT(FC_SITES, 8)
    EXPECT(FC_KEYS, 64)
    EXPECT(FC_PLACES, 16)
    EXPECT(FC_CLOCKS, 65535)
    EXPECT(FC_ENOUGH, 903)

    /* The bytes of a table as document 01 adds them up, and the tries of a drain. */
    expect("the squares' end", 4 + 2 * (FC_SITES * FC_SITES * 2), 260);
    expect("the store's end", 260 + FC_SITES * FC_KEYS * 24, 12548);
    expect("the table's end", 12548 + FC_SITES * FC_PLACES * 24, FC_TABLE_BYTES);
    expect("enough tries", FC_PLACES * 7 + 7 * (FC_PLACES * 7 + 1), FC_ENOUGH);
    return failures != 0;
}
