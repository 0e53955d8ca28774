#include "cases.h"

uint64_t some_pattern(void) { return one_in(12) ? ONE_OF(0, 9, 10, 12, 28, 30, 32, 75, 95, 255) : one_in(2) ? 11 : 31; }

static uint64_t some_register(uint64_t pattern)
{
    uint64_t top = 1ul << pattern % 64;
    return one_in(6) ? ONE_OF(0, 1, top / 2, top - 1, top, top + 1, 1ul << 63, ~0ul) : below(top);
}

static void fill_case(uint64_t pattern, uint64_t held, uint64_t bytes)
{
    VALUES_OF(pattern, held);
    next.extra = bytes;
    add(FILL, "pattern fill");
}

static void start_case(uint64_t pattern, uint64_t held)
{
    VALUES_OF(pattern, held);
    add(START, "pattern start");
}

static void long_fills(void)
{
    const uint64_t lengths[] = {LONGEST - 1, LONGEST, LONGEST + 1, ~0u};
    for (int i = 0; i < 4; i++) {
        fill_case(11, 2047, lengths[i]);
        fill_case(31, 1, lengths[i]);
        fill_case(11, 0, lengths[i]);
        fill_case(31, 1ul << 31, lengths[i]);
        fill_case(12, 0, lengths[i]);
    }
    for (uint64_t pattern = 0; pattern < 256; pattern++) {
        start_case(pattern, 1);
        fill_case(pattern, 1, 1);
    }
}

void fill_cases(void)
{
    long_fills();
    seed(3);
    for (int i = 0; i < 9000; i++) {
        uint64_t pattern = some_pattern(), held = some_register(pattern);
        if (one_in(4))
            start_case(pattern, held);
        else
            fill_case(pattern, held, one_in(3) ? below(4) : below(90));
    }
}
