// The generator of the test patterns.
#include "counter.h"

static int refusal_of(uint64_t pattern, uint64_t held, uint64_t bytes)
{
    if (bytes > LONGEST)
        return 12;
    if (!second_tap(pattern) || held >> pattern)
        return 11;
    return held ? 0 : 18;
}

static void print_generator(uint64_t pattern, uint64_t held)
{
    print(pattern);
    print(held);
}

void pattern_start(void)
{
    struct counter fresh = {low(0, 1), 0, 0, 0, 0};
    int refusal = refusal_of(fresh.pattern, values[1], 0);
    if (refusal)
        print_refusal(refusal);
    else
        print_generator(fresh.pattern, values[1]);
    if (second_tap(fresh.pattern))
        print_counter(fresh);
    else
        print_refusal(11);
}

// What is lent holds the pattern afterwards, on this side too: a later case may be lent it again.
void pattern_fill(void)
{
    static uint8_t line[31 + 8 * LONGEST];
    uint64_t pattern = low(0, 1), end = pattern + 8 * lent.size;
    int refusal = refusal_of(pattern, values[1], lent.size);
    if (refusal)
        print_refusal(refusal);
    else {
        stream(line, pattern, values[1], end);
        print_generator(pattern, take_register(line + end, pattern));
        for (uint64_t i = 0; i < lent.size; i++)
            lent.bytes[i] = (uint8_t)take_register(line + pattern + 8 * i + 8, 8);
    }
    print_bytes(first.bytes, first.size);
}
