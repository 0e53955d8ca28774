// The counter of errors in a test pattern.
#include "counter.h"

int in_range(struct counter c)
{
    if (!second_tap(c.pattern) || c.filled > c.pattern || c.held >> c.filled)
        return 0;
    if (c.filled < c.pattern && c.bits)
        return 0;
    if (c.filled == c.pattern && !c.held)
        return 0;
    return c.errors <= c.bits && c.bits <= MOST;
}

int feed(struct counter *c, const uint8_t *piece, uint64_t bytes)
{
    static uint8_t line[31 + 8 * LONGEST];
    if (bytes > LONGEST)
        return 12;
    if (!in_range(*c))
        return 11;
    struct counter d = *c;
    uint64_t at = d.filled;
    put_register(line, d.held, d.filled);
    for (uint64_t i = 0; i < 8 * bytes; i++, at++) {
        uint8_t bit = (uint8_t)bit_of(piece, i);
        if (at < d.pattern) {
            line[at] = bit;
            continue;
        }
        line[at] = next_bit(line, d.pattern, at);
        d.bits++;
        d.errors += line[at] != bit;
    }
    if (d.bits > MOST)
        return 20;
    d.filled = at < d.pattern ? at : d.pattern;
    if (c->filled < d.pattern && d.filled == d.pattern && !take_register(line + d.pattern, d.pattern))
        return 18;
    d.held = take_register(line + at, d.filled);
    *c = d;
    return 0;
}

void pattern_feed(void)
{
    struct counter c = {low(0, 1), values[1], values[2], values[3], values[4]}, next = c;
    int refusal = feed(&next, first.bytes, first.size);
    if (refusal)
        print_refusal(refusal);
    else
        print_counter(next);
    print_report(c);
}
