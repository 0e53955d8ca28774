#include "../answers/counter.h"
#include "cases.h"

static void feed_case(struct counter c)
{
    VALUES_OF(c.pattern, c.filled, c.held, c.bits, c.errors);
    add(FEED, "pattern feed");
}

// ---- pieces of a pattern

enum { STREAM = 1000 };

// A state in range whose register has the front of a stream, at times with a start that is nearly silent.
static struct counter some_state(uint8_t bits[STREAM])
{
    struct counter c = {one_in(2) ? 11 : 31, 0, 0, 0, 0};
    uint64_t first = 1 + below((1ul << c.pattern) - 1);
    c.filled = ONE_OF(0, 0, below(c.pattern), c.pattern - 1, c.pattern, c.pattern);
    stream(bits, c.pattern, first, STREAM);
    if (one_in(8))
        for (uint64_t i = 0; i < c.pattern; i++)
            bits[i] = (uint8_t)one_in(8);
    c.held = take_register(bits + c.filled, c.filled);
    if (c.filled == c.pattern) {
        c.bits = ONE_OF(0, below(1000), below(MOST), MOST - below(300), MOST);
        c.errors = one_in(2) ? 0 : ONE_OF(below(c.bits + 1), c.bits);
    }
    return c;
}

// The state, at times out of range.
static struct counter astray(struct counter c)
{
    if (one_in(10))
        c.filled = ONE_OF(c.pattern + 1, c.pattern - 1, 64, 1ul << 32 | c.pattern, ~0ul);
    if (one_in(10))
        c.held = ONE_OF(0, 1ul << c.filled % 64, (1ul << c.filled % 64) - 1, ~0ul);
    if (one_in(10))
        c.bits = ONE_OF(1, MOST, MOST + 1, ~0ul);
    if (one_in(10))
        c.errors = ONE_OF(1, c.bits, c.bits + 1, MOST, ~0ul);
    if (one_in(20))
        c.pattern = some_pattern();
    return c;
}

// Pieces that go on from the first bits of a stream, a few of which are turned. Each is fed to the counter that those before it leave.
static void feed_pieces(struct counter c, uint8_t bits[STREAM])
{
    const uint8_t *at = bits + (c.filled < 32 ? c.filled : 0);
    for (uint64_t flips = one_in(2) ? 0 : below(6); flips; flips--)
        bits[below(900)] ^= 1;
    for (uint64_t pieces = 1 + below(4); pieces; pieces--) {
        uint64_t bytes = one_in(6) ? 0 : 1 + below(one_in(2) ? 5 : 25);
        int silent = one_in(10);
        for (uint64_t j = 0; j < bytes; j++) {
            at += 8;
            put(silent ? 0 : take_register(at, 8));
        }
        struct counter before = c;
        feed(&c, next.list, bytes);
        feed_case(before);
    }
    feed_case(c);
}

// ---- pieces of one byte, over and over

enum { FULL = 99 };

static void long_case(uint64_t filled, uint64_t held, uint64_t bits, uint64_t bytes)
{
    for (uint64_t pattern = 11; pattern <= 31; pattern += 20) {
        struct counter c = {pattern, filled == FULL ? pattern : filled, held, bits, 0};
        next.extra = bytes;
        feed_case(c);
    }
}

// The first case of a byte brings the longest piece, the others are lent it again.
static void long_pieces(uint64_t byte)
{
    const uint64_t lengths[] = {0, 1, 2, 3, 4, LONGEST - 1, LONGEST, LONGEST + 1, ~0u};
    memset(next.list, (int)byte, sizeof next.list);
    next.size = sizeof next.list;
    feed_case((struct counter){11, 11, 1, 0, 0});
    for (int i = 0; i < 9; i++) {
        uint64_t n = lengths[i], room = MOST - (n <= LONGEST ? 8 * n : 0);
        long_case(0, 0, 0, n);
        long_case(8, 0, 0, n);
        long_case(10, 1, 0, n);
        long_case(FULL, 5, 0, n);
        long_case(FULL, 0, 0, n);
        long_case(FULL, 5, room, n);
        long_case(FULL, 5, room + 1, n);
        long_case(FULL, 0, MOST, n);
    }
}

void feed_cases(void)
{
    static uint8_t bits[STREAM];
    for (uint64_t byte = 0; byte < 256; byte += 85)
        long_pieces(byte);
    seed(4);
    for (int i = 0; i < 3000; i++) {
        struct counter c = astray(some_state(bits));
        feed_pieces(c, bits);
    }
}
