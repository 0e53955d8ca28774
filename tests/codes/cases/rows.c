// What is known from outside: the paper's bench numbers, 000's worked examples, vectors of the patterns, and a row of each refusal; those
// of the tally, the lane, captures, salvage and pairs stand in files of their own.
#include "../answers/counter.h"
#include "cases.h"

static void hier_row(uint64_t kind, uint64_t value, const char *name)
{
    VALUES_OF(value);
    add(kind, name);
}

static void hier_rows(void)
{
    hier_row(HIER_MAKE, 74, "hier make 74");
    hier_row(HIER_READ, 0xe591, "hier read e591");
    hier_row(HIER_READ, 0x6593, "hier read 6593");
    hier_row(HIER_MAKE, 0, "hier make 0");
    hier_row(HIER_MAKE, 127, "hier make 127");
    hier_row(HIER_MAKE, 128, "hier make 128");
    hier_row(HIER_READ, 0x3331, "hier read 3331");
    hier_row(HIER_READ, 0x3335, "hier read 3335");
    hier_row(HIER_READ, 0x6653, "hier read 6653");
}

static void dap_rows(void)
{
    for (uint64_t second = 3; second; second--) { // outputs that have room, and one that has none
        VALUES_OF(2, second);
        put(3);
        put(1);
        add(DAP_MAKE, "dap make 0301");
    }
    VALUES_OF(1);
    put(3);
    split();
    put(1);
    add(DAP_READ, "dap read 03 01");
}

static void bus_row(uint64_t width, uint64_t wires, uint64_t invert, uint64_t data, const char *name)
{
    VALUES_OF(width, wires, invert, data);
    add(BUS, name);
}

static void bus_rows(void)
{
    bus_row(4, 0, 0, 3, "bus send 0011");
    bus_row(4, 3, 0, 0, "bus back 0011");
    bus_row(4, 0, 0, 7, "bus send 0111");
    bus_row(4, 8, 1, 0, "bus back 0111");
    bus_row(4, 0, 1, 3, "bus 1 send 0011");
    bus_row(4, 12, 1, 0, "bus 1 back 0011");
    bus_row(1, 0, 0, 1, "bus tie");
    bus_row(4, 0, 0, 16, "bus send 10000");
    bus_row(32, 0, 0, 0, "bus width 32");
}

static void generator_row(uint64_t kind, uint64_t pattern, uint64_t held, uint64_t bytes, uint64_t shown_bytes)
{
    VALUES_OF(pattern, held);
    next.extra = bytes;
    next.split = shown_bytes + 1;
    add(kind, kind == FILL ? "pattern fill" : "pattern start");
}

static void generator_rows(void)
{
    generator_row(FILL, 11, 2047, 2, 2);
    generator_row(FILL, 11, 2047, 8, 8);
    generator_row(FILL, 11, 1, 8, 8);
    generator_row(FILL, 31, 1, 8, 8);
    generator_row(FILL, 31, (1ul << 31) - 1, 8, 8);
    generator_row(START, 11, 2048, 0, 0);
    generator_row(START, 31, 1ul << 31, 0, 0);
    generator_row(START, 12, 1, 0, 0);
    generator_row(START, 11, 0, 0, 0);
    generator_row(FILL, 11, 0, LONGEST + 1, 8);
    generator_row(FILL, 11, 0, 8, 8);
    generator_row(FILL, 31, 1ul << 31, 8, 8);
    generator_row(FILL, 31, 1, 0, 0);
}

// The piece is what was put; the counter comes back fed.
static struct counter feed_row(struct counter c)
{
    struct counter before = c;
    feed(&c, next.list, next.size);
    VALUES_OF(before.pattern, before.filled, before.held, before.bits, before.errors);
    add(FEED, "pattern feed");
    return c;
}

static void feed_bytes(uint64_t filled, uint64_t held, uint64_t bits, uint64_t errors, uint64_t bytes, uint64_t byte)
{
    while (bytes--)
        put(byte);
    feed_row((struct counter){11, filled, held, bits, errors});
}

// 769 bytes of a pattern after register 1, three of them damaged; then the report.
static void damaged(uint64_t pattern, uint8_t at_0, uint8_t at_100, uint8_t at_200)
{
    static uint8_t line[31 + 8 * 769];
    stream(line, pattern, 1, pattern + 8 * 769);
    for (uint64_t i = 0; i < 769; i++)
        put(take_register(line + pattern + 8 * i + 8, 8));
    next.list[0] ^= at_0;
    next.list[100] ^= at_100;
    next.list[200] ^= at_200;
    feed_row(feed_row((struct counter){pattern, 0, 0, 0, 0}));
}

static void counter_rows(void)
{
    damaged(11, 0, 0, 0);
    damaged(11, 128, 0, 0);
    damaged(31, 0, 1, 129);
    next.extra = LONGEST + 1;
    feed_row((struct counter){11, 11, 0, 0, 0});
    feed_bytes(11, 0, 0, 0, 2, 255);
    feed_bytes(12, 1, 0, 0, 2, 255);
    feed_bytes(3, 8, 0, 0, 2, 255);
    feed_bytes(3, 7, 1, 0, 2, 255);
    feed_bytes(3, 7, 0, 0, 2, 255);
    feed_bytes(11, 1, 5, 6, 2, 255);
    feed_bytes(11, 1, MOST + 1, 0, 2, 255);
    feed_bytes(11, 1, MOST - 15, 0, 2, 255);
    feed_bytes(11, 1, MOST - 16, 0, 2, 255);
    feed_bytes(0, 0, 0, 0, 2, 0);
    feed_bytes(0, 0, 0, 0, 1, 0);
    feed_bytes(10, 0, 0, 0, 2, 255);
    feed_bytes(0, 0, 0, 0, 0, 0);
    feed_bytes(11, 1, 0, 0, 0, 0);
    put(255);
    struct counter c = feed_row((struct counter){11, 0, 0, 0, 0});
    put(0xe0);
    put(6);
    feed_row(feed_row(c));
    put(255);
    put(255);
    feed_row(feed_row((struct counter){11, 0, 0, 0, 0}));
    next.extra = LONGEST + 1;
    feed_row((struct counter){31, 0, 0, 0, 0});
}

void rows(void)
{
    hier_rows();
    dap_rows();
    bus_rows();
    generator_rows();
    counter_rows();
    tally_rows();
    capture_rows();
    salvage_rows();
    pair_rows();
}
