#include "cases.h"

static void bus_case(uint64_t width, uint64_t wires, uint64_t invert, uint64_t data)
{
    VALUES_OF(width, wires, invert, data);
    add(BUS, "bus");
}

static void small_buses(void)
{
    for (uint64_t width = 1; width <= 6; width++)
        for (uint64_t wires = 0; wires < 1ul << width; wires++)
            for (uint64_t invert = 0; invert < 2; invert++)
                for (uint64_t data = 0; data < 1ul << width; data++)
                    bus_case(width, wires, invert, data);
    for (uint64_t width = 0; width < 70; width++)
        bus_case(width, 0, 0, 0);
    for (int i = 5; i < 32; i++)
        bus_case(1ul << i | 1, 0, 0, 0);
}

// The number with about half of a width's bits turned: just before, at and behind where the choice changes, whatever the invert wire is.
static uint64_t half_turned(uint64_t number, uint64_t width)
{
    uint64_t left = (width - 1) / 2 + below(3), turned = 0;
    while (left && turned != (1ul << width) - 1) {
        uint64_t bit = 1ul << below(width);
        left -= !(turned & bit);
        turned |= bit;
    }
    return number ^ turned;
}

// At times a number about the top, or far above it.
static uint64_t astray(uint64_t number, uint64_t top)
{
    return one_in(12) ? ONE_OF(top, top - 1, top | number, 0, ~0u, 1ul << 31) : number;
}

static void some_bus(void)
{
    uint64_t width = one_in(16) ? ONE_OF(0, 32, 33, 63, 64, 255, 256, 1ul << 31, ~0u) : 1 + below(31), top = 1ul << width % 64;
    uint64_t wires = below(top), data = one_in(2) && width && width < 32 ? half_turned(wires, width) : below(top);
    uint64_t invert = one_in(16) ? ONE_OF(2, 3, 255) : below(2);
    wires = astray(wires, top);
    data = astray(data, top);
    bus_case(width, wires, invert, data);
}

void bus_cases(void)
{
    small_buses();
    seed(2);
    for (int i = 0; i < 7000; i++)
        some_bus();
}
