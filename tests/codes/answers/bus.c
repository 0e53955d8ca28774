// Bus-invert, wire by wire.
#include "answers.h"

static int lawful_width(uint64_t width) { return width >= 1 && width <= 31; }

// Splits a number into its wires; 0 where one is set above the width, or there is no such width.
static int wires_of(uint64_t width, uint64_t number, int wires[32])
{
    if (!lawful_width(width))
        return 0;
    for (uint64_t i = 0; i < 32; i++) {
        wires[i] = (int)(number >> i & 1);
        if (i >= width && wires[i])
            return 0;
    }
    return 1;
}

static uint64_t number_of(const int wires[32], int inverted, uint64_t width)
{
    uint64_t n = 0;
    for (uint64_t i = 0; i < width; i++)
        n += (uint64_t)(wires[i] != inverted) << i;
    return n;
}

static void print_state(uint64_t width, uint64_t wires, uint64_t invert)
{
    print(width);
    print(wires);
    print(invert);
}

// How many of the width + 1 wires change where the data, or its opposite, is sent.
static int changes(uint64_t width, const int present[32], uint64_t invert, const int data[32], int opposite)
{
    int changed = invert != (uint64_t)opposite;
    for (uint64_t i = 0; i < width; i++)
        changed += present[i] != (data[i] != opposite);
    return changed;
}

static void send(uint64_t width, const int present[32], uint64_t invert, const int data[32])
{
    int sent = 0, fewest = 33;
    for (int opposite = 0; opposite < 2; opposite++) {
        int changed = changes(width, present, invert, data, opposite);
        if (changed < fewest) {
            fewest = changed;
            sent = opposite;
        }
    }
    print_state(width, number_of(data, sent, width), (uint64_t)sent);
}

void bus(void)
{
    uint64_t width = low(0, 4), invert = low(2, 1);
    int present[32], data[32], lawful = wires_of(width, low(1, 4), present) && invert <= 1;
    if (lawful_width(width))
        print_state(width, 0, 0);
    else
        print_refusal(11);
    if (lawful && wires_of(width, low(3, 4), data))
        send(width, present, invert, data);
    else
        print_refusal(11);
    if (lawful)
        print(number_of(present, (int)invert, width));
    else
        print_refusal(11);
}
