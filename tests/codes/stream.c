#include "stream.h"

uint64_t second_tap(uint64_t pattern) { return pattern == 11 ? 9 : pattern == 31 ? 28 : 0; }

void put_register(uint8_t *bits, uint64_t held, uint64_t places)
{
    for (uint64_t i = 0; i < places; i++)
        bits[i] = held >> (places - 1 - i) & 1;
}

uint64_t take_register(const uint8_t *end, uint64_t places)
{
    uint64_t n = 0;
    for (const uint8_t *bit = end - places; bit < end; bit++)
        n = n * 2 + *bit;
    return n;
}

uint8_t next_bit(const uint8_t *bits, uint64_t pattern, uint64_t at) { return bits[at - pattern] ^ bits[at - second_tap(pattern)]; }

void stream(uint8_t *bits, uint64_t pattern, uint64_t held, uint64_t n)
{
    put_register(bits, held, pattern);
    for (uint64_t i = pattern; i < n; i++)
        bits[i] = next_bit(bits, pattern, i);
}
