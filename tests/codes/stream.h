// The test patterns: a counter's state, and bits in a list, one a byte, the oldest first.
#ifndef STREAM_H
#define STREAM_H
#include "codes.h"

struct counter { // in the order in which a case has it
    uint64_t pattern, filled, held, bits, errors;
};

uint64_t second_tap(uint64_t pattern); // 0 where there is no such pattern
void put_register(uint8_t *bits, uint64_t held, uint64_t places);
uint64_t take_register(const uint8_t *end, uint64_t places); // of the bits just before the end
uint8_t next_bit(const uint8_t *bits, uint64_t pattern, uint64_t at);
void stream(uint8_t *bits, uint64_t pattern, uint64_t held, uint64_t n); // n bits, the register's first
#endif
