// The case in hand, and what answers each kind. A number is printed with a space after it.
#ifndef ANSWERS_H
#define ANSWERS_H
#include "../codes.h"

struct list {
    uint8_t *bytes;
    uint64_t size;
};

extern uint64_t values[VALUE_COUNT];
extern struct list lent, first, second; // what is lent whole; its two parts

uint64_t low(uint64_t i, int bytes);      // the low bytes of a value
uint64_t held(uint64_t i, uint64_t most); // a length of four bytes, held to a limit
int bit_of(const uint8_t *bytes, uint64_t i);
void print(uint64_t n);
void print_refusal(int n);
void print_bytes(const uint8_t *bytes, uint64_t n);
void print_list(const uint8_t *bytes, uint64_t n);                  // more than 200 by their sum
void print_numbers(const uint8_t *bytes, uint64_t n);               // eight bytes each: their sum
void print_lent(int all, const uint8_t *bytes, uint64_t n);         // every byte, or as a list
void print_lent_numbers(int all, const uint8_t *bytes, uint64_t n); // every byte, or their sum

void hier_make(void);
void hier_read(void);
void dap_make(void);
void dap_read(void);
void bus(void);
void pattern_start(void);
void pattern_fill(void);
void pattern_feed(void);
void tally_add(void);
void lane_count(void);
void capture_write(void);
void capture_read(void);
void salvage(void);
void pair(void);
void pairs_make(void);
void pairs_read(void);
#endif
