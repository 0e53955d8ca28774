// The counter's states, checked and printed.
#ifndef COUNTER_H
#define COUNTER_H
#include "../stream.h"
#include "answers.h"

int in_range(struct counter c);
int feed(struct counter *c, const uint8_t *piece, uint64_t bytes); // 0, and *c fed; or the refusal
void print_counter(struct counter c);
void print_report(struct counter c);
#endif
