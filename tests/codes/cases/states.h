// Tallies handed in, and lists of verdicts to them, for the tally and for the lane.
#ifndef STATES_H
#define STATES_H
#include "../tally.h"
#include "cases.h"

void some_state(uint64_t frames); // at times with room for about so many
void each_limit(void (*ask)(void));
void each_check_limit(void (*ask)(void));
void each_stretch_limit(void (*ask)(void));

uint8_t some_verdict(int refused);
void some_verdicts(uint8_t *verdicts, uint64_t n);

typedef void ask_list(const uint8_t *verdicts, uint64_t n);
void each_shape(uint64_t most, ask_list ask); // lists up to this length
void each_order(ask_list ask);
#endif
