// The lists of a tally's case: its verdicts are the first part, their flags and check flips the second.
#ifndef LISTS_H
#define LISTS_H
#include "states.h"

void ask_tally(void);
void put_rest(uint64_t flags, uint64_t checks); // behind the verdicts
void put_lists(uint64_t n, uint64_t flags, uint64_t checks);
void put_verdicts(const uint8_t *verdicts, uint64_t n);
void ask_verdicts(const uint8_t *verdicts, uint64_t n);
void ask_byte(int behind, uint64_t verdict, uint64_t flag, uint64_t checks);
#endif
