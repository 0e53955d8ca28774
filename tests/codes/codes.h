// What the cases and their answers share: the kinds and their heads, as crates/cases/src/main.rt has them, and the limits.
#ifndef CODES_H
#define CODES_H
#include "../plain.h"

enum { HIER_MAKE = 1, HIER_READ, DAP_MAKE, DAP_READ, BUS, START, FILL, FEED, TALLY, LANE, CAPTURE_WRITE, CAPTURE_READ, SALVAGE, PAIR,
       PAIRS_MAKE, PAIRS_READ, KINDS };

// how many values a head has, the length of a name, where each number of a head stands, and the length of a head
enum { VALUE_COUNT = 10, NAME = 16, KIND = NAME, TAKEN = KIND + 8, LENT = TAKEN + 8, SPLIT = LENT + 8, VALUES = SPLIT + 8 };
enum { HEAD = VALUES + 8 * VALUE_COUNT };

enum { LONGEST = 65536 }; // bytes of a piece or a buffer

#define MOST (((uint64_t)1 << 53) - 1) // bits compared by a counter, frames and check flips in a tally

int answers(void);            // answers the cases on standard input, a line each
int cases(const char *group); // writes cases: see cases/cases.c
#endif
