// The parts of the independent count: see count.c.
#ifndef COUNT_H
#define COUNT_H
#include "../figures.h"

void field(void); // before the first frame
int one_frame(const uint8_t bytes[8], struct figures *f); // whether it is refused

// Makers of input, on standard output. 0, or 1 where it could not be written.
int bytes(uint64_t seed, uint64_t n);
int triples(void);
int plan(char **words); // 2 where it has a kind that there is not
int drip(size_t n);
#endif
