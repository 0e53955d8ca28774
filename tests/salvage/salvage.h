// The parts of the independent salvage: see main.c.
#ifndef SALVAGE_H
#define SALVAGE_H
#include "../host/independent.h"

// What is due of the capture on standard input: the account on standard output, the salvaged capture on file 3. 0, or the refusal.
int expected(void);

// Makers of captures, on standard output. 0, or 1 where it could not be written.
int bent(int most, uint64_t seed, uint64_t frames, uint64_t notes);
int patterns(int most, uint64_t seed);
int triples(uint64_t from, uint64_t seed);
int single(uint64_t seed, uint64_t frames);
int still(int byte, uint64_t frames);
int noise(uint64_t seed, uint64_t frames, uint64_t notes);
int decoys(uint64_t seed);
int labelled(uint64_t tag, uint64_t ahead, uint64_t count, uint64_t distance);

int written(int file, const uint8_t *bytes, size_t n); // whether all of them are
#endif
