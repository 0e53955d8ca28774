// Frames and data words through the archive and through the independent program: see both.c.
#ifndef BOTH_H
#define BOTH_H
#include "independent.h"

#define MOST_NUMBERS 2048 // of a list

extern int alone; // leave the archive out

void same(const char *what, uint64_t of, uint64_t archive, uint64_t second);
struct reading read_both(uint64_t frame);
// Lists of n numbers, at most MOST_NUMBERS; the outputs are lent `spare` places longer, at most two. read_block returns the sum of the check
// flips that the list has.
uint64_t read_block(const uint64_t *frames, size_t n, size_t spare);
void make_block(const uint64_t *words, uint64_t *frames, size_t n, size_t spare);
// Prints how often each verdict was given since the last call.
void print_figures(const char *set);
#endif
