// The second program's maker and reader of frames and of pairs: see independent.c.
#ifndef INDEPENDENT_H
#define INDEPENDENT_H
#include "../plain.h"

// verdict: 0, 1 or 2 flips, or the refusals 13 and 14, which leave data, pad_wrong and check_flips 0 and no place.
struct reading {
    unsigned verdict;
    uint64_t data;
    unsigned place[2]; // the lower first; 255 where there is none
    unsigned pad_wrong;
    unsigned check_flips; // how many of the places are check bits
};

uint64_t independent_make(uint64_t data); // the frame, or 11
struct reading independent_read(uint64_t frame);
uint64_t independent_places(struct reading r); // ones, laid like a frame, at its flips and, where the pad is wrong, at the pad

// A pair of frames, A first, as the two words of its 128 line bits, and back; and these bits in the order of the line.
void independent_join(const uint64_t frames[2], uint64_t words[2]);
void independent_part(const uint64_t words[2], uint64_t frames[2]);
void independent_line(const uint64_t words[2], int line[128]);
#endif
