// Lists of pairs through the archive and through the independent program: see paired.c.
#ifndef PAIRED_H
#define PAIRED_H
#include "both.h"

enum { LINE = 128 }; // positions of a pair

// The list at hand: any words, an even number of them, their frames and what these say.
struct pairs {
    uint64_t words[MOST_NUMBERS], frames[MOST_NUMBERS], data[MOST_NUMBERS];
    uint8_t verdicts[MOST_NUMBERS];
};
extern struct pairs due;

// The list at hand from so many words, or from so many frames.
void take_words(const uint64_t *words, size_t n);
void take_frames(const uint64_t *frames, size_t n);
// lks_pairs_make on the frames at hand and lks_pairs_read on the words at hand, with lengths in bytes; of the inputs so many of the first.
void makes(size_t frames_len, size_t words_len);
void reads(size_t words_len, size_t data_len, size_t verdicts_len);
// Both on the first n, with outputs that just fit.
void both_ways(size_t n);
// The buffers of the calls have other addresses or another fill in each turn; turn 0 comes again after the last.
extern const size_t turns;
void turn_to(size_t turn);
// At the end: how many calls a program made.
void print_calls(const char *program);
#endif
