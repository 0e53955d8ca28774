// Captures of a lane with one fault each, made by faults.c, and what the page says of them: see says.c.
#ifndef FAULTS_H
#define FAULTS_H
#include "../figures.h"
#include "../host/independent.h"

enum { FRAMES = 10000 };

// The data words and their frames, one more than a capture has: a cut at the wrong place takes bits of it.
extern uint64_t sent[FRAMES + 1], line[FRAMES + 1];

enum { REPEATED = 0x11 }; // the data whose frame is sent over and over

// What is received in place of line[i].
uint64_t paused(size_t i);
uint64_t crossed(size_t i);
uint64_t late(size_t i, unsigned bits);       // cut 1 to 63 bits late
uint64_t again(uint64_t data, unsigned bits); // the frame of data that is sent over and over, cut so late
uint64_t noise(size_t i);
uint64_t chance(size_t i);
uint64_t burst(size_t i);

// The sentences of the page, each found true by the independent reader and then printed as it must stand there, on a line.
void says_of_data(void);
void says_of_cuts(void);
void says_of_flips(void);
void says_of_gaps(void);

void must(int holds, const char *what);
const char *figure(uint64_t n); // with commas; the last eight stay
void count(struct figures *f, const struct reading *r);
#endif
