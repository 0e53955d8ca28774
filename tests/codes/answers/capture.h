// The trailer of a capture file, for answers and for cases, and what a file's own says.
#ifndef CAPTURE_H
#define CAPTURE_H
#include "answers.h"

enum { TRAILER = 24, MOST_FRAMES = 8000 };

struct label {
    int refusal;
    uint64_t lane, count;
};

struct label label(struct list file); // the refusals in their order
void put_trailer(uint8_t *to, uint64_t lane, uint64_t count, uint64_t distance);
#endif
