// Capture files put together, and cases that read and write them.
#ifndef CAPTURES_H
#define CAPTURES_H
#include "../answers/capture.h"
#include "cases.h"

enum { BYTES = 8 * MOST_FRAMES, MOST_AHEAD = LONGEST - TRAILER }; // of the most frames; ahead of the trailer of the longest file

uint64_t some_lane(void);
void put_any(uint64_t bytes);
void end_file(uint64_t lane, uint64_t count, uint64_t distance);
void read_file(void); // into lists that are long enough

void frames_and_notes(void); // written, at each limit
void some_writing(void);
#endif
