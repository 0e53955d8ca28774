// Capture files from the paper's words, byte by byte: frames, notes, and a trailer that points back. Nothing here is shared with the
// archive, and nothing is multiplied that could wrap.
#ifndef FILED_H
#define FILED_H
#include "../plain.h"

enum { TRAILER = 24, MOST_FRAMES = 8000, MOST_FILE = 65536 };

// A number in so many bytes, highest first. Returns the place behind them.
static inline uint8_t *laid(uint8_t *at, uint64_t number, int bytes)
{
    while (bytes-- > 0)
        *at++ = (uint8_t)(number >> (8 * bytes));
    return at;
}

static inline void put_trailer(uint8_t *at, uint64_t tag, uint64_t lane, uint64_t count, uint64_t distance)
{
    laid(laid(laid(laid(at, tag, 4), lane, 4), count, 8), distance, 8);
}

static inline uint64_t write_refusal(size_t frames_len, size_t notes_len, size_t file_len)
{
    size_t size = frames_len + notes_len + TRAILER;
    if (frames_len % 8 != 0 || size > MOST_FILE || file_len < size)
        return 12;
    return frames_len / 8 > MOST_FRAMES ? 23 : 0;
}

// The file where it is not refused. Returns its length.
static inline size_t filed(uint8_t *file, uint32_t lane, const uint8_t *frames, size_t frames_len, const uint8_t *notes, size_t notes_len)
{
    uint8_t *at = file;
    while (at < file + frames_len)
        *at++ = *frames++;
    for (size_t i = 0; i < notes_len; i++)
        *at++ = notes[i];
    put_trailer(at, 0x4C434150, lane, frames_len / 8, (uint64_t)(at - file));
    return (size_t)(at - file) + TRAILER;
}

// The refusal of a file, or 0 and its lane and number of frames.
static inline uint64_t read_refusal(const uint8_t *file, size_t len, uint64_t *lane, uint64_t *count)
{
    static const uint8_t tag[4] = {0x4C, 0x43, 0x41, 0x50};
    if (len > MOST_FILE)
        return 12;
    if (len < TRAILER)
        return 21;
    const uint8_t *trailer = file + len - TRAILER;
    for (int i = 0; i < 4; i++)
        if (trailer[i] != tag[i])
            return 21;
    *lane = number_at(trailer) % ((uint64_t)1 << 32);
    *count = number_at(trailer + 8);
    uint64_t distance = number_at(trailer + 16), left = distance;
    if (distance != len - TRAILER)
        return 22;
    for (uint64_t n = 0; n < *count; n++, left -= 8) // frame after frame, as far as there are bytes for them
        if (left < 8)
            return 22;
    return *count > MOST_FRAMES ? 23 : 0;
}
#endif
