#include "captures.h"

uint64_t some_lane(void) { return ONE_OF(0, 1, 0x01020304, 0xffffffff, 1ul << 32 | 7, any()); }

void put_any(uint64_t bytes)
{
    while (bytes--)
        put(any());
}

void end_file(uint64_t lane, uint64_t count, uint64_t distance)
{
    put_trailer(next.list + next.size, lane, count, distance);
    next.size += TRAILER;
}

static void read_into(uint64_t numbers, uint64_t bytes)
{
    VALUES_OF(numbers, bytes);
    add(CAPTURE_READ, "capture read");
}

void read_file(void) { read_into(MOST_FRAMES, BYTES); }

static void read_trailer(uint64_t ahead, uint64_t count, uint64_t distance)
{
    put_any(ahead);
    end_file(some_lane(), count, distance);
    read_file();
}

static void put_part(uint64_t from, uint64_t to)
{
    uint8_t trailer[TRAILER];
    put_trailer(trailer, some_lane(), 0, 0);
    while (from < to)
        put(trailer[from++]);
}

// Any bytes, a trailer's first bytes in front, its last ones at the end, and a good distance with each count.
static void short_files(void)
{
    for (uint64_t n = 0; n <= 40; n++) {
        uint64_t part = n < TRAILER ? n : TRAILER, ahead = n - part;
        put_any(n);
        read_file();
        put_part(0, part);
        put_any(ahead);
        read_file();
        put_any(ahead);
        put_part(TRAILER - part, TRAILER);
        read_file();
        for (uint64_t count = 0; part == TRAILER && count <= ahead / 8 + 1; count++)
            read_trailer(ahead, count, ahead);
    }
}

static void each_distance(uint64_t ahead, uint64_t count)
{
    const uint64_t wrong[] = {ahead - 1, ahead + 1, ahead - TRAILER, ahead + TRAILER, 1ul << 32 | ahead, ~0ul};
    read_trailer(ahead, count, ahead);
    for (size_t i = 0; i < sizeof wrong / sizeof wrong[0]; i++)
        if (ahead < 100 || one_in(6))
            read_trailer(ahead, count, wrong[i]);
}

// Eight times a count wraps from 2^61 on, to few bytes or none.
static void each_count(uint64_t ahead)
{
    const uint64_t eights = ahead / 8, top = 1ul << 61;
    const uint64_t small[] = {0, 1, eights - 1, eights, eights + 1, 7999, 8000, 8001, 8189, 8190, 8191};
    const uint64_t large[] = {1ul << 32,    1ul << 32 | eights, top - 1,   top, top + 1,
                              top + eights, top + eights + 1,   1ul << 63, ~0ul};
    for (size_t i = 0; i < sizeof small / sizeof small[0]; i++)
        each_distance(ahead, small[i]);
    for (size_t i = 0; i < sizeof large / sizeof large[0]; i++)
        each_distance(ahead, large[i]);
}

static void each_byte(void)
{
    put_any(19);
    end_file(0x01020304, 2, 19);
    for (uint64_t i = 0, size = next.size; i < size; i++)
        for (int step = -1; step <= 1; step += 2) {
            next.size = size;
            next.list[i] = (uint8_t)(next.list[i] + step);
            read_file();
            next.list[i] = (uint8_t)(next.list[i] - step);
        }
}

// A file of so many frames, read into lists of each length.
static void each_list(uint64_t frames)
{
    const uint64_t lists[] = {0, 1, frames, 7999, 8000, 8001, 8100, ~0u};
    const uint64_t bytes[] = {0, 1, 8, 8 * frames, 63992, 63999, 64000, 64001, 64004, 64007, 64008, 64800, 64896, ~0u};
    const uint64_t size = 8 * frames + 5 + TRAILER;
    read_trailer(size - TRAILER, frames, size - TRAILER);
    for (size_t i = 0; i < sizeof bytes / sizeof bytes[0]; i++) {
        next.extra = size; // what the first of them brought
        read_into(lists[i % 8], bytes[i]);
    }
}

// Refusals alone and together: more frames than 8,000, another distance, no tag; each file also with lists too short.
static void each_refusal(uint64_t ahead)
{
    for (int wrong = 0; wrong < 8; wrong++) {
        put_any(ahead);
        end_file(some_lane(), wrong & 1 ? MOST_FRAMES + 1 : 1, wrong & 2 ? ahead + 1 : ahead);
        if (wrong & 4)
            next.list[ahead + 3]++;
        read_file();
        next.extra = ahead + TRAILER;
        read_into(MOST_FRAMES - 1, BYTES + 1);
        next.extra = ahead + TRAILER;
        read_into(MOST_FRAMES + 1, BYTES - 8);
    }
}

// A few frames and notes, at times with something wrong: a number, a bit, an end that is missing or has more behind it.
static void some_file(void)
{
    uint64_t frames = below(7), ahead = 8 * frames + below(30);
    uint64_t count = one_in(6) ? ONE_OF(frames - 1, frames + 1, below(20), any()) : frames;
    put_any(ahead);
    end_file(some_lane(), count, one_in(8) ? ONE_OF(8 * frames, ahead + TRAILER, below(100), any()) : ahead);
    if (one_in(6))
        next.list[below(next.size)] ^= (uint8_t)(1 << below(8));
    if (one_in(8))
        next.size -= below(next.size + 1);
    if (one_in(8))
        put_any(1 + below(9));
    read_into(one_in(8) ? below(8100) : MOST_FRAMES + below(101), one_in(8) ? below(65000) : BYTES + 8 * below(113));
}

void capture_cases(void)
{
    const uint64_t ahead[] = {0, 1, 7, 8, 9, 24, 39, 63999, 64000, 64001, 64008, MOST_AHEAD - 1, MOST_AHEAD, MOST_AHEAD + 1};
    seed(7);
    short_files();
    each_byte();
    for (size_t i = 0; i < sizeof ahead / sizeof ahead[0]; i++)
        each_count(ahead[i]);
    each_list(2);
    each_list(MOST_FRAMES);
    for (size_t i = 0; i < sizeof ahead / sizeof ahead[0]; i++)
        each_refusal(ahead[i]);
    frames_and_notes();
    for (int i = 0; i < 1000; i++) {
        some_file();
        some_writing();
    }
}
