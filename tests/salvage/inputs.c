// Makers of captures.
#include "salvage.h"

enum { WORD = 63, FULL = 8000, ROOM = 80000 };

static const uint64_t good_tag = 0x4C434150;

static uint64_t state;
static uint8_t file[ROOM];
static size_t size;

static void put(uint64_t frame)
{
    if (size > ROOM - 8)
        fail("inputs: there is no room for so much");
    put_number(file + size, frame);
    size += 8;
}

static void put_any(uint64_t bytes)
{
    if (bytes > ROOM - size)
        fail("inputs: there is no room for so much");
    while (bytes-- > 0)
        file[size++] = (uint8_t)random64(&state);
}

static void put_trailer(uint64_t tag, uint64_t count, uint64_t distance)
{
    put(tag << 32 | random64(&state) >> 32);
    put(count);
    put(distance);
}

int written(int to, const uint8_t *bytes, size_t n)
{
    for (size_t done = 0; done < n;) {
        long got = write(to, bytes + done, n - done);
        if (got <= 0)
            return 0;
        done += (size_t)got;
    }
    return 1;
}

// With the trailer that is right.
static int finish(uint64_t count)
{
    put_trailer(good_tag, count, size);
    return !written(1, file, size);
}

static uint64_t below(uint64_t n) { return random64(&state) % n; }

// In one of `often` frames none to three flips, of which two at one place are none, and either pad. For each `most` the same is drawn.
static uint64_t some_frame(int most, uint64_t often)
{
    uint64_t frame = independent_make(random64(&state) >> 16), hit = below(often) == 0, pad = hit * below(2);
    int flips = (int)(hit * below(4));
    for (int i = 0; i < 3; i++) {
        uint64_t place = below(WORD);
        frame ^= i < flips && i < most ? spot((int)place) : 0;
    }
    return most == 0 || pad == 0 ? frame : frame ^ spot(WORD);
}

int bent(int most, uint64_t seed, uint64_t frames, uint64_t notes)
{
    state = seed;
    uint64_t often = seed % 3 == 0 ? 12 : 1;
    for (uint64_t i = 0; i < frames; i++)
        put(some_frame(most, often));
    put_any(notes);
    return finish(frames);
}

// Two places a <= b of 0 to 63, where 63 stands for none, and each pad.
int patterns(int most, uint64_t seed)
{
    uint64_t frame = independent_make(random64(&seed) >> 16), count = 0;
    for (int a = 0; a <= WORD; a++)
        for (int b = a; b <= WORD; b++)
            for (int pad = 0; pad < 2 && (a < b || a == WORD); pad++, count++) {
                uint64_t flips = (a < WORD ? spot(a) : 0) | (b < WORD ? spot(b) : 0) | (pad ? spot(WORD) : 0);
                put(most == 0 ? frame : frame ^ flips);
            }
    return finish(count);
}

int triples(uint64_t from, uint64_t seed)
{
    uint64_t frame = independent_make(random64(&seed) >> 16), i = 0;
    for (int a = 0; a < WORD; a++)
        for (int b = a + 1; b < WORD; b++)
            for (int c = b + 1; c < WORD; c++, i++)
                if (i >= from && i < from + FULL)
                    put(frame ^ spot(a) ^ spot(b) ^ spot(c) ^ i % 2);
    return finish(size / 8);
}

int single(uint64_t seed, uint64_t frames)
{
    state = seed;
    for (uint64_t i = 0; i < frames; i++)
        put(some_frame(0, 1) ^ spot((int)below(64)));
    return finish(frames);
}

int still(int byte, uint64_t frames)
{
    size = 8 * frames;
    memset(file, byte, size);
    return finish(frames);
}

int noise(uint64_t seed, uint64_t frames, uint64_t notes)
{
    state = seed;
    put_any(8 * frames + notes);
    return finish(frames);
}

// The trailer among the notes would be right if the file ended there.
int decoys(uint64_t seed)
{
    state = seed;
    for (int i = 0; i < 4; i++)
        put(some_frame(3, 1));
    put_trailer(good_tag, 4, size);
    for (int i = 0; i < 9; i++)
        put(some_frame(3, 1));
    put_any(seed % 8);
    put_trailer(good_tag, 9, size);
    put_any(seed / 8 % 32);
    return finish(7);
}

int labelled(uint64_t tag, uint64_t ahead, uint64_t count, uint64_t distance)
{
    put_any(ahead);
    put_trailer(tag, count, distance);
    return !written(1, file, size);
}
