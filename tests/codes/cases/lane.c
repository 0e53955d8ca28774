#include "../../host/independent.h"
#include "states.h"

static void ask_lane(void) { add(LANE, "lane count"); }

// Half of the flips are in check bits.
uint64_t some_frame(void)
{
    uint64_t frame = one_in(8) ? ONE_OF(0, ~0ul, any()) : independent_make(any() >> 16);
    for (uint64_t flips = below(4); flips; flips--)
        frame ^= one_in(2) ? spot(51 + (int)below(12)) : 1ul << below(64);
    return frame;
}

uint64_t frame_of(unsigned verdict)
{
    uint64_t frame = some_frame();
    while (independent_read(frame).verdict != verdict)
        frame = some_frame();
    return frame;
}

static void ask_frame(void)
{
    put_eight(some_frame());
    ask_lane();
}

static void ask_each_verdict(void)
{
    const unsigned verdicts[] = {0, 1, 2, 13, 14};
    for (int i = 0; i < 5; i++) {
        put_eight(frame_of(verdicts[i]));
        ask_lane();
    }
}

// Frames that are read so, and what is no whole frame.
static void ask_frames(const uint8_t *verdicts, uint64_t n)
{
    for (uint64_t i = 0; i < n; i++)
        put_eight(frame_of(verdicts[i]));
    for (uint64_t left = below(8); left; left--)
        put(any());
    ask_lane();
}

// Flips about the first and the last check bit; 63 is the pad.
static void ask_places(void)
{
    const int places[][2] = {{0, 1}, {50, 63}, {51, 63}, {62, 63}, {50, 51}, {51, 62}, {0, 62}};
    for (size_t i = 0; i < sizeof places / sizeof places[0]; i++) {
        put_eight(independent_make(any() >> 16) ^ spot(places[i][0]) ^ spot(places[i][1]));
        ask_lane();
    }
}

// A piece, and room for its frames and for its check flips: as much, one less and one more.
static void about_room(uint64_t frames)
{
    uint64_t checks = 0, size;
    for (uint64_t i = 0; i < frames; i++) {
        uint64_t frame = some_frame();
        put_eight(frame);
        checks += independent_read(frame).check_flips;
    }
    size = next.size;
    for (int f = -1; f <= 1; f++)
        for (int c = -1; c <= 1; c++) {
            next.extra = size - next.size; // what the first of them brought
            VALUES_OF(0, 0, MOST - frames + (uint64_t)f, 0, 0, 0, MOST - checks + (uint64_t)c);
            ask_lane();
        }
}

// A piece of a length, over and over what the first of them brought; each refusal alone and with the others.
static void long_piece(uint64_t bytes)
{
    const uint64_t held = bytes < LONGEST ? bytes : LONGEST, room = MOST - held / 8;
    const uint64_t states[][4] = { // accepted, pad-wrong, current, longest
        {0}, {room, room}, {room + 1}, {MOST}, {MOST + 1}, {room, room + 1}, {MOST, ~0ul}, {~0ul}, {room, 0, 1, 0}, {MOST, 0, 0, 1},
    };
    for (size_t i = 0; i < sizeof states / sizeof states[0]; i++) {
        VALUES_OF(0, 0, 0, 0, 0, states[i][1], 0, states[i][2], states[i][3]);
        next.values[below(ACCEPTED)] = states[i][0];
        next.extra = bytes;
        ask_lane();
    }
}

// The longest piece, of still lines but for one frame at most; room for them or for one less. All that was refused before is one stretch,
// which goes on.
static void still_lines(uint64_t lawful)
{
    const uint64_t frames = LONGEST / 8;
    for (uint64_t full = 0; full < 2; full++) {
        const uint64_t before = MOST - frames + full;
        for (uint64_t i = 0; i < frames; i++)
            put_eight(i == lawful ? independent_make(i) : one_in(2) ? 0 : ~0ul);
        VALUES_OF(0, 0, 0, before, 0, 0, 0, before, before);
        ask_lane();
    }
}

static void each_long_piece(void)
{
    const uint64_t pieces[] = {0, 1, 2, 5, 40, LONGEST / 8}, lawful[] = {0, LONGEST / 16, LONGEST / 8 - 1, LONGEST / 8};
    for (size_t i = 0; i < sizeof pieces / sizeof pieces[0]; i++)
        about_room(pieces[i]);
    for (size_t i = 0; i < sizeof lawful / sizeof lawful[0]; i++)
        still_lines(lawful[i]);
    for (uint64_t i = 0; i < LONGEST / 8; i++)
        put_eight(some_frame());
    put(any());
    ask_lane();
    for (uint64_t n = 0; n < 18; n++)
        long_piece(n);
    for (uint64_t n = LONGEST - 9; n <= LONGEST + 1; n++)
        long_piece(n);
    long_piece(~0u);
}

void lane_cases(void)
{
    uint8_t verdicts[60];
    seed(6);
    each_limit(ask_lane);
    each_limit(ask_frame);
    each_check_limit(ask_lane);
    each_check_limit(ask_places);
    each_stretch_limit(ask_lane);
    each_stretch_limit(ask_each_verdict);
    each_shape(6, ask_frames);
    each_order(ask_frames);
    for (int i = 0; i < 4000; i++) {
        uint64_t frames = below(one_in(8) ? 60 : 4);
        some_state(frames);
        some_verdicts(verdicts, frames);
        ask_frames(verdicts, frames);
    }
    each_long_piece();
}
