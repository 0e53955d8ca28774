// Captures of bent frames, so that whatever is written shows, also where all is to stay.
#include "../../host/independent.h"
#include "../answers/capture.h"
#include "cases.h"

enum { WORD = 63, MOST_AHEAD = LONGEST - TRAILER, FULL = 8100 }; // ahead of the trailer of the longest file; the longest lists

static uint64_t all; // 1 where every byte of file and lists is to be shown

static void ask(const char *name, uint64_t altered, uint64_t places, uint64_t refused)
{
    VALUES_OF(altered, places, refused, all);
    add(SALVAGE, name);
}

// Of so many bytes that the case before left.
static void again(uint64_t size, uint64_t altered, uint64_t places, uint64_t refused)
{
    next.extra = size;
    ask("salvage again", altered, places, refused);
}

// None to three flips, of which two at one place are none, and either pad.
static uint64_t bent(void)
{
    uint64_t frame = independent_make(any() >> 16);
    for (uint64_t flips = below(4); flips; flips--)
        frame ^= spot((int)below(WORD));
    return frame ^ below(2);
}

// One in so many frames is bent; at the end what is no whole frame.
static void put_bent(uint64_t bytes, uint64_t often)
{
    for (; bytes >= 8; bytes -= 8)
        put_eight(one_in(often) ? bent() : independent_make(any() >> 16));
    while (bytes--)
        put(any());
}

static void end_file(uint64_t count, uint64_t distance)
{
    put_trailer(next.list + next.size, any(), count, distance);
    next.size += TRAILER;
}

// The notes, too, are bent frames.
static uint64_t put_capture(uint64_t frames, uint64_t notes, uint64_t often)
{
    put_bent(8 * frames, often);
    put_bent(notes, often);
    end_file(frames, next.size);
    return next.size;
}

// ---- captures that are salvaged

static void some_capture(void)
{
    const uint64_t frames = below(41), notes = one_in(3) ? 0 : below(30), size = put_capture(frames, notes, ONE_OF(1, 1, 4));
    all = below(2);
    ask("salvage bent", frames + below(3), frames + below(50), frames + below(2));
    again(size, frames + below(2), frames + below(3), frames + below(50));
}

// Two places a <= b of 0 to 63, where 63 stands for none, and each pad.
static void each_pattern(uint64_t frame, void (*each)(uint64_t bent))
{
    for (int a = 0; a <= WORD; a++)
        for (int b = a; b <= WORD; b++)
            for (int pad = 0; pad < 2 && (a < b || a == WORD); pad++)
                each(frame ^ (a < WORD ? spot(a) : 0) ^ (b < WORD ? spot(b) : 0) ^ (pad ? spot(WORD) : 0));
}

static void ask_alone(uint64_t frame)
{
    put_eight(frame);
    end_file(1, 8);
    ask("salvage one", 1, 1, 1);
}

// Each by itself, and all of them in one capture.
static void patterns(void)
{
    all = 1;
    each_pattern(0x0000800040003565, ask_alone);
    all = 0;
    each_pattern(independent_make(any() >> 16), put_eight);
    const uint64_t size = next.size, count = size / 8;
    end_file(count, size);
    ask("salvage flips", count, count, count);
    again(size + TRAILER, count, count, count);
}

static void still(uint64_t frame, uint64_t frames)
{
    for (uint64_t i = 0; i < frames; i++)
        put_eight(frame);
    end_file(frames, 8 * frames);
    ask("salvage still", frames, frames, frames);
}

// A trailer that would be right if the file ended there stands among the notes, or among the frames.
static void decoys(void)
{
    uint64_t frames = below(9);
    put_bent(8 * frames, 1);
    end_file(frames, next.size);
    put_bent(below(80), 1);
    end_file(below(next.size / 8 + 1), next.size);
    ask("salvage decoys", 21, 21, 21);
}

// ---- lists of each length

// All of them too short; each, by one, by half and by all, beside others that are not; then none.
static void each_room(uint64_t frames, uint64_t notes)
{
    const uint64_t shorts[] = {frames - 1, frames / 2, 0}, rooms[] = {frames, frames + 1, frames + 60, FULL, ~0u};
    for (size_t i = 0; i < 5; i++) {
        const uint64_t size = put_capture(frames, notes, 1 + i), room = rooms[i], other = rooms[(i + 1) % 5];
        all = size < 200 && i < 2;
        ask("salvage lists", frames / 2, frames / 2, frames / 2);
        for (int j = 0; frames && j < 3; j++) {
            again(size, shorts[j], room, room);
            again(size, room, shorts[j], room);
            again(size, room, room, shorts[j]);
        }
        again(size, room, room, other);
        again(size, other, room, room);
    }
}

// ---- files that are refused

// Over lists that are too short for a single frame, then over such as have room for any.
static void ask_both(void)
{
    const uint64_t size = next.size;
    all = size < 200;
    ask("salvage file", 0, 0, 0);
    all = 0;
    again(size, FULL, FULL, FULL);
}

static void each_bit_of_a_trailer(void)
{
    for (uint64_t i = 0; i < 8 * TRAILER; i++) {
        next.list[put_capture(3, 5, 1) - 1 - i / 8] ^= (uint8_t)(1 << i % 8);
        ask_both();
    }
}

// Refusals alone and together: another count, another distance, no tag.
static void each_refusal(uint64_t ahead)
{
    const uint64_t fit = ahead / 8 < MOST_FRAMES ? ahead / 8 : MOST_FRAMES;
    const uint64_t counts[] = {fit, ahead / 8 + 1, MOST_FRAMES + 1, 1ul << 61 | fit};
    for (int wrong = 0; wrong < 16; wrong++) {
        put_bent(ahead, 1);
        end_file(counts[wrong % 4], wrong & 4 ? ahead + 1 : ahead);
        if (wrong & 8)
            next.list[ahead + 3]++;
        ask_both();
    }
}

void salvage_cases(void)
{
    const uint64_t ahead[] = {0, 8, 39, 63999, 64000, 64007, 64008, MOST_AHEAD - 1, MOST_AHEAD, MOST_AHEAD + 1};
    const uint64_t frames[] = {0, 1, 2, 7, 40, 7999, MOST_FRAMES};
    seed(8);
    for (int i = 0; i < 1000; i++)
        some_capture();
    patterns();
    for (uint64_t i = 0; i < 4; i++)
        still(i % 2 ? ~0ul : 0, i < 2 ? 1 : MOST_FRAMES);
    for (int i = 0; i < 100; i++)
        decoys();
    for (size_t i = 0; i < sizeof frames / sizeof frames[0]; i++) {
        each_room(frames[i], 0);
        each_room(frames[i], 13);
        each_room(frames[i], MOST_AHEAD - 8 * frames[i]);
    }
    for (uint64_t size = 0; size < TRAILER; size++) {
        end_file(0, 0);
        next.size = size;
        ask_both();
    }
    each_bit_of_a_trailer();
    for (size_t i = 0; i < sizeof ahead / sizeof ahead[0]; i++)
        each_refusal(ahead[i]);
}
