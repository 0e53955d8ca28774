#include "captures.h"

static uint64_t whole; // 1 where every byte of an output is to be shown

static void write_to(uint64_t lane, uint64_t frame_bytes, uint64_t room)
{
    VALUES_OF(lane, room, whole);
    next.split = frame_bytes + 1;
    add(CAPTURE_WRITE, "capture write");
}

// Written to an output of its own length; then the file, where a case can bring it, read.
static void write_and_read(uint64_t frames, uint64_t notes)
{
    const uint64_t ahead = 8 * frames + notes, lane = some_lane();
    put_any(ahead);
    write_to(lane, 8 * frames, ahead + TRAILER);
    if (ahead + TRAILER <= sizeof next.list) {
        next.size = ahead;
        end_file(lane, frames, ahead);
        read_file();
    }
}

// The same, byte for byte, where there are so many bytes to lend; and written again to outputs that are shorter and longer.
static void each_output(uint64_t frames, uint64_t notes)
{
    const uint64_t ahead = 8 * frames + notes, size = ahead + TRAILER, rooms[] = {0, ahead, size - 1, size + 1, size + 40, ~0u};
    if (notes > sizeof next.list - 8 * frames)
        return;
    whole = 1;
    write_and_read(frames, notes);
    whole = 0;
    for (size_t i = 0; i < sizeof rooms / sizeof rooms[0]; i++) {
        next.extra = ahead;
        write_to(some_lane(), 8 * frames, rooms[i]);
    }
}

// Frames that are not all whole, to an output with room for those that are.
static void ragged(uint64_t frames)
{
    for (uint64_t left = 0; left < 8; left++)
        for (uint64_t notes = 0; notes <= 9; notes += 9) {
            if (8 * frames + left + notes > sizeof next.list)
                continue;
            next.extra = 8 * frames + left + notes;
            write_to(some_lane(), 8 * frames + left, 8 * frames + notes + TRAILER);
        }
}

void frames_and_notes(void)
{
    const uint64_t frames[] = {0, 1, 2, 7, 7999, 8000, 8001, 8189, 8190, 8191, 8192};
    for (size_t i = 0; i < sizeof frames / sizeof frames[0]; i++) {
        const uint64_t left = MOST_AHEAD - 8 * frames[i]; // notes that fill the file; more than any where not even the frames fit
        const uint64_t notes[] = {0, 1, 7, 8, 9, 23, 24, 25, 1512, left - 1, left, left + 1};
        for (size_t j = 0; j < sizeof notes / sizeof notes[0]; j++)
            each_output(frames[i], notes[j]);
    }
    put_any(sizeof next.list); // lent again by what follows
    write_to(0, 0, 0);
    for (size_t i = 0; i < sizeof frames / sizeof frames[0]; i++)
        ragged(frames[i]);
    for (uint64_t notes = 0; notes <= 1513; notes++) {
        next.extra = BYTES + notes;
        write_to(some_lane(), BYTES, BYTES + notes + TRAILER);
    }
    for (uint64_t notes = 0; notes <= 1513; notes++)
        write_and_read(below(5), notes);
}

void some_writing(void)
{
    uint64_t frames = below(9), left = one_in(4) ? below(8) : 0, notes = below(40), size = 8 * frames + notes + TRAILER;
    put_any(8 * frames + left + notes);
    write_to(some_lane(), 8 * frames + left, ONE_OF(size, size - 1, size + 1, size + below(60), below(size)));
}
