// Bursts on pairs of lawful frames. Of each it is held here, too, that both data words come back, or that one does not.
#include "../../host/independent.h"
#include "cases.h"

enum { LINE = 128, BURST = 4, BURSTS = 1007 }; // bits of a pair; the longest burst, and how many there are up to it

// The pair of two data words, turned from a place of the line on where the shape has ones, its lowest bit first; which of the data come
// back: 1 for the first, 2 for the second.
static int put_turned(const uint64_t data[2], int from, unsigned shape)
{
    uint64_t words[2], frames[2] = {independent_make(data[0]), independent_make(data[1])};
    int back = 0;
    independent_join(frames, words);
    for (int i = from; shape; i++, shape >>= 1)
        words[i / 64] ^= shape & 1 ? spot(i % 64) : 0;
    independent_part(words, frames);
    for (int i = 0; i < 2; i++) {
        const struct reading r = independent_read(frames[i]);
        back += r.verdict <= 2 && r.data == data[i] ? 1 + i : 0;
        put_eight(words[i]);
    }
    return back;
}

// Every burst, each in a case by itself or all of them in one.
static void each_burst(const uint64_t data[2], int apart)
{
    int count = 0;
    for (int from = 0; from < LINE; from++) {
        const int longest = LINE - from < BURST ? LINE - from : BURST;
        for (unsigned shape = 1; shape < 1u << longest; shape += 2, count++) {
            if (put_turned(data, from, shape) != 3)
                fail("data %llx and %llx do not both come back: burst %x at %d", (shown)data[0], (shown)data[1], shape, from);
            if (apart)
                read_pairs("pairs burst");
        }
    }
    if (count != BURSTS)
        fail("there are %d bursts, not %d", count, BURSTS);
    if (!apart)
        read_pairs("pairs bursts");
}

// Three flips of one frame, within a stretch of five and ahead of the pad: its data is lost, that of the other is not.
static void each_loss(const uint64_t data[2])
{
    for (int from = 0; from / 2 + 2 < 63; from++) {
        if (put_turned(data, from, 0x15) != (from % 2 ? 1 : 2))
            fail("data %llx and %llx: flips at %d, %d and %d do not lose just the one", (shown)data[0], (shown)data[1], from, from + 2,
                 from + 4);
        read_pairs("pairs loss");
    }
}

void pair_bursts(void)
{
    const uint64_t most = ~0ul >> 16;
    const uint64_t data[][2] = {{0, 0}, {0, most}, {most, 0}, {any() >> 16, any() >> 16}, {any() >> 16, any() >> 16}};
    for (int i = 0; i < 5; i++) {
        each_burst(data[i], 1);
        each_loss(data[i]);
    }
    for (int i = 0; i < 20; i++)
        each_burst((const uint64_t[]){any() >> 16, any() >> 16}, 0);
}
