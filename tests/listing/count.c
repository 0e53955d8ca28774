// An independent count of the frames on standard input, and makers of input for it. It is written from the paper and from the algebra of
// the code over GF(64) (syndromes S1 and S3, Peterson's equations, a search of all 63 places): no table of remainders, no table of
// corrections and nothing of the proved crates.
//
// usage: count                       counts standard input and prints the ten lines of the listing
//        count bytes SEED N          writes N bytes of frames: lawful ones with none to four flips, noise, still lines
//        count triples               writes the frame of data 0 with each three of its 63 positions flipped
//        count plan [KINDS N]...     writes N frames of each: KINDS is kinds in turn, as no-word,clean; left-over N is N bytes
//        count drip N                hands standard input on, N bytes a write
#include "count.h"

enum { MOST = 1 << 20 };

static uint8_t refused[MOST]; // of each frame of the input, whether it is refused

// From each place where a stretch of refused frames begins, how far it goes.
static uint64_t longest_gap(uint64_t frames)
{
    uint64_t longest = 0;
    for (uint64_t from = 0; from < frames; from++) {
        uint64_t to = from;
        if (from > 0 && refused[from - 1])
            continue;
        while (to < frames && refused[to])
            to++;
        if (to - from > longest)
            longest = to - from;
    }
    return longest;
}

static int count(void)
{
    struct figures f = {0, {0}, 0, 0};
    uint8_t frame[8];
    size_t have = 0;
    field();
    for (;;) {
        long got = read(0, frame + have, 8 - have);
        if (got <= 0)
            break;
        have += (size_t)got;
        if (have == 8) {
            int no = one_frame(frame, &f);
            if (f.frames > MOST)
                fail("count: the input is too long");
            refused[f.frames - 1] = (uint8_t)no;
            have = 0;
        }
    }
    print_listing(&f, have, longest_gap(f.frames));
    return 0;
}

int main(int argc, char **argv)
{
    if (argc == 4 && !strcmp(argv[1], "bytes"))
        return bytes(strtoul(argv[2], NULL, 10), strtoul(argv[3], NULL, 10));
    if (argc == 2 && !strcmp(argv[1], "triples"))
        return triples();
    if (argc > 3 && !strcmp(argv[1], "plan"))
        return plan(argv + 2);
    if (argc == 3 && !strcmp(argv[1], "drip"))
        return drip(strtoul(argv[2], NULL, 10));
    return count();
}
