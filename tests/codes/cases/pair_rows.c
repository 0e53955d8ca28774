// The rows of pairs: words that are known, an odd list, short outputs, and a refused frame on either side.
#include "cases.h"

#define ZERO 0x0000800040003565 // the frames of data 0 and of all ones
#define ONES 0xffff7fffbfffca9a

static void two_rows(void)
{
    const uint64_t a_places = 0xaaaaaaaaaaaaaaaa, b_places = 0x5555555555555555;
    ask_pair(~0ul, 0);
    ask_pair(0, ~0ul);
    ask_pair(a_places, a_places);
    ask_pair(b_places, b_places);
    ask_pair(ZERO, ZERO);
    ask_pair(ZERO, ONES);
    ask_pair(ONES, ZERO);
    ask_pair(spot(1), spot(62));
}

static void put_frames(uint64_t n)
{
    const uint64_t frames[] = {ZERO, ONES, 0, ~0ul};
    for (uint64_t i = 0; i < n; i++)
        put_eight(frames[i]);
}

// So many frames and a few bytes behind them, into outputs of so many numbers; that of bytes is a few longer.
static void make_row(uint64_t frames, uint64_t left, uint64_t room, uint64_t more)
{
    put_frames(frames);
    for (; left; left--)
        put(0);
    VALUES_OF(room, 8 * room + more, 1);
    add(PAIRS_MAKE, "pairs make");
}

static void make_rows(void)
{
    make_row(0, 0, 0, 0);
    make_row(2, 0, 2, 0);
    make_row(4, 0, 5, 0);
    make_row(3, 0, 4, 0);
    make_row(3, 0, 2, 0);
    make_row(4, 0, 3, 0);
    make_row(2, 0, 2, 1);
    make_row(2, 1, 3, 0);
}

static void read_row(uint64_t first, uint64_t second, uint64_t room, uint64_t verdicts)
{
    put_eight(first);
    put_eight(second);
    VALUES_OF(room, 8 * room, verdicts, 1);
    add(PAIRS_READ, "pairs read");
}

// The words are worked out by hand: opposite frames give 01 for each 0 of A, 10 for each 1.
static void read_rows(void)
{
    const uint64_t first = 0x5555555595555555, second = 0x655555555a666966; // ZERO and ONES
    read_row(0x00000000c0000000, 0x300000000f333c33, 2, 2);                 // ZERO and ZERO
    read_row(first, second, 3, 4);
    read_row(first, second, 1, 2);
    read_row(first, second, 2, 1);
    read_row(first ^ 3, second ^ 3ul << 62, 2, 2);          // a burst of four
    read_row(first ^ 0xa8ul << 56, second, 2, 2);           // at 0, 2 and 4: more than A bears
    read_row(first ^ 0x54ul << 56, second, 2, 2);           // at 1, 3 and 5: more than B does
    read_row(first, second ^ 3, 2, 2);                      // both pads
    read_row(first, 0x655555555a6669ce, 2, 2);              // 000080004000356b, which is refused, and ONES
    read_row(0xaaaaaaaa6aaaaaaa, 0x9aaaaaaaa59996cd, 2, 2); // ONES and it
    read_row(0x5555555515555555, 0x4555555550444144, 2, 2); // a still line and ONES
    read_row(0xaaaaaaaa2aaaaaaa, 0x8aaaaaaaa0888288, 2, 2); // ONES and a still line
    read_row(0, 0, 2, 2);
    put_frames(3);
    VALUES_OF(4, 32, 4, 1);
    add(PAIRS_READ, "pairs read"); // an odd list
}

void pair_rows(void)
{
    two_rows();
    make_rows();
    read_rows();
}
