#include "cases.h"

// A verdict with a wrong pad and so many check flips, to a tally with some clean frames and some with two flips.
static void tally_row(uint64_t clean, uint64_t two, uint64_t pad_wrong, uint64_t check_flips, uint64_t verdict, uint64_t checks)
{
    VALUES_OF(clean, 0, two, 0, 0, pad_wrong, check_flips, 0, 0, 1);
    put(verdict);
    split();
    put(1);
    put(checks);
    add(TALLY, "tally add");
}

static void check_rows(void)
{
    const uint64_t past_half = MOST / 2 + 1; // twice that many flips are more than the most
    tally_row(0, 1, 0, 2, 2, 2);
    tally_row(0, 1, 0, 2, 2, 3);
    tally_row(0, 1, 0, 2, 1, 1);
    tally_row(0, 1, 0, 2, 1, 2);
    tally_row(0, 1, 0, 2, 0, 1);
    tally_row(0, 1, 0, 2, 13, 1);
    tally_row(0, 1, 0, 2, 14, 1);
    tally_row(0, 1, 0, 3, 2, 0);
    tally_row(0, past_half, 0, MOST - 1, 1, 1);
    tally_row(0, past_half, 0, MOST - 1, 2, 2);
    tally_row(0, past_half, 0, MOST, 2, 0);
    tally_row(0, past_half, 0, MOST, 2, 1);
    tally_row(0, past_half, 0, MOST, 2, 3);
    tally_row(0, past_half, 0, MOST + 1, 0, 0);
    put(0);
    split();
    put(1);
    add(TALLY, "tally add"); // no check flips
}

// A verdict to a tally with a clean frame and so many refused ones.
static void stretch_row(uint64_t refused, uint64_t current, uint64_t longest, uint64_t verdict)
{
    VALUES_OF(1, 0, 0, refused, 0, 0, 0, current, longest, 1);
    put(verdict);
    split();
    put(0);
    put(0);
    add(TALLY, "tally add");
}

// Stretches of two, three and one, behind the one that is handed in.
static void list_row(uint64_t current)
{
    const uint64_t verdicts[] = {13, 14, 0, 13, 14, 13, 1, 14};
    VALUES_OF(0, 0, 0, current, 0, 0, 0, current, current, 8);
    for (int i = 0; i < 8; i++)
        put(verdicts[i]);
    split();
    for (int i = 0; i < 16; i++)
        put(0);
    add(TALLY, "tally add");
}

static void stretch_rows(void)
{
    const uint64_t verdicts[] = {0, 1, 2, 13, 14, 3};
    for (int i = 0; i < 6; i++)
        stretch_row(3, 2, 2, verdicts[i]);
    stretch_row(3, 1, 2, 13);
    stretch_row(3, 0, 3, 14);
    stretch_row(3, 3, 2, 0);
    stretch_row(3, 4, 4, 0);
    stretch_row(3, 0, 4, 0);
    stretch_row(MOST - 2, MOST - 2, MOST - 2, 13);
    stretch_row(MOST - 1, MOST - 1, MOST - 1, 13);
    stretch_row(MOST - 1, MOST - 1, MOST, 13);
    for (uint64_t current = 0; current < 3; current++)
        list_row(current);
}

static void frames_row(const uint64_t *frames, int n)
{
    for (int i = 0; i < n; i++)
        put_eight(frames[i]);
    add(LANE, "lane count");
}

static void lane_row(void) { frames_row((const uint64_t[]){0x0000800040003565, 0x8000800040003567, 0x000080004000356b}, 3); }

// The bench's frames and two still lines, behind a stretch of two.
static void lane_stretch_rows(void)
{
    VALUES_OF(0, 0, 0, 2, 0, 0, 0, 2, 2);
    lane_row();
    frames_row((const uint64_t[]){0, ~0ul}, 2);
    VALUES_OF(0, 0, 0, 2, 0, 0, 0, 2, 1);
    lane_row();
    VALUES_OF(0, 0, 0, 2, 0, 0, 0, 2, 3);
    lane_row();
}

void tally_rows(void)
{
    const uint64_t verdicts[] = {0, 1, 2, 13, 14, 3};
    for (int i = 0; i < 6; i++)
        tally_row(5, 0, 5, 0, verdicts[i], 0);
    tally_row(5, 0, 6, 0, 0, 0);
    tally_row(MOST - 1, 0, 0, 0, 0, 0);
    tally_row(MOST, 0, 0, 0, 0, 0);
    put(0);
    add(TALLY, "tally add");
    check_rows();
    stretch_rows();
    VALUES_OF(0);
    lane_row();
    VALUES_OF(0, 0, MOST / 2 + 1, 0, 0, 0, MOST - 1);
    lane_row();
    VALUES_OF(0, 0, MOST / 2 + 1, 0, 0, 0, MOST);
    lane_row();
    lane_stretch_rows();
    VALUES_OF(MOST);
    next.extra = 8;
    add(LANE, "lane count");
    next.extra = LONGEST + 1;
    add(LANE, "lane count");
}
