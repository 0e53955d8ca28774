// How the refused frames of a lane follow one another.
#include "faults.h"

struct gaps {
    uint64_t refused, longest;
};

static struct gaps gaps_of(uint64_t (*received)(size_t i))
{
    struct gaps g = {0, 0};
    for (size_t from = 0, to; from < FRAMES; from = to + 1) {
        for (to = from; to < FRAMES && independent_read(received(to)).verdict > 2;)
            to++;
        g.refused += to - from;
        g.longest = to - from > g.longest ? to - from : g.longest;
    }
    return g;
}

static unsigned cut; // bits late

static uint64_t at_cut(size_t i) { return late(i, cut); }

static struct gaps gaps_at(unsigned bits)
{
    cut = bits;
    return gaps_of(at_cut);
}

static void at_wrong_cuts(void)
{
    uint64_t most = 0;
    for (unsigned bits = 1; bits < 64; bits++) {
        struct gaps g = gaps_at(bits);
        must(g.refused > FRAMES / 2, "at a wrong cut most frames are refused");
        most = g.longest > most ? g.longest : most;
    }
    printf("none of the 63 wrong cuts of %s frames has a longest-gap over %s, and noise here has one of %s.\n", figure(FRAMES),
           figure(most), figure(gaps_of(noise).longest));
}

static void in_a_pause(void)
{
    struct gaps pause = gaps_of(paused), slip = gaps_at(1);
    uint64_t whole = 0;
    for (size_t i = 0; i < FRAMES; i++)
        whole += paused(i) == 0;
    must(pause.longest == pause.refused && pause.longest == whole + 2, "the refused frames are the pause with both its ends");
    printf("So longest-gap is the length of the pause: %s frames that fit whole, and here the two at its ends as well.\n", figure(whole));
    printf("Its longest-gap is %s of %s refused frames, that of the pause all %s.\n", figure(slip.longest), figure(slip.refused),
           figure(pause.refused));
}

void says_of_gaps(void)
{
    at_wrong_cuts();
    in_a_pause();
    must(gaps_of(chance).longest == gaps_of(burst).longest, "flips by chance and bursts have the same longest gap");
    printf("Flips by chance and short bursts spoil frames one by one: the longest-gap of both is %s here.\n",
           figure(gaps_of(burst).longest));
}
