// Bursts on pairs of lawful frames, through the archive and the independent program: the promise for at most 4 neighbouring positions, and
// that it fails for 5. Prints lines of figures.txt.
//
// usage: bursts           the archive against the independent program
//        bursts alone     the same through the independent program only: where these lines are from
#include "paired.h"

static uint64_t list[MOST_NUMBERS];

static void flip(uint64_t words[2], int position) { words[position / 64] ^= spot(position % 64); }

// ---- at most 4

enum { BURSTS = 1007 };

static uint64_t bursts[BURSTS][2]; // ones at the positions that are flipped

// The lowest flip, and any of the three positions behind it that are on the line.
static void list_bursts(void)
{
    size_t n = 0;
    for (int low = 0; low < LINE; low++)
        for (int one = 0; one < 2 && low + one < LINE; one++)
            for (int two = 0; two < 2 && low + 2 * two < LINE; two++)
                for (int three = 0; three < 2 && low + 3 * three < LINE; three++, n++) {
                    const int is_flipped[4] = {1, one, two, three};
                    for (int i = 0; i < 4; i++)
                        if (is_flipped[i])
                            flip(bursts[n], low + i);
                }
    same("bursts of at most", 4, n, BURSTS);
}

// Without the pad.
static uint64_t flips_in(uint64_t ones)
{
    uint64_t n = 0;
    for (int i = 0; i < 63; i++)
        n += (ones & spot(i)) != 0;
    return n;
}

static void on_pair(const uint64_t data[2])
{
    const uint64_t frames[2] = {independent_make(data[0]), independent_make(data[1])};
    uint64_t words[2], flips[2];
    independent_join(frames, words);
    for (size_t i = 0; i < 2 * BURSTS; i++)
        list[i] = words[i % 2] ^ bursts[i / 2][i % 2];
    take_words(list, 2 * BURSTS);
    for (size_t i = 0; i < 2 * BURSTS; i++) {
        independent_part(bursts[i / 2], flips);
        same("known data after burst", i / 2, due.data[i], data[i % 2]);
        same("known flips of burst", i / 2, due.verdicts[i], flips_in(flips[i % 2]));
    }
    both_ways(2 * BURSTS);
}

static void all_bursts(void)
{
    enum { PAIRS = 12, KNOWN = 6 };
    static uint64_t pairs[PAIRS][2] = {{0, 0},
                                       {0xFFFFFFFFFFFFu, 0xFFFFFFFFFFFFu},
                                       {0, 0xFFFFFFFFFFFFu},
                                       {0xFFFFFFFFFFFFu, 0},
                                       {0x0000FFFF0000u, 0x0000FFFF0000u},
                                       {0x123456789ABCu, 0xAAAAAAAAAAAAu}};
    uint64_t state = 7;
    list_bursts();
    for (size_t k = 0; k < PAIRS; k++) {
        for (int i = 0; i < 2 && k >= KNOWN; i++)
            pairs[k][i] = random64(&state) >> 16;
        turn_to(k);
        on_pair(pairs[k]);
    }
    print_figures("every burst of at most 4, on twelve pairs");
}

// ---- 5

// Positions s, s + 2 and s + 4 are three of one frame. Data 0 with itself, and every s for which they are among that frame's first 63.
static void every_other_of_five(void)
{
    enum { FIVES = 122 };
    const uint64_t frames[2] = {independent_make(0), independent_make(0)};
    uint64_t back = 0, refused = 0, misread = 0;
    for (int s = 0; s < FIVES; s++) {
        independent_join(frames, list + 2 * s);
        for (int i = 0; i < 3; i++)
            flip(list + 2 * s, s + 2 * i);
    }
    take_words(list, 2 * FIVES);
    for (size_t i = 0; i < 2 * FIVES; i++) {
        int is_refused = due.verdicts[i] > 2, is_back = !is_refused && due.data[i] == 0, is_hit = i / 2 % 2 == i % 2;
        same("whether data 0 comes back, frame", i, (uint64_t)is_back, !is_hit);
        back += is_back;
        refused += is_refused;
        misread += !is_refused && !is_back;
    }
    both_ways(2 * FIVES);
    print_figures("flips at s, s + 2 and s + 4, on the pair of data 0 with itself");
    printf("of them: frames that were not hit, data 0 back %llu; frames that were, refused %llu, misread %llu\n", (shown)back,
           (shown)refused, (shown)misread);
}

int main(int argc, char **argv)
{
    alone = argc == 2 && !strcmp(argv[1], "alone");
    all_bursts();
    every_other_of_five();
    print_calls("bursts");
    return 0;
}
