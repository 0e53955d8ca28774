// Holds lks_pairs_make and lks_pairs_read to the independent program: words, frames that cannot be read beside frames that can, lists of
// every length, and the longest run on the line. Prints lines of figures.txt.
//
// usage: pairs           the archive against the independent program
//        pairs alone     the same through the independent program only: where these lines are from
#include "paired.h"

static uint64_t state; // of the random numbers, set anew for each set
static uint64_t list[MOST_NUMBERS];

// ---- words

// A pair with another bit at one place, for each place of A and of B: on the line that is place 2i, and for B the next.
static void one_place(uint64_t others)
{
    for (int i = 0; i < LINE; i++) {
        list[2 * i] = list[2 * i + 1] = others;
        list[2 * i + i % 2] ^= spot(i / 2);
    }
    take_frames(list, 2 * LINE);
    for (int i = 0; i < LINE; i++) {
        same("known first word of place", (uint64_t)i, due.words[2 * i], others ^ (i < 64 ? spot(i) : 0));
        same("known second word of place", (uint64_t)i, due.words[2 * i + 1], others ^ (i < 64 ? 0 : spot(i - 64)));
    }
    both_ways(2 * LINE);
}

static void words(void)
{
    state = 1;
    one_place(0);
    one_place(~(uint64_t)0);
    for (size_t i = 0; i < MOST_NUMBERS; i++)
        list[i] = independent_make(random64(&state) >> 16);
    take_frames(list, MOST_NUMBERS);
    both_ways(MOST_NUMBERS);
    print_figures("pairs, all alike but for one place, and of lawful frames");
    for (int k = 0; k < 8; k++) {
        for (size_t i = 0; i < MOST_NUMBERS; i++)
            list[i] = random64(&state);
        take_words(list, MOST_NUMBERS);
        both_ways(MOST_NUMBERS);
    }
    print_figures("pairs of random words");
}

// ---- one refused

// Frames whose answers the paper has, and their opposites: clean, a flip, two, the pad wrong, three flips, a still line.
static const struct kind {
    uint64_t frame, data;
    uint8_t verdict;
} kinds[] = {
    {0x0000800040003565u, 0, 0},  {0xFFFF7FFFBFFFCA9Au, 0xFFFFFFFFFFFFu, 0},
    {0x0000800040003567u, 0, 1},  {0xFFFF7FFFBFFFCA98u, 0xFFFFFFFFFFFFu, 1},
    {0x8000800040003567u, 0, 2},  {0x7FFF7FFFBFFFCA98u, 0xFFFFFFFFFFFFu, 2},
    {0x0000800040003564u, 0, 0},  {0xFFFF7FFFBFFFCA9Bu, 0xFFFFFFFFFFFFu, 0},
    {0x000080004000356Bu, 0, 13}, {0xFFFF7FFFBFFFCA94u, 0, 13},
    {0, 0, 14},                   {~(uint64_t)0, 0, 14},
};
enum { KINDS = sizeof kinds / sizeof kinds[0], PARTNERS = KINDS * KINDS };

// Each beside each: pair after pair, and then all of them as one list.
static void partners(void)
{
    for (size_t i = 0; i < 2 * PARTNERS; i++)
        list[i] = kinds[i % 2 ? i / 2 % KINDS : i / 2 / KINDS].frame;
    for (size_t i = 0; i < PARTNERS; i++) {
        take_frames(list + 2 * i, 2);
        both_ways(2);
    }
    take_frames(list, 2 * PARTNERS);
    for (size_t i = 0; i < 2 * PARTNERS; i++) {
        const struct kind *k = &kinds[i % 2 ? i / 2 % KINDS : i / 2 / KINDS];
        same("known verdict", k->frame, due.verdicts[i], k->verdict);
        same("known data", k->frame, due.data[i], k->data);
    }
    both_ways(2 * PARTNERS);
    print_figures("pairs of each of twelve frames beside each, twice");
}

// ---- lists

enum { LONGEST_LIST = 65 };

// Outputs of every length up to two more than they need, one by one and together; and lengths that are no whole numbers.
static void list_of(size_t n)
{
    for (size_t m = 0; m <= n + 2; m++) {
        makes(8 * n, 8 * m);
        reads(8 * n, 8 * m, n);
        reads(8 * n, 8 * n, m);
        reads(8 * n, 8 * m, m);
    }
    for (size_t more = 1; more < 8; more++) {
        makes(8 * n + more, 8 * n + 8);
        makes(8 * n, 8 * n + more);
        makes(8 * n + more, 8 * n + more);
        reads(8 * n + more, 8 * n + 8, n + 1);
        reads(8 * n, 8 * n + more, n);
        reads(8 * n + more, 8 * n + more, n + 1);
    }
}

static void lists(void)
{
    state = 2;
    for (size_t turn = 0; turn < turns; turn++) {
        turn_to(turn);
        for (size_t i = 0; i <= LONGEST_LIST; i++) {
            uint64_t frame = kinds[random64(&state) % KINDS].frame, lawful = independent_make(random64(&state) >> 16);
            list[i] = i % 3 == 0 ? frame : i % 3 == 1 ? lawful : lawful ^ spot((int)(random64(&state) % 64));
        }
        take_frames(list, LONGEST_LIST + 1);
        for (size_t n = 0; n <= LONGEST_LIST; n++)
            list_of(n);
    }
    print_figures("lists of pairs, sixteen times, of every length 0 to 65");
}

// ---- runs

// Over the first n words at hand, in the order of the line.
static unsigned longest_run(size_t n)
{
    int line[LINE], last = -1;
    unsigned run = 0, longest = 0;
    for (size_t i = 0; i < n; i += 2) {
        independent_line(due.words + i, line);
        for (int k = 0; k < LINE; k++) {
            run = line[k] == last ? run + 1 : 1;
            last = line[k];
            longest = run > longest ? run : longest;
        }
    }
    return longest;
}

// A third each of 16 data bits are all 0, all 1 and at random.
static uint64_t still_data(void)
{
    uint64_t data = 0;
    for (int i = 0; i < 3; i++) {
        uint64_t x = random64(&state);
        data = data << 16 | (x % 3 == 0 ? 0 : x % 3 == 1 ? 0xFFFFu : x >> 48);
    }
    return data;
}

static void runs(void)
{
    unsigned longest = 0;
    state = 3;
    for (int k = 0; k < 8; k++) {
        for (size_t i = 0; i < MOST_NUMBERS; i++)
            list[i] = i % 2 && random64(&state) % 2 ? list[i - 1] : independent_make(still_data());
        take_frames(list, MOST_NUMBERS);
        both_ways(MOST_NUMBERS);
        unsigned run = longest_run(MOST_NUMBERS);
        if (run > 34)
            fail("a run of %u", run);
        longest = run > longest ? run : longest;
    }
    list[0] = list[1] = 0x0000FFFF80003F96u;
    same("the frame of data", 0x0000FFFF0000u, list[0], independent_make(0x0000FFFF0000u));
    take_frames(list, 2);
    both_ways(2);
    same("the longest run of a pair of", list[0], longest_run(2), 34);
    print_figures("pairs with long runs");
    printf("the longest run over them: %u\n", longest);
}

int main(int argc, char **argv)
{
    alone = argc == 2 && !strcmp(argv[1], "alone");
    turn_to(0);
    words();
    partners();
    lists();
    runs();
    print_calls("pairs");
    return 0;
}
