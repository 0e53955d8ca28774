// Holds the archive to the independent second program on six sets of frames, and prints for each set how often the archive gave each
// verdict: the lines of figures.txt.
//
// usage: compare           the archive against the independent program
//        compare alone     the same sets through the independent program only: where figures.txt is from
#include "both.h"

#define MILLION 1000000
#define BLOCK 512

static uint64_t state; // of the random numbers, set anew for each set
static uint64_t data[BLOCK], frames[BLOCK];

// ---- no flip, one or two of the 63, on a lawful frame with either pad

enum { POSITIONS = 63, PATTERNS = 1 + POSITIONS + POSITIONS * (POSITIONS - 1) / 2, FIRST_CHECK = 51, CHECK_BITS = 12 };

// Over all of them each check bit is flipped once alone and once with each other position.
static const uint64_t all_check_flips = CHECK_BITS + CHECK_BITS * (POSITIONS - 1);

static const uint64_t some_words[] = {0, 0xFFFFFFFFFFFFu, 0x0000FFFF0000u, 0x123456789ABCu, 0xAAAAAAAAAAAAu, 0x000100010001u};
enum { WORDS = sizeof some_words / sizeof some_words[0] };

static int places[PATTERNS][2]; // place 63 stands for no flip

static void list_places(void)
{
    size_t n = 0;
    for (int a = 0; a < 64; a++)
        for (int b = a < 63 ? a + 1 : 63; b < 64; b++, n++) {
            places[n][0] = a;
            places[n][1] = b;
        }
    same("patterns of", POSITIONS, n, PATTERNS);
}

static uint64_t flipped(uint64_t word, const int place[2], uint64_t pad)
{
    uint64_t frame = independent_make(word) ^ pad;
    for (int i = 0; i < 2; i++)
        frame ^= place[i] < 63 ? spot(place[i]) : 0;
    return frame;
}

static int is_check_bit(int position) { return position >= FIRST_CHECK && position < FIRST_CHECK + CHECK_BITS; }

// What was flipped is known, so both sides are held to it. Returns the check flips.
static uint64_t one_pattern(uint64_t word, const int place[2], uint64_t pad)
{
    int a = place[0], b = place[1];
    uint64_t frame = flipped(word, place, pad);
    struct reading r = read_both(frame);
    same("known data", frame, r.data, word);
    same("known first place", frame, r.place[0], a < 63 ? (uint64_t)a : 255);
    same("known second place", frame, r.place[1], b < 63 ? (uint64_t)b : 255);
    same("known flips", frame, r.verdict, (uint64_t)((a < 63) + (b < 63)));
    same("known pad", frame, r.pad_wrong, pad);
    same("known check flips", frame, r.check_flips, (uint64_t)(is_check_bit(a) + is_check_bit(b)));
    return r.check_flips;
}

static void patterns(void)
{
    for (size_t k = 0; k < WORDS; k++)
        for (uint64_t pad = 0; pad < 2; pad++) {
            uint64_t sum = 0;
            for (size_t i = 0; i < PATTERNS; i++)
                sum += one_pattern(some_words[k], places[i], pad);
            same("check flips of all patterns on the frame", some_words[k], sum, all_check_flips);
        }
    print_figures("every at most two flips, on six frames, either pad");
}

static void pattern_lists(void)
{
    static uint64_t list[PATTERNS];
    for (size_t k = 0; k < WORDS; k++)
        for (uint64_t pad = 0; pad < 2; pad++) {
            for (size_t i = 0; i < PATTERNS; i++)
                list[i] = flipped(some_words[k], places[i], pad);
            same("check flips of the list of all patterns on the frame", some_words[k], read_block(list, PATTERNS, pad), all_check_flips);
        }
    print_figures("the same as twelve lists");
}

// ---- other frames

static void triples(void)
{
    uint64_t frame = independent_make(0x5A3C96E1F078u);
    for (int a = 0; a < 63; a++)
        for (int b = a + 1; b < 63; b++)
            for (int c = b + 1; c < 63; c++)
                read_both(frame ^ spot(a) ^ spot(b) ^ spot(c));
    print_figures("every three flips, on one frame");
}

static void words(void)
{
    state = 1;
    for (size_t left = MILLION, n; left > 0; left -= n) {
        n = left < BLOCK ? left : BLOCK;
        for (size_t i = 0; i < n; i++)
            frames[i] = random64(&state);
        read_block(frames, n, 0);
    }
    print_figures("random words");
}

// A frame with so many of its 64 positions flipped, no position twice.
static uint64_t damaged(uint64_t frame, unsigned flips)
{
    uint64_t flipped = 0;
    while (flips > 0) {
        uint64_t one = spot((int)(random64(&state) % 64));
        flips -= !(flipped & one);
        flipped |= one;
    }
    return frame ^ flipped;
}

static void made(void)
{
    state = 2;
    for (size_t left = MILLION, n; left > 0; left -= n) {
        n = left < BLOCK ? left : BLOCK;
        for (size_t i = 0; i < n; i++)
            data[i] = random64(&state) >> 16;
        make_block(data, frames, n, 0);
        for (size_t i = 0; i < n; i++)
            frames[i] = damaged(frames[i], (unsigned)(random64(&state) % 5));
        read_block(frames, n, 0);
    }
    print_figures("made frames, none to four flips");
}

// Damaged frames, noise and still lines beside each other, so that a list goes on after any verdict.
static void lists(void)
{
    state = 3;
    for (size_t n = 0; n <= 257; n++) {
        for (size_t i = 0; i < n; i++)
            data[i] = random64(&state) >> 16;
        make_block(data, frames, n, n % 3);
        for (size_t i = 0; i < n; i++) {
            unsigned kind = (unsigned)(random64(&state) % 8);
            frames[i] = kind < 5 ? damaged(frames[i], kind) : kind == 5 ? random64(&state) : kind == 6 ? 0 : ~(uint64_t)0;
        }
        read_block(frames, n, n % 3);
    }
    print_figures("lists of every length 0 to 257");
}

int main(int argc, char **argv)
{
    alone = argc == 2 && !strcmp(argv[1], "alone");
    list_places();
    patterns();
    pattern_lists();
    triples();
    words();
    made();
    lists();
    return 0;
}
