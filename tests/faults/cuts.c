// Frames cut at each of the 63 wrong places.
#include "faults.h"

static struct figures at[64]; // by bits late

// Where a run bit or a pad comes to stand at the place of a run bit: they are 17 apart, and 13 from the last run bit to the pad.
static int is_telling(unsigned bits) { return bits == 13 || bits == 17 || bits == 30 || bits == 34 || bits == 47; }

static uint64_t read_at(unsigned bits) { return at[bits].verdict[0] + at[bits].verdict[1] + at[bits].verdict[2]; }

static uint64_t flips_at(unsigned bits) { return at[bits].verdict[1] + 2 * at[bits].verdict[2]; }

static void cut(unsigned bits)
{
    for (size_t i = 0; i < FRAMES; i++) {
        struct reading r = independent_read(late(i, bits));
        must(r.verdict > 2 || (r.data != sent[i] && r.data != sent[i + 1]), "a wrong cut hands back no data that was sent");
        count(at + bits, &r);
    }
    const uint64_t *v = at[bits].verdict;
    if (bits <= 8 || is_telling(bits) || bits == 63)
        printf("| %u | %s | %s | %s | %s | %s | %s | %s |\n", bits, figure(v[0]), figure(v[1]), figure(v[2]), figure(v[13]),
               figure(v[14]), figure(at[bits].pad_wrong), figure(at[bits].check_flips));
}

// What the page says of cuts without a figure.
static void held(unsigned bits)
{
    uint64_t pads = 10 * at[bits].pad_wrong;
    must((at[bits].verdict[13] == 0) == (bits < 3 || bits > 61), "up to two bits to either side, and only there, no frame is no-word");
    if (bits == 17 || bits == 34 || bits == 51)
        must(pads < read_at(bits), "17, 34 and 51 bits late few of the frames read have a wrong pad");
    else
        must(4 * read_at(bits) < pads && pads < 6 * read_at(bits), "at other cuts half of the frames read have a wrong pad");
    if (bits <= 6) {
        uint64_t all = at[bits].verdict[0] << (bits + 3);
        must(8 * FRAMES < 10 * all && 10 * all < 12 * FRAMES, "a sixteenth is clean, and each bit more halves that");
    }
    for (unsigned v = 0; bits <= 8 && v < 15; v++) {
        uint64_t here = at[bits].verdict[v], there = at[64 - bits].verdict[v];
        must(here < there + 100 && there < here + 100, "up to eight bits, either side looks as the other");
    }
    if (bits <= 8)
        must(at[64 - bits].check_flips < at[bits].check_flips, "up to eight bits, more check flips are late than early");
    if (bits <= 3)
        must(at[bits].check_flips == flips_at(bits) && at[64 - bits].check_flips == 0, "up to three bits check flips tell late from early");
}

static void widen(uint64_t range[2], uint64_t n)
{
    if (n < range[0])
        range[0] = n;
    if (n > range[1])
        range[1] = n;
}

void says_of_cuts(void)
{
    uint64_t clean[2] = {FRAMES, 0}, no_word[2] = {FRAMES, 0}, read[2] = {FRAMES, 0};
    for (unsigned bits = 1; bits < 64; bits++) {
        cut(bits);
        widen(clean, at[bits].verdict[0]);
        if (bits >= 7 && bits <= 57 && !is_telling(bits)) {
            widen(no_word, at[bits].verdict[13]);
            widen(read, read_at(bits));
        }
    }
    for (unsigned bits = 1; bits < 64; bits++)
        held(bits);
    printf("Cut 1, 2, 62 or 63 bits late, no frame is no-word.\n");
    printf("Up to three bits late all flips undone are in check bits, up to three bits early none.\n");
    printf("No wrong cut has more than %s clean frames of %s, and none hands back data that was sent.\n", figure(clean[1]),
           figure(FRAMES));
    printf("Every other cut from 7 to 57 bits late has %s to %s frames no-word and %s to %s read.\n", figure(no_word[0]),
           figure(no_word[1]), figure(read[0]), figure(read[1]));
}
