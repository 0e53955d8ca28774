// The reader in C, as good as we can write it: eight tables of 256 entries over a frame's own bytes and two of 4,096, the corrections and
// their masks. An entry of a byte is its remainder, one of a correction the check flips and from bit 8 on the flips; bits 12 to 14 of either
// are the run sums. One comparison tells a clean frame, and one that a frame is refused. The tables are made once, by long division, which
// shares nothing with them but g.
#ifndef READER_H
#define READER_H
#include "plain.h"

#define CLEAN 0x7000u // remainder 0, and every run bit right
#define NONE 0x8000u  // no correction, whatever the run sums

static uint16_t bytes[8][256], corrections[4096];
static uint64_t masks[4096]; // the places to flip, as ones of a frame

static uint64_t division(uint64_t v)
{
    uint64_t left = v % (1ull << 63);
    for (int k = 0; k < 51; k++)
        left = (left ^ (left >> 62) * (0x1539ull << 50)) * 2;
    return left >> 51;
}

static inline uint64_t with_run(uint64_t x) { return x * 2 + (1 - x % 2); }

// the frame of a data word, by division
static inline uint64_t frame_of(uint64_t d)
{
    uint64_t top = ((with_run(d >> 32) << 34) + (with_run(d >> 16 & 0xffff) << 17) + with_run(d & 0xffff)) << 12, w = top + division(top);
    return w * 2 + (1 - w % 2);
}

// positions 16, 33 and 50 of a word, each added to the one before it
static uint64_t run_sums(uint64_t w)
{
    uint64_t x = w ^ w >> 1;
    return (x >> 46 & 1) << 2 | (x >> 29 & 1) << 1 | (x >> 12 & 1);
}

static void tables(void)
{
    uint64_t spot[64], sums[64];
    for (int i = 0; i < 64; i++) {
        spot[i] = (1ull << 62) >> i;
        sums[i] = run_sums(spot[i]) << 12 | division(spot[i]);
    }
    for (int i = 0; i < 4096; i++)
        corrections[i] = NONE;
    // 63 stands for no place
    for (int a = 0; a < 64; a++)
        for (int b = a; b < 64; b++)
            if (a < b || a == 63) {
                uint64_t s = sums[a] ^ sums[b];
                int flips = (a < 63) + (b < 63), checks = (a > 50 && a < 63) + (b > 50 && b < 63);
                corrections[s & 4095] = (uint16_t)((s & 0x7000) | (uint64_t)(flips << 8 | checks));
                masks[s & 4095] = (spot[a] ^ spot[b]) << 1;
            }
    // position 63 of a frame is its pad, which is in no sum
    for (int k = 0; k < 8; k++)
        for (int j = 0; j < 8; j++)
            for (int b = 0; b < 1 << j; b++)
                bytes[k][1 << j | b] = (uint16_t)(bytes[k][b] ^ sums[63 - (8 * k + j)]);
}

// The sums of a frame in eight bytes, highest first,
static inline unsigned sums_at(const uint8_t *b)
{
    return bytes[7][b[0]] ^ bytes[6][b[1]] ^ bytes[5][b[2]] ^ bytes[4][b[3]] ^ bytes[3][b[4]] ^ bytes[2][b[5]] ^ bytes[1][b[6]]
           ^ bytes[0][b[7]];
}

// of a number in memory, by its bytes there,
static inline unsigned sums_in(const uint64_t *f)
{
    const uint8_t *b = (const uint8_t *)f;
    return bytes[0][b[0]] ^ bytes[1][b[1]] ^ bytes[2][b[2]] ^ bytes[3][b[3]] ^ bytes[4][b[4]] ^ bytes[5][b[5]] ^ bytes[6][b[6]]
           ^ bytes[7][b[7]];
}

// and of a number at hand, by shifts.
static inline unsigned sums_of(uint64_t f)
{
    return bytes[0][f & 255] ^ bytes[1][f >> 8 & 255] ^ bytes[2][f >> 16 & 255] ^ bytes[3][f >> 24 & 255] ^ bytes[4][f >> 32 & 255]
           ^ bytes[5][f >> 40 & 255] ^ bytes[6][f >> 48 & 255] ^ bytes[7][f >> 56];
}

static inline uint64_t data_in(uint64_t f)
{
    return (f >> 16 & 0xffff00000000) | (f >> 15 & 0xffff0000) | (f >> 14 & 0xffff);
}

// What the frame f says whose sums are x: the verdict, the data, the pad flag and the check flips, these 0 where it is refused.
static inline uint8_t said(unsigned x, uint64_t f, uint64_t *d, uint8_t *pad, uint8_t *checks)
{
    if (__builtin_expect(x == CLEAN, 1)) {
        *d = data_in(f);
        *pad = (f ^ f >> 1 ^ 1) & 1;
        *checks = 0;
        return 0;
    }
    unsigned n = corrections[x & 4095];
    if ((x ^ n) >> 12 != 7) {
        *d = 0;
        *pad = *checks = 0;
        return n & NONE ? 13 : 14;
    }
    uint64_t g = f ^ masks[x & 4095];
    *d = data_in(g);
    *pad = (f ^ g >> 1 ^ 1) & 1;
    *checks = (uint8_t)n;
    return (uint8_t)(n >> 8 & 3);
}
#endif
