// Published equations of the frame's code, held to each other and to the archive: 001's (14), (15), (17) and (20), and the textbook's
// generator of BCH(63,51).
#include "polynomials.h"

// ---- the generator

static void generators(void)
{
    hold("(14) is the product of (17)", product(phi1, phi3), g14);
    hold("(14) is the textbook's octal 12471", g14, 012471);
    hold("(14) is the paper's hexadecimal 1539", g14, 0x1539);
    for (uint64_t d = 2; d < 16; d++)
        hold("(17) has no factor", rest(phi1, d) == 0 || rest(phi3, d) == 0, 0);
    hold("(17) at a", at(phi1, power(1)), 0);
    hold("(17) at a^2", at(phi1, power(2)), 0);
    hold("(17) at a^4", at(phi1, power(4)), 0);
    hold("(17) at a^3", at(phi3, power(3)), 0);
    for (uint64_t b = 0; b < 64; b++) {
        uint64_t s3 = ((b ^ b >> 2 ^ b >> 4) & 1) | (b >> 2 & 1) << 1 | (b >> 4 & 1) << 2 | ((b >> 1 ^ b >> 3 ^ b >> 5) & 1) << 3 |
                      (b >> 3 & 1) << 4 | (b >> 5 & 1) << 5;
        hold("(20), S3", s3, at(b, power(3)));
    }
    print_held("published: (14), (17), (20), octal 12471 and 1539 agree with each other");
}

// Every shift of g is a code word: laid over a lawful frame, with none, one or two flips, it is never answered 13.
static void shifts(void)
{
    for (int k = 0; k <= 50; k++)
        for (int a = 0; a < 64; a++)
            for (int b = a == 63 ? 63 : a + 1; b < 64; b++) {
                uint64_t flips = (spot(a) ^ spot(b)) & ~(uint64_t)1;
                hold("a shift of g refused", verdict(lks_frame_make(0) ^ g14 << (k + 1) ^ flips) == 13, 0);
            }
    print_held("published: 51 shifts of g under 2,017 patterns of flips, none is 13");
}

// ---- check bits

// (15) of a word of 63: u_j is the coefficient of x^(12 + j).
static uint64_t b8(uint64_t word)
{
    static const int u[] = {15, 42, 18, 35, 32, 12, 24, 39, 4,  31, 49, 27, 33, 28, 10, 17,
                            19, 11, 45, 40, 38, 46, 30, 41, 47, 14, 26, 0,  2,  8,  3};
    uint64_t sum = 0;
    for (size_t i = 0; i < sizeof u / sizeof u[0]; i++)
        sum ^= word >> (12 + u[i]) & 1;
    return sum;
}

static void made_frame(uint64_t data)
{
    uint64_t word = lks_frame_make(data) >> 1;
    hold("(15): position 54", word >> 8 & 1, b8(word));
    hold("(14): remainder", rest(word, g14), 0);
    for (int k = 1; k <= 4; k++)
        hold("(17): the word at a power of a", at(word, power(k)), 0);
}

static void check_bits(void)
{
    uint64_t state = 15;
    for (int j = 0; j <= 50; j++)
        hold("(15) by (14), one message bit", rest((uint64_t)1 << (12 + j), g14) >> 8 & 1, b8((uint64_t)1 << (12 + j)));
    made_frame(0);
    for (int k = 0; k < 48; k++)
        made_frame((uint64_t)1 << k);
    for (int i = 0; i < 2000; i++)
        made_frame(random64(&state) >> 16);
    print_held("published: (15) by (14) on 51 message bits; (15), (14) and the roots a to a^4 on 2,049 made frames");
}

int main(void)
{
    generators();
    shifts();
    check_bits();
    return 0;
}
