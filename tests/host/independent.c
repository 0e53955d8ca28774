// An independent maker and reader of frames and of pairs, written from the paper's page and from the algebra of source 001: the code's
// words are the polynomials that vanish at a and a^3, a a root of x^6 + x + 1 in GF(64). No table of any kind, nothing of the proved
// crates, and no constant of the code but the two factors of g.
#include "independent.h"

enum { PHI1 = 67, PHI3 = 87 }; // (17): x^6 + x + 1 and x^6 + x^4 + x^2 + x + 1, the coefficient of x^k as bit k

// ---- a number's bits, the highest first

static void list_bits(uint64_t number, int bits[64])
{
    for (int i = 63; i >= 0; i--, number /= 2)
        bits[i] = (int)(number % 2);
}

static uint64_t number_of(const int *bits, int n)
{
    uint64_t number = 0;
    for (int i = 0; i < n; i++)
        number = number * 2 + (uint64_t)bits[i];
    return number;
}

// ---- GF(64): a number below 64 is a sum of powers of a below the sixth

static unsigned times_a(unsigned x)
{
    x <<= 1;
    return x & 64 ? x ^ PHI1 : x;
}

static unsigned times(unsigned x, unsigned y)
{
    unsigned sum = 0;
    for (; y; y >>= 1, x = times_a(x))
        if (y & 1)
            sum ^= x;
    return sum;
}

// (23) and (24): x^63 = 1 but for 0, so the inverse is x^62, and 62 = 2 + 4 + 8 + 16 + 32.
static unsigned inverse(unsigned x)
{
    unsigned product = 1;
    for (int i = 0; i < 5; i++) {
        x = times(x, x);
        product = times(product, x);
    }
    return product;
}

// (16): the remainder of the word's first 63 bits by a factor; position 0 is the term of the highest degree, x^62, and goes in first.
static unsigned remainder_by(unsigned phi, const int bits[64])
{
    unsigned b = 0;
    for (int i = 0; i < 63; i++) {
        b = b << 1 | (unsigned)bits[i];
        b ^= b & 64 ? phi : 0;
    }
    return b;
}

// (19): the word at a is its remainder by PHI1 as it stands; at a^3 it is its remainder by PHI3 at a^3, here by Horner's rule.
static unsigned syndrome1(const int bits[64]) { return remainder_by(PHI1, bits); }

static unsigned syndrome3(const int bits[64])
{
    unsigned b = remainder_by(PHI3, bits), sum = 0;
    for (int k = 5; k >= 0; k--)
        sum = times_a(times_a(times_a(sum))) ^ (b >> k & 1);
    return sum;
}

// ---- the reader

// The places of at most two flips that leave a code word, the lower first; -1 where there are none. (22): the locator is
// 1 + s1 X + (s3 / s1 + s1^2) X^2. (25): it is tried at a^i for i = 1 to 63, and a root there is a flip of x^(63 - i), position i - 1.
// As many roots as its degree must be found: a quadratic over GF(64) may have none.
static int locate(unsigned s1, unsigned s3, unsigned place[2])
{
    if (s1 == 0)
        return s3 == 0 ? 0 : -1;
    unsigned first = s1, second = times(s3, inverse(s1)) ^ times(s1, s1);
    int degree = second ? 2 : 1, found = 0;
    for (unsigned position = 0; position < 63 && found < degree; position++) {
        first = times_a(first);
        second = times_a(times_a(second));
        if ((1 ^ first ^ second) == 0)
            place[found++] = position;
    }
    return found == degree ? found : -1;
}

static int is_run_bit(int position) { return position == 16 || position == 33 || position == 50; }

static int is_check_bit(unsigned position) { return position >= 51 && position <= 62; }

static struct reading refused(unsigned number)
{
    struct reading r = {number, 0, {255, 255}, 0, 0};
    return r;
}

struct reading independent_read(uint64_t frame)
{
    int bits[64];
    struct reading r = refused(0);
    list_bits(frame, bits);
    int flips = locate(syndrome1(bits), syndrome3(bits), r.place);
    if (flips < 0)
        return refused(13);
    for (int i = 0; i < flips; i++)
        bits[r.place[i]] ^= 1;
    for (int i = 0; i < 51; i++) {
        if (!is_run_bit(i))
            r.data = r.data * 2 + (uint64_t)bits[i];
        else if (bits[i] == bits[i - 1])
            return refused(14);
    }
    r.verdict = (unsigned)flips;
    for (int i = 0; i < flips; i++)
        r.check_flips += is_check_bit(r.place[i]);
    r.pad_wrong = bits[63] == bits[62];
    return r;
}

// ---- the maker

static unsigned generator(void)
{
    unsigned g = 0;
    for (int k = 0; k < 7; k++)
        if (PHI3 >> k & 1)
            g ^= (unsigned)PHI1 << k;
    return g;
}

// The circuit of 001's Figure 19: the 51 message bits go in, the highest first, and the twelve check bits are left in the register.
static unsigned check_bits(const int bits[51])
{
    unsigned g = generator(), b = 0;
    for (int i = 0; i < 51; i++) {
        unsigned back = (b >> 11 & 1) ^ (unsigned)bits[i];
        b = (b << 1 & 4095) ^ (back ? g & 4095 : 0);
    }
    return b;
}

uint64_t independent_make(uint64_t data)
{
    int bits[51], taken = 0;
    if (data >> 48)
        return 11;
    for (int i = 0; i < 51; i++)
        bits[i] = is_run_bit(i) ? !bits[i - 1] : (int)(data >> (47 - taken++) & 1);
    uint64_t frame = number_of(bits, 51) << 12 | check_bits(bits);
    return frame * 2 + (frame % 2 == 0);
}

uint64_t independent_places(struct reading r)
{
    uint64_t ones = r.pad_wrong ? spot(63) : 0;
    for (int i = 0; i < 2; i++)
        if (r.place[i] < 63)
            ones |= spot((int)r.place[i]);
    return ones;
}

// ---- pairs: the line's 128 bits one by one, A0 B0 A1 B1 and so on

void independent_line(const uint64_t words[2], int line[128])
{
    list_bits(words[0], line);
    list_bits(words[1], line + 64);
}

void independent_join(const uint64_t frames[2], uint64_t words[2])
{
    int a[64], b[64], line[128], sent = 0;
    list_bits(frames[0], a);
    list_bits(frames[1], b);
    for (int i = 0; i < 64; i++) {
        line[sent++] = a[i];
        line[sent++] = b[i];
    }
    words[0] = number_of(line, 64);
    words[1] = number_of(line + 64, 64);
}

void independent_part(const uint64_t words[2], uint64_t frames[2])
{
    int line[128], bits[2][64];
    independent_line(words, line);
    for (int i = 0; i < 128; i++)
        bits[i % 2][i / 2] = line[i];
    frames[0] = number_of(bits[0], 64);
    frames[1] = number_of(bits[1], 64);
}
