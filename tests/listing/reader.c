#include "count.h"

// ---- GF(64) by x^6 + x + 1: powers of a root of it

static int power[63], place_of[64];

void field(void)
{
    int x = 1;
    for (int i = 0; i < 63; i++) {
        power[i] = x;
        place_of[x] = i;
        x <<= 1;
        if (x & 64)
            x ^= 67;
    }
}

static int times(int a, int b) { return a && b ? power[(place_of[a] + place_of[b]) % 63] : 0; }

static int over(int a, int b) { return a ? power[(place_of[a] + 63 - place_of[b]) % 63] : 0; }

// the word's polynomial at the k-th power of the root
static int at(const int bits[63], int k)
{
    int sum = 0;
    for (int i = 0; i < 63; i++)
        if (bits[i])
            sum ^= power[(62 - i) * k % 63];
    return sum;
}

// ---- the frame

// The places of at most two flips that leave a code word; -1 where there are none.
static int solve(int s1, int s3, int place[2])
{
    if (s1 == 0)
        return s3 == 0 ? 0 : -1;
    int cube = times(s1, times(s1, s1));
    int found = 0;
    if (s3 == cube) {
        place[0] = 62 - place_of[s1];
        return 1;
    }
    int product = over(s3 ^ cube, s1);
    for (int i = 0; i < 63; i++) {
        int x = power[62 - i];
        if ((times(x, x) ^ times(s1, x) ^ product) == 0) {
            if (found == 2)
                return -1;
            place[found++] = i;
        }
    }
    return found == 2 ? 2 : -1;
}

static int is_check_bit(int position) { return position >= 51 && position <= 62; }

int one_frame(const uint8_t bytes[8], struct figures *f)
{
    int bits[64], place[2];
    for (int i = 0; i < 64; i++)
        bits[i] = bytes[i / 8] >> (7 - i % 8) & 1;
    f->frames++;
    int flips = solve(at(bits, 1), at(bits, 3), place);
    if (flips < 0) {
        f->verdict[13]++;
        return 1;
    }
    for (int i = 0; i < flips; i++)
        bits[place[i]] ^= 1;
    if (bits[16] == bits[15] || bits[33] == bits[32] || bits[50] == bits[49]) {
        f->verdict[14]++;
        return 1;
    }
    f->verdict[flips]++;
    for (int i = 0; i < flips; i++)
        f->check_flips += is_check_bit(place[i]);
    if (bits[63] == bits[62])
        f->pad_wrong++;
    return 0;
}
