// Polynomials over two elements as numbers, the coefficient of x^k as bit k, and comparisons that are counted.
#ifndef POLYNOMIALS_H
#define POLYNOMIALS_H
#include "../plain.h"
#include "../../include/lakshrumov.h"

static const uint64_t g14 = 1 << 12 | 1 << 10 | 1 << 8 | 1 << 5 | 1 << 4 | 1 << 3 | 1; // (14)
static const uint64_t phi1 = 1 | 1 << 1 | 1 << 6;                                    // (17)
static const uint64_t phi3 = 1 | 1 << 1 | 1 << 2 | 1 << 4 | 1 << 6;

static unsigned long held; // since the last line printed

static inline void hold(const char *what, uint64_t got, uint64_t want)
{
    held++;
    if (got != want)
        fail("%s: %llx and not %llx", what, (shown)got, (shown)want);
}

static inline void print_held(const char *what)
{
    printf("%s: %lu comparisons\n", what, held);
    held = 0;
}

static inline uint64_t rest(uint64_t a, uint64_t b)
{
    int top = 63;
    while (!(b >> top & 1))
        top--;
    for (int k = 63; k >= top; k--)
        if (a >> k & 1)
            a ^= b << (k - top);
    return a;
}

static inline uint64_t product(uint64_t a, uint64_t b)
{
    uint64_t sum = 0;
    for (int k = 0; k < 32; k++)
        if (b >> k & 1)
            sum ^= a << k;
    return sum;
}

// A polynomial at a field element: GF(64) is the remainders by phi1, and x is its primitive element.
static inline uint64_t at(uint64_t polynomial, uint64_t element)
{
    uint64_t sum = 0;
    for (int k = 63; k >= 0; k--)
        sum = rest(product(sum, element), phi1) ^ (polynomial >> k & 1);
    return sum;
}

static inline uint64_t power(int k) { return at((uint64_t)1 << k, 2); }

// The verdict of one frame: 0 to 2, 13 or 14.
static inline uint64_t verdict(uint64_t frame)
{
    uint8_t answer[LKS_ANSWER_BYTES];
    uint64_t refusal = lks_frame_read(frame, answer, sizeof answer);
    return refusal ? refusal : answer[8];
}
#endif
