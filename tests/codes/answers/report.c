// The counter's report: each of its two numbers is one division, rounded once.
#include "counter.h"

// The bits of the double nearest to n / d, ties to even, by long division. Both are above 0 and below 2^54.
static uint64_t quotient(uint64_t n, uint64_t d)
{
    uint64_t exponent = 1023, q = 1;
    for (; n >= 2 * d; d *= 2)
        exponent++;
    for (; n < d; n *= 2)
        exponent--;
    n -= d;
    for (int i = 0; i < 52; i++) {
        n *= 2;
        q = q * 2 + (n >= d);
        if (n >= d)
            n -= d;
    }
    if (2 * n > d || (2 * n == d && q % 2))
        q++;
    return (exponent << 52) + (q - (1ul << 52));
}

void print_counter(struct counter c)
{
    print(c.pattern);
    print(c.filled);
    print(c.held);
    print(c.bits);
    print(c.errors);
}

void print_report(struct counter c)
{
    if (!in_range(c))
        print_refusal(11);
    else if (!c.bits)
        print_refusal(19);
    else {
        print(c.errors > 0);
        print(c.bits);
        print(c.errors);
        printf("%016lx", quotient(c.errors ? c.errors : 3, c.bits));
    }
}
