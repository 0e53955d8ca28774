// Polynomials over two elements, a coefficient at a time.
#include "division.h"

const struct poly first_factor = {{[6] = 1, [1] = 1, [0] = 1}};
const struct poly second_factor = {{[6] = 1, [4] = 1, [2] = 1, [1] = 1, [0] = 1}};

struct poly power(int p)
{
    struct poly a = {{0}};
    a.of[p] = 1;
    return a;
}

struct poly sum(struct poly a, struct poly b)
{
    for (int p = 0; p < WORD; p++)
        a.of[p] = (a.of[p] + b.of[p]) % 2;
    return a;
}

struct poly product(struct poly a, struct poly b)
{
    struct poly c = {{0}};
    for (int p = 0; p < WORD; p++)
        for (int q = 0; p + q < WORD; q++)
            c.of[p + q] = (c.of[p + q] + a.of[p] * b.of[q]) % 2;
    return c;
}

int degree(struct poly a)
{
    int p = WORD - 1;
    while (p >= 0 && a.of[p] == 0)
        p--;
    return p;
}

int equal(struct poly a, struct poly b) { return !memcmp(a.of, b.of, sizeof a.of); }

struct poly generator(void) { return product(first_factor, second_factor); }

struct poly generator_at(int p)
{
    struct poly g = generator();
    return product(g, power(p - degree(g)));
}
