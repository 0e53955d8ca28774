// The long division, and the table of a data word.
#include "division.h"

enum { FIRST = 16 }; // the column of the highest coefficient

// What is left after the step at x^p.
static struct poly print_step(int step, int p, int last, struct poly left)
{
    char leading = left.of[p];
    if (leading == 1) {
        struct poly taken = generator_at(p);
        put_digits(last, taken, p, p - CHECK);
        print_line();
        left = sum(left, taken); // of two elements a difference is a sum
    }
    put_decimal(step < 10 ? 3 : 2, step);
    put_decimal(put_text(7, "x^"), p);
    put_decimal(13, leading);
    put_digits(last, left, p - 1, 0);
    print_line();
    return left;
}

// u(x) x^12 by g, u(x) with n coefficients: the remainder. It is held to what a division owes: the quotient times g and the remainder
// add up to what was divided.
static struct poly print_division(struct poly u, int n)
{
    int highest = n - 1 + CHECK, last = FIRST + highest;
    struct poly whole = product(u, power(CHECK)), left = whole, quotient = {{0}};
    put_text(0, "step  power  a  u(x) x^12, and what is left of it after each step");
    print_line();
    put_digits(last, whole, highest, 0);
    print_line();
    for (int step = 1; step <= n; step++) {
        int p = highest + 1 - step;
        quotient.of[p - CHECK] = left.of[p];
        left = print_step(step, p, last, left);
    }
    if (degree(left) >= CHECK || !equal(whole, sum(product(quotient, generator()), left)))
        fail("this is no division by g");
    put_text(0, "b(x)");
    put_digits(last, left, CHECK - 1, 0);
    print_line();
    return left;
}

void print_short(struct poly u, int n) { print_division(u, n); }

// Positions 0 to 50 as u(x): three times sixteen data bits and the opposite of the last of them. Position 50 is the term without x.
static struct poly leading_part(const char *data)
{
    struct poly u = {{0}};
    int p = LEADING;
    for (int i = 0; i < DATA; i++) {
        u.of[--p] = data[i];
        if (i % 16 == 15)
            u.of[--p] = !data[i];
    }
    return u;
}

static void print_frame(struct poly v)
{
    char frame[FRAME];
    for (int i = 0; i < WORD; i++)
        frame[i] = v.of[62 - i];
    frame[63] = !frame[62];
    put_text(0, "v(x)");
    put_digits(FIRST + 62, v, 62, 0);
    print_line();
    put_text(0, "pad");
    put_decimal(FIRST, frame[63]);
    print_line();
    put_text(0, "frame");
    put_hexadecimal(FIRST, frame);
    print_line();
}

void print_table(const char data[FRAME])
{
    put_text(0, "data");
    put_hexadecimal(FIRST, data);
    print_line();
    struct poly u = leading_part(data + FRAME - DATA), b = print_division(u, LEADING);
    print_frame(sum(product(u, power(CHECK)), b));
}
