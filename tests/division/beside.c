// What goes beside the tables: the product that g is, and what errors leave.
#include "division.h"

// The coefficients from the highest to that of x^low, and a text beside them.
static void print_row(struct poly a, int low, const char *text, struct poly named)
{
    put_digits(14, a, degree(a), low);
    put_terms(put_text(19, text), named);
    print_line();
}

void print_factors(void)
{
    struct poly above = second_factor, below = first_factor, all = {{0}};
    print_row(above, 0, "", above);
    print_row(below, 0, "", below);
    for (int p = 0; p <= degree(below); p++)
        if (below.of[p] == 1) {
            struct poly row = product(above, power(p));
            print_row(row, p, "times ", power(p));
            all = sum(all, row);
        }
    print_row(all, 0, "", all);
}

static struct poly left_by(struct poly error)
{
    while (degree(error) >= CHECK)
        error = sum(error, generator_at(degree(error)));
    return error;
}

static void print_error(struct poly error)
{
    put_text(0, "e(x) = ");
    put_terms(7, error);
    put_text(17, "s(x) = ");
    put_digits(35, left_by(error), CHECK - 1, 0);
    print_line();
}

void print_errors(void)
{
    print_error(power(62));
    print_error(power(0));
    print_error(sum(power(62), power(0)));
}
