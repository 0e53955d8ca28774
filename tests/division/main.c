// An independent long division, written from the paper and the textbook: polynomials are lists of coefficients, g is the product of its
// two factors, and a line is filled column by column. Nothing of the proved crates, and no polynomial in the bits of a number.
//
// usage: independent table DIGITS         what the program division must print of a data word
//        independent short COEFFICIENTS   the division alone, of a u(x) with 1 to 51 coefficients, each 0 or 1, the highest first
//        independent factors              g as the product of its factors, by hand
//        independent errors               what x^62, 1 and their sum leave when divided by g
//        independent random SEED N        N data words by chance, one a line
#include "division.h"

static int digit(char c)
{
    if (c >= '0' && c <= '9')
        return c - '0';
    if (c >= 'A' && c <= 'F')
        return c - 'A' + 10;
    return c >= 'a' && c <= 'f' ? c - 'a' + 10 : -1;
}

static int table(const char *digits)
{
    char bits[FRAME];
    for (int i = 0; i < FRAME; i += 4) {
        int value = digit(*digits++);
        if (value < 0 || (i < FRAME - DATA && value > 0))
            return 2;
        bits[i] = value / 8 == 1;
        bits[i + 1] = value / 4 % 2 == 1;
        bits[i + 2] = value / 2 % 2 == 1;
        bits[i + 3] = value % 2 == 1;
    }
    if (*digits)
        return 2;
    print_table(bits);
    return 0;
}

static int short_word(const char *coefficients)
{
    struct poly u = {{0}};
    int n = 0;
    for (; coefficients[n]; n++) {
        if (n == LEADING || (coefficients[n] != '0' && coefficients[n] != '1'))
            return 2;
        u = product(u, power(1));
        u.of[0] = coefficients[n] == '1';
    }
    if (n == 0)
        return 2;
    print_short(u, n);
    return 0;
}

static void print_random(uint64_t state, uint64_t n)
{
    for (; n > 0; n--) {
        printf("0000");
        for (int i = 0; i < 12; i++)
            putchar("0123456789ABCDEF"[random64(&state) % 16]);
        putchar('\n');
    }
}

int main(int argc, char **argv)
{
    const char *what = argc < 2 ? "" : argv[1];
    if (argc == 3 && !strcmp(what, "table"))
        return table(argv[2]);
    if (argc == 3 && !strcmp(what, "short"))
        return short_word(argv[2]);
    if (argc == 2 && !strcmp(what, "factors"))
        print_factors();
    else if (argc == 2 && !strcmp(what, "errors"))
        print_errors();
    else if (argc == 4 && !strcmp(what, "random"))
        print_random(strtoul(argv[2], NULL, 0), strtoul(argv[3], NULL, 0));
    else
        return 2;
    return 0;
}
