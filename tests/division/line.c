// The line that is being made.
#include "division.h"

static char line[79];
static int end;

static void put(int column, char c)
{
    if (column < end || column >= (int)sizeof line)
        fail("nothing can be put in column %d", column);
    while (end < column)
        line[end++] = ' ';
    line[end++] = c;
}

int put_text(int column, const char *text)
{
    while (*text)
        put(column++, *text++);
    return column;
}

int put_decimal(int column, int number)
{
    if (number >= 10)
        column = put_decimal(column, number / 10);
    put(column, (char)('0' + number % 10));
    return column + 1;
}

int put_terms(int column, struct poly a)
{
    for (int p = degree(a); p >= 0; p--) {
        if (a.of[p] == 0)
            continue;
        if (p < degree(a))
            column = put_text(column, " + ");
        column = put_text(column, p == 0 ? "1" : "x");
        if (p > 1)
            column = put_decimal(put_text(column, "^"), p);
    }
    return column;
}

void put_digits(int last, struct poly a, int high, int low)
{
    for (int p = high; p >= low; p--)
        put(last - p, a.of[p] ? '1' : '0');
}

void put_hexadecimal(int column, const char bits[FRAME])
{
    for (int i = 0; i < FRAME; i += 4)
        put(column++, "0123456789ABCDEF"[8 * bits[i] + 4 * bits[i + 1] + 2 * bits[i + 2] + bits[i + 3]]);
}

void print_line(void)
{
    printf("%.*s\n", end, line);
    end = 0;
}
