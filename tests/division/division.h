// The parts of the independent program: see main.c.
#ifndef DIVISION_H
#define DIVISION_H
#include "../plain.h"

enum { LEADING = 51, CHECK = 12, WORD = LEADING + CHECK, FRAME = WORD + 1, DATA = 48 };

// ---- poly.c: polynomials over two elements

struct poly {
    char of[WORD]; // of[p] is the coefficient of x^p, 0 or 1
};

struct poly power(int p); // x^p
struct poly sum(struct poly a, struct poly b);
struct poly product(struct poly a, struct poly b); // its terms from x^63 on are lost
int degree(struct poly a);                         // -1 of zero
int equal(struct poly a, struct poly b);

extern const struct poly first_factor, second_factor; // of g
struct poly generator(void);                          // g
struct poly generator_at(int p);                      // g times the power of x that brings its highest term to x^p

// ---- line.c: a line, from left to right, which ends with what was put last

int put_text(int column, const char *text); // each answers the column after what was put
int put_decimal(int column, int number);
int put_terms(int column, struct poly a);                    // as x^6 + x + 1
void put_digits(int last, struct poly a, int high, int low); // the coefficients of x^high to x^low, that of x^p in column last - p
void put_hexadecimal(int column, const char bits[FRAME]);    // bits as 0 or 1, the highest first
void print_line(void);

// ---- what is printed

void print_table(const char data[FRAME]); // table.c: the data word's bits, 0 or 1, the highest first; the first 16 are 0
void print_short(struct poly u, int n);   // table.c: u(x) with n coefficients, 1 to 51
void print_factors(void);                 // beside.c
void print_errors(void);                  // beside.c
#endif
