// Prints what the shared library or dynamic program on standard input, 64-bit ELF, says to the loader: its own name, what it needs and
// which names it shows, a line each.
#include "../plain.h"

enum { MOST = 1 << 20, SECTION = 64, SYMBOL = 24, ENTRY = 16 };
enum { DYNAMIC = 6, SYMBOLS = 11 }; // kinds of sections
enum { NEEDED = 1, NAME = 14 };     // tags of entries of the dynamic section

static uint8_t file[MOST];

static uint64_t field(uint64_t place, int bytes)
{
    uint64_t number = 0;
    if (place > MOST - 8)
        fail("names: the file points outside itself");
    while (bytes-- > 0)
        number = number << 8 | file[place + (uint64_t)bytes];
    return number;
}

static uint64_t section(uint64_t i) { return field(40, 8) + i * SECTION; }
static uint64_t start_of(uint64_t s) { return field(s + 24, 8); }
static uint64_t end_of(uint64_t s) { return start_of(s) + field(s + 32, 8); }
static const char *text_of(uint64_t s, uint64_t i) { return (const char *)file + start_of(section(field(s + 40, 4))) + i; }

static void print_symbols(uint64_t s)
{
    for (uint64_t at = start_of(s) + SYMBOL; at < end_of(s); at += SYMBOL)
        if (field(at + 6, 2) != 0) // it stands in a section of this file
            printf("shows %s\n", text_of(s, field(at, 4)));
}

static void print_entries(uint64_t s)
{
    for (uint64_t at = start_of(s); at < end_of(s); at += ENTRY) {
        if (field(at, 8) == NEEDED)
            printf("needs %s\n", text_of(s, field(at + 8, 8)));
        if (field(at, 8) == NAME)
            printf("is %s\n", text_of(s, field(at + 8, 8)));
    }
}

int main(void)
{
    size_t have = 0;
    for (long got; (got = read(0, file + have, MOST - 1 - have)) > 0; have += (size_t)got)
        ;
    if (have == 0 || have == MOST - 1 || field(0, 4) != 0x464c457f)
        fail("names: no whole ELF file on standard input");
    for (uint64_t i = 0; i < field(60, 2); i++) {
        if (field(section(i) + 4, 4) == SYMBOLS)
            print_symbols(section(i));
        if (field(section(i) + 4, 4) == DYNAMIC)
            print_entries(section(i));
    }
    return 0;
}
