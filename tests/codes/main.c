// A second answer to the cases of crates/cases. It is written from the paper: every lawful block is tried, bits stand in arrays one by
// one, and nothing is taken from the proved crates.
//
// usage: independent answers              answers the cases on standard input, a line each
//        independent cases GROUP          writes cases, as cases/cases.c has them
#include "codes.h"

int main(int argc, char **argv)
{
    if (argc == 2 && !strcmp(argv[1], "answers"))
        return answers();
    if (argc == 3 && !strcmp(argv[1], "cases"))
        return cases(argv[2]);
    return 2;
}
