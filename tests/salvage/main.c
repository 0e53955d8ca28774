// An independent salvage of captures, and makers of captures for it. It is written from the paper, and its frames are read and made by
// tests/host/independent.c: nothing of the proved crates.
//
// usage: independent expected <IN 3>OUT             prints the account; ends with 0, or with the refusal's number and nothing written
//        independent bent MOST SEED FRAMES NOTES    lawful frames with at most MOST flips, by chance, and pads turned; of MOST 0 neither.
//                                                   The same seed has the same frames for each MOST
//        independent patterns MOST SEED             one frame with every pattern of none, one and two flips, its pad right, then wrong
//        independent triples FROM SEED              one frame with each three flips, from one of them on, as many as a capture takes
//        independent single SEED FRAMES             lawful frames, each with one of its 64 bits turned
//        independent still BYTE FRAMES
//        independent noise SEED FRAMES NOTES        bytes by chance as frames
//        independent decoys SEED                    a trailer's bytes among the frames; frames and a trailer among the notes
//        independent labelled TAG AHEAD COUNT DISTANCE   any bytes and a trailer that says so
#include "salvage.h"

static uint64_t value(char **argv, int i) { return strtoul(argv[i], NULL, 0); }

int main(int argc, char **argv)
{
    const char *what = argc < 2 ? "" : argv[1];
    if (argc == 2 && !strcmp(what, "expected"))
        return expected();
    if (argc == 6 && !strcmp(what, "bent"))
        return bent((int)value(argv, 2), value(argv, 3), value(argv, 4), value(argv, 5));
    if (argc == 4 && !strcmp(what, "patterns"))
        return patterns((int)value(argv, 2), value(argv, 3));
    if (argc == 4 && !strcmp(what, "triples"))
        return triples(value(argv, 2), value(argv, 3));
    if (argc == 4 && !strcmp(what, "single"))
        return single(value(argv, 2), value(argv, 3));
    if (argc == 4 && !strcmp(what, "still"))
        return still((int)value(argv, 2), value(argv, 3));
    if (argc == 5 && !strcmp(what, "noise"))
        return noise(value(argv, 2), value(argv, 3), value(argv, 4));
    if (argc == 3 && !strcmp(what, "decoys"))
        return decoys(value(argv, 2));
    if (argc == 6 && !strcmp(what, "labelled"))
        return labelled(value(argv, 2), value(argv, 3), value(argv, 4), value(argv, 5));
    return 2;
}
