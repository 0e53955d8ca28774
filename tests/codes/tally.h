// A tally's counts, in the order in which a case has them, and the value behind them.
#ifndef TALLY_H
#define TALLY_H

enum { CLEAN, ONE, TWO, NO_WORD, RUN_BROKEN, PAD_WRONG, CHECK_FLIPS, CURRENT, LONGEST_GAP, FLAGS }; // FLAGS: bytes that are pad flags
enum { ACCEPTED = NO_WORD, VERDICTS = PAD_WRONG, TOTALS = CURRENT }; // how many of them count accepted frames; frames; anything

#endif
