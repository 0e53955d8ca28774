#include "lists.h"

void ask_tally(void) { add(TALLY, "tally add"); }

static uint64_t most_checks(uint8_t verdict) { return verdict <= 2 ? verdict : 0; }

void put_rest(uint64_t flags, uint64_t checks)
{
    const uint64_t n = next.size;
    split();
    for (uint64_t i = 0; i < flags; i++)
        put(below(2));
    for (uint64_t i = 0; i < checks; i++)
        put(i < n ? below(most_checks(next.list[i]) + 1) : 0);
    next.values[FLAGS] = flags;
}

// Lists of these lengths: verdicts, flags, check flips.
void put_lists(uint64_t n, uint64_t flags, uint64_t checks)
{
    some_verdicts(next.list, n);
    next.size = n;
    put_rest(flags, checks);
}

void put_verdicts(const uint8_t *verdicts, uint64_t n)
{
    memcpy(next.list, verdicts, n);
    next.size = n;
    put_rest(n, n);
}

void ask_verdicts(const uint8_t *verdicts, uint64_t n)
{
    put_verdicts(verdicts, n);
    ask_tally();
}

// A verdict by itself, or behind one with two flips and one check flip.
void ask_byte(int behind, uint64_t verdict, uint64_t flag, uint64_t checks)
{
    const uint64_t three[] = {verdict, flag, checks};
    for (int i = 0; i < 3; i++) {
        if (behind)
            put(i == 0 ? 2 : i == 2);
        put(three[i]);
        if (i == 0)
            split();
    }
    next.values[FLAGS] = behind ? 2 : 1;
    ask_tally();
}
