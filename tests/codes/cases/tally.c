#include "lists.h"

static void ask_one(void)
{
    put_lists(1, 1, 1);
    ask_tally();
}

static void ask_checks(void)
{
    for (uint64_t verdict = 0; verdict <= 2; verdict++)
        for (uint64_t checks = 0; checks <= verdict + 1; checks++) {
            ask_byte(0, verdict, 0, checks);
            ask_byte(1, verdict, 1, checks);
        }
}

static void ask_each_verdict(void)
{
    const uint64_t verdicts[] = {0, 1, 2, 13, 14};
    for (int i = 0; i < 5; i++)
        ask_byte(0, verdicts[i], below(2), 0);
}

static void each_byte(void)
{
    const uint64_t verdicts[] = {0, 1, 2, 13, 14, 3, 12, 15, 255}, flags[] = {0, 1, 2, 255};
    for (uint64_t byte = 0; byte < 256; byte++) {
        for (int i = 0; i < 4; i++)
            ask_byte(0, byte, flags[i], 0);
        for (int i = 0; i < 9; i++) {
            ask_byte(0, verdicts[i], byte, 0);
            ask_byte(0, verdicts[i], byte % 2, byte);
            ask_byte(1, verdicts[i], byte % 2, byte);
        }
    }
}

// Every length of three short lists, and a number of flags beyond what is lent.
static void each_length(void)
{
    for (uint64_t n = 0; n <= 3; n++)
        for (uint64_t flags = 0; flags <= 4; flags++)
            for (uint64_t checks = 0; checks <= 4; checks++) {
                put_lists(n, flags, checks);
                ask_tally();
                put_lists(n, flags, checks);
                next.values[FLAGS] = ONE_OF(flags + checks + 1, ~0u);
                ask_tally();
            }
}

// The refusals alone and together: lengths, a state out of range, no verdict, no flag, no number of check flips, no room.
static void each_refusal(uint64_t flags, uint64_t checks)
{
    const uint64_t half = MOST / 2, states[][FLAGS] = {
        {1, 2, 3, 4, 5, 6, 8, 2, 7},
        {MOST - 14, 2, 3, 4, 5, 0, 8, 9, 9}, // full of frames
        {1, 0, half + 1, 0, 0, 0, MOST},     // of check flips
        {0, MOST, 0, 0, 0, 0, MOST},         // of both
        {MOST - 14, 2, 3, 4, 6, 0, 0},       // out of range
        {1, 2, 3, MOST - 6, 0, 7, 0},
        {1, 2, 3, 4, 5, 6, 9},
        {1, 0, half + 1, 0, 0, 0, MOST + 1},
        {1, 2, 3, 4, 5, 6, 8, 8, 7},
        {1, 2, 3, 4, 5, 6, 8, 0, 10},
        {MOST - 14, 2, 3, 4, 5, 0, 8, 1, 0}, // and full
        {MOST - 14, 2, 3, 4, 5, 0, 8, 10, 10},
        {0, MOST, 0, 0, 0, 0, MOST, 0, 1},
    };
    for (size_t i = 0; i < sizeof states / sizeof states[0]; i++)
        for (int wrong = 0; wrong < 4; wrong++) {
            const uint64_t n = 3, *s = states[i], verdicts[] = {2, 1, 13}, check_flips[] = {2, 1, 0, 0};
            VALUES_OF(s[0], s[1], s[2], s[3], s[4], s[5], s[6], s[7], s[8]);
            put_lists(n, flags, checks);
            for (uint64_t k = 0; k < n; k++)
                next.list[k] = (uint8_t)verdicts[k];
            for (uint64_t k = 0; k < checks; k++)
                next.list[n + flags + k] = (uint8_t)check_flips[k];
            if (wrong) // the first bytes of each list that are there whatever the lengths
                next.list[wrong == 1 ? below(3) : (wrong == 2 ? n : n + flags) + below(2)] = 3;
            ask_tally();
        }
}

// Lists as long as a case can bring, all with two check flips, and room for them or for one less.
static void long_lists(void)
{
    const uint64_t n = LONGEST / 3;
    memset(next.list, 2, 3 * n);
    memset(next.list + n, 1, n);
    next.size = 3 * n;
    for (uint64_t frames = 0; frames < 2; frames++)
        for (uint64_t checks = 0; checks < 2; checks++) {
            next.extra = 3 * n - next.size; // what the first of them brought
            next.split = n + 1;
            VALUES_OF(0, 0, MOST - n + frames, 0, 0, 0, MOST - 2 * n + checks);
            next.values[FLAGS] = n;
            ask_tally();
        }
}

// As long, and all refused but for one at most; room for them or for one less. All that was refused before is one stretch, which goes on.
static void long_stretches(void)
{
    const uint64_t n = LONGEST / 3, accepted[] = {0, n / 2, n - 1, n}; // n: none
    for (int i = 0; i < 4; i++)
        for (uint64_t full = 0; full < 2; full++) {
            const uint64_t before = MOST - n + full;
            memset(next.list, 0, 3 * n);
            memset(next.list, 13, n);
            next.list[accepted[i]] = 0;
            next.size = 3 * n;
            next.split = n + 1;
            VALUES_OF(0, 0, 0, 0, before, 0, 0, before, before, n);
            ask_tally();
        }
}

// Every order of eight accepted and refused frames, to a fresh tally: counts.txt says how many have how long a stretch.
static void each_eight(void)
{
    VALUES_OF(0);
    for (uint64_t shape = 0; shape < 256; shape++) {
        for (int i = 0; i < 8; i++)
            put(some_verdict(shape >> i & 1));
        put_rest(8, 8);
        add(TALLY, "tally eights");
    }
}

// At each place of each list what is no verdict, no flag or no number of check flips.
static void ask_unknown(const uint8_t *verdicts, uint64_t n)
{
    for (uint64_t i = 0; i < 3 * n; i++) {
        put_verdicts(verdicts, n);
        next.list[i] = (uint8_t)ONE_OF(3, 12, 15, 255);
        ask_tally();
    }
}

static void some_lists(void)
{
    uint64_t n = below(one_in(4) ? 200 : 6), flags = one_in(16) ? below(6) : n, checks = one_in(16) ? below(6) : n;
    some_state(n);
    put_lists(n, flags, checks);
    if (n && one_in(8)) {
        uint8_t *byte = next.list + below(next.size);
        *byte = (uint8_t)any();
    }
    ask_tally();
}

void tally_cases(void)
{
    seed(5);
    each_limit(ask_tally);
    each_limit(ask_one);
    each_check_limit(ask_tally);
    each_check_limit(ask_checks);
    each_stretch_limit(ask_tally);
    each_stretch_limit(ask_each_verdict);
    VALUES_OF(0);
    each_byte();
    each_length();
    VALUES_OF(0, 0, 0, 4, 3, 0, 0, 2, 3);
    each_byte();
    each_shape(7, ask_verdicts);
    each_shape(4, ask_unknown);
    each_order(ask_verdicts);
    each_eight();
    for (uint64_t flags = 2; flags <= 4; flags++)
        for (uint64_t checks = 2; checks <= 4; checks++)
            each_refusal(flags, checks);
    long_lists();
    long_stretches();
    for (int i = 0; i < 4000; i++)
        some_lists();
}
