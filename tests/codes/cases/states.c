#include "states.h"

static const uint64_t limits[] = {0, 1, MOST - 1, MOST, MOST + 1, 1ul << 63, ~0ul};

// Mostly no more than a limit.
static uint64_t about(uint64_t limit) { return one_in(6) ? ONE_OF(limit + 1, limit - 1, MOST, any()) : ONE_OF(0, limit, limit, limit / 2); }

// Five counts that sum up to a number, about as often wrapping on the way as not; the others about their limits.
static void state_of_sum(uint64_t sum)
{
    int wraps = one_in(3);
    uint64_t *v = next.values;
    for (int i = 0; i < VERDICTS; i++) {
        uint64_t part = i == VERDICTS - 1 ? sum : wraps || !(sum + 1) ? any() : one_in(3) ? 0 : below(sum + 1);
        v[i] = part;
        sum -= part;
    }
    for (int i = VERDICTS - 1; i > 0; i--) {
        uint64_t j = below((uint64_t)i + 1), kept = v[i];
        v[i] = v[j];
        v[j] = kept;
    }
    uint64_t flips = v[ONE] + 2 * v[TWO];
    v[PAD_WRONG] = about(v[CLEAN] + v[ONE] + v[TWO]);
    v[CHECK_FLIPS] = about(flips < MOST ? flips : MOST);
    v[LONGEST_GAP] = about(v[NO_WORD] + v[RUN_BROKEN]);
    v[CURRENT] = about(v[LONGEST_GAP]);
}

void some_state(uint64_t frames)
{
    switch (below(4)) {
    case 0: state_of_sum(below(100)); break;
    case 1: state_of_sum(MOST - frames + below(5) - 2); break;
    case 2: state_of_sum(ONE_OF(0, MOST, MOST + 1, 1ul << 63, ~0ul)); break;
    default: state_of_sum(below(MOST)); break;
    }
}

// Each count at each limit alone, and at 2^63 or above beside another, so that the sum wraps; the pad-wrong ones about the accepted.
void each_limit(void (*ask)(void))
{
    for (int i = 0; i < VERDICTS; i++)
        for (int j = 0; j < VERDICTS; j++)
            for (size_t k = 0; k < sizeof limits / sizeof limits[0]; k++)
                for (int past = -1; past <= 1; past++) {
                    VALUES_OF(0);
                    next.values[i] = limits[k];
                    next.values[j] += i == j ? 0 : past ? 1 : -limits[k];
                    next.values[PAD_WRONG] = next.values[CLEAN] + next.values[ONE] + next.values[TWO] + (uint64_t)past;
                    ask();
                }
}

// Check flips about the flips undone, and about the most; the flips few, about the most, about twice it, and so many that they wrap.
void each_check_limit(void (*ask)(void))
{
    const uint64_t half = MOST / 2, top = 1ul << 63;
    const uint64_t by_flips[][2] = {{0, 0},    {1, 0},    {0, 1},        {3, 5},           {MOST, 0},   {0, MOST}, {MOST - 1, 1},
                                    {0, half}, {1, half}, {0, half + 1}, {half, half + 1}, {0, top / 2}, {0, top},  {1, top},
                                    {top, 0},  {0, ~0ul}, {~0ul, 0},     {~0ul, 1},        {top, top / 2}};
    for (size_t i = 0; i < sizeof by_flips / sizeof by_flips[0]; i++) {
        const uint64_t one = by_flips[i][0], two = by_flips[i][1], all = one + 2 * two;
        const uint64_t checks[] = {0, all - 1, all, all + 1, MOST - 2, MOST - 1, MOST, MOST + 1, top, ~0ul};
        for (size_t k = 0; k < sizeof checks / sizeof checks[0]; k++) {
            VALUES_OF(0, one, two, 0, 0, 0, checks[k]);
            ask();
        }
    }
}

// The longest stretch about the refused frames, and the current one about it; the refused few, as many as there is room for, one more,
// and so many that they wrap, beside accepted ones or alone.
void each_stretch_limit(void (*ask)(void))
{
    const uint64_t half = MOST / 2, top = 1ul << 63;
    const uint64_t frames[][3] = { // accepted, no word, run broken
        {0, 0, 0}, {9, 0, 0}, {MOST, 0, 0}, {0, 1, 0}, {0, 0, 1}, {9, 3, 5},
        {MOST - 9, 3, 5}, {MOST - 8, 3, 5}, {MOST - 7, 3, 5}, {0, MOST, 0}, {0, 0, MOST}, {1, MOST - 1, 0}, {0, 0, MOST - 1},
        {0, half, half}, {0, half, half + 1}, {1, half, half + 1}, {0, half + 1, half + 1},
        {0, top, 0}, {0, 0, top}, {0, top, top}, {0, ~0ul, 1}, {0, 9, ~0ul}, {9, ~0ul, ~0ul},
    };
    for (size_t i = 0; i < sizeof frames / sizeof frames[0]; i++) {
        const uint64_t *f = frames[i], refused = f[1] + f[2];
        const uint64_t longest[] = {0, 1, refused - 1, refused, refused + 1, MOST, MOST + 1, top, ~0ul};
        for (size_t j = 0; j < sizeof longest / sizeof longest[0]; j++) {
            const uint64_t l = longest[j], current[] = {0, 1, l - 1, l, l + 1, refused, MOST, top, ~0ul};
            for (size_t k = 0; k < sizeof current / sizeof current[0]; k++) {
                VALUES_OF(f[0], 0, 0, f[1], f[2], 0, 0, current[k], l);
                ask();
            }
        }
    }
}

// ---- lists of verdicts

uint8_t some_verdict(int refused) { return (uint8_t)(refused ? ONE_OF(13, 14) : below(3)); }

// In stretches, short or long: once in so often it is drawn anew whether a frame is refused.
void some_verdicts(uint8_t *verdicts, uint64_t n)
{
    const uint64_t often = ONE_OF(1, 1, 3, 40);
    int refused = one_in(2);
    for (uint64_t i = 0; i < n; i++) {
        if (one_in(often))
            refused = one_in(3);
        verdicts[i] = some_verdict(refused);
    }
}

// After 21 refused frames, the stretches of each kind: none, ended, as long as the longest, shorter, as long as it can be.
static void each_stretch(const uint8_t *verdicts, uint64_t n, ask_list ask)
{
    const uint64_t stretches[][2] = {{0, 0}, {0, 1}, {1, 1}, {0, 3}, {2, 3}, {3, 3}, {18, 20}, {21, 21}};
    for (size_t i = 0; i < sizeof stretches / sizeof stretches[0]; i++) {
        VALUES_OF(3, 2, 1, 15, 6, 4, 2, stretches[i][0], stretches[i][1]);
        ask(verdicts, n);
    }
}

// Every order of accepted and refused ones.
void each_shape(uint64_t most, ask_list ask)
{
    uint8_t verdicts[16];
    for (uint64_t n = 0; n <= most; n++)
        for (uint64_t shape = 0; shape < 1ul << n; shape++) {
            for (uint64_t i = 0; i < n; i++)
                verdicts[i] = some_verdict(shape >> i & 1);
            each_stretch(verdicts, n, ask);
        }
}

// Every verdict alone, behind every other, and behind every two.
void each_order(ask_list ask)
{
    const uint8_t all[] = {0, 1, 2, 13, 14};
    for (int i = 0; i < 125; i++) {
        const uint8_t three[] = {all[i / 25], all[i / 5 % 5], all[i % 5]};
        each_stretch(three, 3, ask);
        if (i < 25)
            each_stretch(three + 1, 2, ask);
        if (i < 5)
            each_stretch(three + 2, 1, ask);
    }
}
