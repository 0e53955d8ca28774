// The tally, and the lane that feeds it: sums are taken with their carries, so that none wraps, and stretches by looking back from each
// place of the verdict list.
#include "../../listing/count.h"
#include "../tally.h"
#include "answers.h"

// The sum of n counts, or MOST + 1 where it is above MOST.
static uint64_t capped_sum(const uint64_t *counts, int n)
{
    uint64_t sum = 0;
    for (int i = 0; i < n; i++) {
        if (counts[i] > MOST - sum)
            return MOST + 1;
        sum += counts[i];
    }
    return sum;
}

static int handed_in_range(void)
{
    const uint64_t by_flip[] = {values[ONE], values[TWO], values[TWO]};
    if (capped_sum(values, VERDICTS) > MOST || values[CHECK_FLIPS] > MOST)
        return 0;
    if (values[CURRENT] > values[LONGEST_GAP] || values[LONGEST_GAP] > capped_sum(values + NO_WORD, 2))
        return 0;
    return values[PAD_WRONG] <= capped_sum(values, ACCEPTED) && values[CHECK_FLIPS] <= capped_sum(by_flip, 3);
}

// Which count a verdict byte belongs to; -1 where it is none.
static int count_of(uint8_t verdict)
{
    switch (verdict) {
    case 0: return CLEAN;
    case 1: return ONE;
    case 2: return TWO;
    case 13: return NO_WORD;
    case 14: return RUN_BROKEN;
    default: return -1;
    }
}

static int is_refused(uint8_t verdict) { return verdict == 13 || verdict == 14; }

// How many refused frames in a row end where n verdicts of the list are past; where those are all refused, the ones before the list too.
static uint64_t stretch(const uint8_t *verdicts, uint64_t n)
{
    uint64_t length = 0;
    while (length < n && is_refused(verdicts[n - 1 - length]))
        length++;
    return length < n ? length : values[CURRENT] + length;
}

static uint64_t longest_stretch(const uint8_t *verdicts, uint64_t n)
{
    uint64_t longest = values[LONGEST_GAP];
    for (uint64_t past = 1; past <= n; past++) {
        const uint64_t here = stretch(verdicts, past);
        longest = here > longest ? here : longest;
    }
    return longest;
}

// Prints the tally with the n verdicts and what they add, or 20 where there is no room for them.
static int print_sum(const uint64_t more[TOTALS], const uint8_t *verdicts, uint64_t n)
{
    if (n > MOST - capped_sum(values, VERDICTS) || more[CHECK_FLIPS] > MOST - values[CHECK_FLIPS]) {
        print_refusal(20);
        return 0;
    }
    for (int i = 0; i < TOTALS; i++)
        print(values[i] + more[i]);
    print(stretch(verdicts, n));
    print(longest_stretch(verdicts, n));
    return 1;
}

// Counts a verdict, its pad flag and its check flips; 0 where one of them is none.
static int counted(uint64_t more[TOTALS], uint8_t verdict, uint64_t flag, uint64_t checks)
{
    int k = count_of(verdict), flips = k == ONE ? 1 : k == TWO ? 2 : 0;
    if (k < 0 || flag > 1 || checks > (uint64_t)flips)
        return 0;
    more[k]++;
    more[PAD_WRONG] += k < ACCEPTED && flag;
    more[CHECK_FLIPS] += checks;
    return 1;
}

void tally_add(void)
{
    uint64_t more[TOTALS] = {0}, n = first.size, flags = held(FLAGS, second.size);
    const uint8_t *checks = second.bytes + flags;
    int refusal = n != flags || n != second.size - flags ? 12 : handed_in_range() ? 0 : 11;
    for (uint64_t i = 0; !refusal && i < n; i++)
        if (!counted(more, first.bytes[i], second.bytes[i], checks[i]))
            refusal = 11;
    if (refusal)
        print_refusal(refusal);
    else
        print_sum(more, first.bytes, n);
}

// The verdict of a frame, counted.
static uint8_t verdict_of(uint64_t more[TOTALS], const uint8_t frame[8])
{
    struct figures f = {0};
    uint8_t verdict = 0;
    one_frame(frame, &f);
    while (!f.verdict[verdict])
        verdict++;
    if (!counted(more, verdict, f.pad_wrong, f.check_flips))
        fail("a frame with verdict %d and %llu check flips", verdict, (shown)f.check_flips);
    return verdict;
}

void lane_count(void)
{
    static uint8_t verdicts[LONGEST / 8];
    uint64_t more[TOTALS] = {0}, frames = first.size / 8;
    if (first.size > LONGEST || !handed_in_range()) {
        print_refusal(first.size > LONGEST ? 12 : 11);
        return;
    }
    field();
    for (uint64_t i = 0; i < frames; i++)
        verdicts[i] = verdict_of(more, first.bytes + 8 * i);
    if (print_sum(more, verdicts, frames)) {
        print(capped_sum(values, VERDICTS) + frames);
        print(first.size % 8);
    }
}
