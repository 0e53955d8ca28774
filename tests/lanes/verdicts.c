// Counts the capture on standard input through the C archive and prints the ten lines of the listing. The list call answers no pad
// flags, so each frame that it accepts is read once more by itself, and must have the same flips, check flips and data there.
#include "../figures.h"
#include "../../include/lakshrumov.h"

enum { MOST = 1 << 20 };

static uint8_t capture[MOST], data[MOST], verdicts[MOST / 8], checks[MOST / 8];

static size_t read_capture(void)
{
    size_t have = 0;
    for (long got; (got = read(0, capture + have, MOST - have)) != 0; have += (size_t)got)
        if (got < 0)
            fail("verdicts: the capture cannot be read");
    if (have == MOST)
        fail("verdicts: the capture is too long");
    return have;
}

static uint64_t pad_wrong(size_t i)
{
    uint8_t answer[LKS_ANSWER_BYTES];
    uint64_t refusal = lks_frame_read(number_at(capture + 8 * i), answer, sizeof answer);
    if (refusal != 0 || answer[8] != verdicts[i] || answer[12] != checks[i] || memcmp(answer, data + 8 * i, 8) != 0)
        fail("verdicts: frame %llu is read another way by itself", (shown)i);
    return answer[11];
}

// The most frames that follow one another without one that is read.
static uint64_t longest_gap(size_t frames)
{
    size_t longest = 0, from = 0; // from: behind the last frame that is read
    for (size_t i = 0; i < frames; i++)
        if (verdicts[i] <= 2)
            from = i + 1;
        else if (longest < i + 1 - from)
            longest = i + 1 - from;
    return longest;
}

int main(void)
{
    size_t have = read_capture(), left_over = have % 8;
    struct figures f = {have / 8, {0}, 0, 0};
    if (lks_frames_read(capture, have - left_over, data, have - left_over, verdicts, have / 8, checks, have / 8) != 0)
        fail("verdicts: the list is refused");
    for (size_t i = 0; i < have / 8; i++) {
        f.verdict[verdicts[i]]++;
        f.check_flips += checks[i];
        if (verdicts[i] <= 2)
            f.pad_wrong += pad_wrong(i);
    }
    print_listing(&f, left_over, longest_gap(f.frames));
    return 0;
}
