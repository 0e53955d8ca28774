// The two sides of the comparison. A frame goes through lks_frame_read and, with its block, through lks_frames_read; a data word
// through lks_frame_make and lks_frames_make. The first difference ends the program.
#include "both.h"
#include "../../include/lakshrumov.h"
#include "../figures.h"

#define GUARD 24
#define BLANK 0xEE

int alone;
static struct figures figures;

void same(const char *what, uint64_t of, uint64_t archive, uint64_t second)
{
    if (archive != second)
        fail("%s of %016llx: archive %llx, independent %llx", what, (shown)of, (shown)archive, (shown)second);
}

static void untouched(const char *what, const uint8_t *bytes, size_t n)
{
    for (size_t i = 0; i < n; i++)
        if (bytes[i] != BLANK)
            fail("%s: a byte is written that must not be", what);
}

static struct reading archive_read(uint64_t frame)
{
    uint8_t answer[LKS_ANSWER_BYTES];
    struct reading r = {0, 0, {LKS_NO_PLACE, LKS_NO_PLACE}, 0, 0};
    memset(answer, BLANK, sizeof answer);
    uint64_t refusal = lks_frame_read(frame, answer, sizeof answer);
    if (refusal) {
        untouched("the answer of a refused frame", answer, sizeof answer);
        r.verdict = refusal < 256 ? (unsigned)refusal : 255;
        return r;
    }
    r.data = number_at(answer);
    r.verdict = answer[8];
    r.place[0] = answer[9];
    r.place[1] = answer[10];
    r.pad_wrong = answer[11];
    r.check_flips = answer[12];
    return r;
}

struct reading read_both(uint64_t frame)
{
    struct reading second = independent_read(frame), r = alone ? second : archive_read(frame);
    same("verdict", frame, r.verdict, second.verdict);
    same("data", frame, r.data, second.data);
    same("first place", frame, r.place[0], second.place[0]);
    same("second place", frame, r.place[1], second.place[1]);
    same("pad flag", frame, r.pad_wrong, second.pad_wrong);
    same("check flips", frame, r.check_flips, second.check_flips);
    figures.frames++;
    figures.verdict[r.verdict]++;
    figures.pad_wrong += r.pad_wrong;
    figures.check_flips += r.check_flips;
    return r;
}

static uint8_t in[8 * MOST_NUMBERS], data[8 * MOST_NUMBERS + GUARD], verdicts[MOST_NUMBERS + GUARD], checks[MOST_NUMBERS + GUARD];

static void archive_read_list(const uint64_t *frames, size_t n, size_t spare)
{
    for (size_t i = 0; i < n; i++)
        put_number(in + 8 * i, frames[i]);
    memset(data, BLANK, sizeof data);
    memset(verdicts, BLANK, sizeof verdicts);
    memset(checks, BLANK, sizeof checks);
    uint64_t refusal = lks_frames_read(in, 8 * n, data, 8 * (n + spare), verdicts, n + spare, checks, n + spare);
    same("list reader's answer, length", n, refusal, 0);
    untouched("past the list reader's data", data + 8 * n, GUARD);
    untouched("past the list reader's verdicts", verdicts + n, GUARD);
    untouched("past the list reader's check flips", checks + n, GUARD);
}

uint64_t read_block(const uint64_t *frames, size_t n, size_t spare)
{
    uint64_t sum = 0;
    if (!alone)
        archive_read_list(frames, n, spare);
    for (size_t i = 0; i < n; i++) {
        struct reading r = read_both(frames[i]);
        sum += alone ? r.check_flips : checks[i];
        if (alone)
            continue;
        same("list verdict", frames[i], verdicts[i], r.verdict);
        same("list data", frames[i], number_at(data + 8 * i), r.data);
        same("list check flips", frames[i], checks[i], r.check_flips);
    }
    return sum;
}

void make_block(const uint64_t *words, uint64_t *frames, size_t n, size_t spare)
{
    static uint8_t out[8 * MOST_NUMBERS + GUARD];
    for (size_t i = 0; i < n; i++) {
        put_number(in + 8 * i, words[i]);
        frames[i] = independent_make(words[i]);
    }
    if (alone)
        return;
    memset(out, BLANK, sizeof out);
    same("list maker's answer, length", n, lks_frames_make(in, 8 * n, out, 8 * (n + spare)), 0);
    untouched("past the list maker's frames", out + 8 * n, GUARD);
    for (size_t i = 0; i < n; i++) {
        same("frame", words[i], lks_frame_make(words[i]), frames[i]);
        same("list frame", words[i], number_at(out + 8 * i), frames[i]);
    }
}

void print_figures(const char *set)
{
    printf("%s: frames %llu clean %llu one %llu two %llu no-word %llu run-broken %llu pad-wrong %llu check-flips %llu\n", set,
           (shown)figures.frames, (shown)figures.verdict[0], (shown)figures.verdict[1], (shown)figures.verdict[2],
           (shown)figures.verdict[13], (shown)figures.verdict[14], (shown)figures.pad_wrong, (shown)figures.check_flips);
    memset(&figures, 0, sizeof figures);
}
