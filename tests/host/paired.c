// The two sides of pairs. What the archive answers, writes and leaves alone is held to the independent program, whose readings are held to
// lks_frame_read as well. The first difference ends the program.
#include "paired.h"
#include "lent.h"
#include "../../include/lakshrumov.h"

static struct lent in, out, verdicts;
struct lent *const every[] = {&in, &out, &verdicts, NULL};
struct pairs due;
static unsigned long asked, refused;

void take_words(const uint64_t *words, size_t n)
{
    uint64_t again[2];
    for (size_t i = 0; i < n; i++)
        due.words[i] = words[i];
    for (size_t i = 0; i < n; i += 2) {
        independent_part(words + i, due.frames + i);
        independent_join(due.frames + i, again);
        same("first word, parted and joined", words[i], again[0], words[i]);
        same("second word, parted and joined", words[i + 1], again[1], words[i + 1]);
    }
    for (size_t i = 0; i < n; i++) {
        struct reading r = read_both(due.frames[i]);
        due.data[i] = r.data;
        due.verdicts[i] = (uint8_t)r.verdict;
    }
}

void take_frames(const uint64_t *frames, size_t n)
{
    static uint64_t words[MOST_NUMBERS];
    for (size_t i = 0; i < n; i += 2)
        independent_join(frames + i, words + i);
    take_words(words, n);
    for (size_t i = 0; i < n; i++)
        same("frame, joined and parted", frames[i], due.frames[i], frames[i]);
}

static void give_numbers(struct lent *l, const uint64_t *numbers, size_t len)
{
    uint8_t bytes[8];
    for (size_t i = 0; 8 * i < len; i++) {
        put_number(bytes, numbers[i]);
        give(l, 8 * i, bytes, 8);
    }
}

static void owe_numbers(struct lent *l, const uint64_t *numbers, size_t n)
{
    uint8_t *at = owe(l, 8 * n);
    for (size_t i = 0; i < n; i++)
        put_number(at + 8 * i, numbers[i]);
}

static uint64_t refusal(size_t from_len, size_t to_len)
{
    int uneven = from_len % 8 != 0 || to_len % 8 != 0, odd = from_len / 8 % 2 != 0;
    return uneven || odd || to_len < from_len ? LKS_LENGTH : 0;
}

static int is_asked(uint64_t want)
{
    asked++;
    refused += want != 0;
    return !alone;
}

void makes(size_t frames_len, size_t words_len)
{
    uint64_t want = refusal(frames_len, words_len);
    if (!is_asked(want))
        return;
    fresh(&in), fresh(&out);
    give_numbers(&in, due.frames, frames_len);
    if (want == 0)
        owe_numbers(&out, due.words, frames_len / 8);
    settle("lks_pairs_make", lks_pairs_make(lend(&in, frames_len), frames_len, lend(&out, words_len), words_len), want);
}

void reads(size_t words_len, size_t data_len, size_t verdicts_len)
{
    size_t n = words_len / 8;
    uint64_t want = verdicts_len < n ? LKS_LENGTH : refusal(words_len, data_len);
    if (!is_asked(want))
        return;
    fresh(&in), fresh(&out), fresh(&verdicts);
    give_numbers(&in, due.words, words_len);
    if (want == 0) {
        owe_numbers(&out, due.data, n);
        memcpy(owe(&verdicts, n), due.verdicts, n);
    }
    uint64_t got = lks_pairs_read(lend(&in, words_len), words_len, lend(&out, data_len), data_len, lend(&verdicts, verdicts_len),
                                  verdicts_len);
    settle("lks_pairs_read", got, want);
}

void both_ways(size_t n)
{
    makes(8 * n, 8 * n);
    reads(8 * n, 8 * n, n);
}

const size_t turns = TURNS;

void turn_to(size_t turn) { turn_over(turn % TURNS); }

void print_calls(const char *program)
{
    turn_over(0);
    printf("calls of %s: %lu, refused with 12: %lu\n", program, asked, refused);
}
