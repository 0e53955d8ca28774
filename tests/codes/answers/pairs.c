// Pairs for bursts, from the words of Q-7. A list is held as bytes, eight a number.
#include "../../host/independent.h"
#include "answers.h"

enum { NUMBERS = 8300, BYTES = 8 * NUMBERS }; // the most that is lent of numbers or of verdicts, and of bytes

static uint8_t written[BYTES], verdicts[NUMBERS];

void pair(void)
{
    uint64_t words[2], frames[2];
    independent_join(values, words);
    independent_part(values, frames);
    print(words[0]);
    print(words[1]);
    print(frames[0]);
    print(frames[1]);
}

// A call's answer, over lists that hold ee in every byte; of the numbers given, how many it works on.
static uint64_t called(uint64_t given, int refused)
{
    memset(written, 0xee, sizeof written);
    memset(verdicts, 0xee, sizeof verdicts);
    if (refused)
        print_refusal(12);
    else
        print(0);
    return refused ? 0 : given;
}

// The i-th number of the answer, out of the pair of the input at its place.
static uint64_t turned(void (*by)(const uint64_t two[2], uint64_t answer[2]), uint64_t i)
{
    const uint8_t *at = first.bytes + 8 * (i - i % 2);
    uint64_t answer[2];
    by((const uint64_t[]){number_at(at), number_at(at + 8)}, answer);
    return answer[i % 2];
}

static void make(uint64_t frames, int refused)
{
    frames = called(frames, refused);
    for (uint64_t i = 0; i < frames; i++)
        put_number(written + 8 * i, turned(independent_join, i));
}

void pairs_make(void)
{
    const uint64_t given = first.size / 8, numbers = held(0, NUMBERS), bytes = held(1, BYTES);
    const int all = values[2] == 1;
    make(given, given % 2 || numbers < given);
    print_lent_numbers(all, written, numbers);
    make(given, given % 2 || first.size % 8 || bytes % 8 || bytes < first.size);
    print_lent(all, written, bytes);
}

// Each frame by itself.
static void read_back(uint64_t words, int refused)
{
    words = called(words, refused);
    for (uint64_t i = 0; i < words; i++) {
        const struct reading r = independent_read(turned(independent_part, i));
        put_number(written + 8 * i, r.data);
        verdicts[i] = (uint8_t)r.verdict;
    }
}

void pairs_read(void)
{
    const uint64_t given = first.size / 8, numbers = held(0, NUMBERS), bytes = held(1, BYTES), places = held(2, NUMBERS);
    const int all = values[3] == 1, refused = given % 2 || places < given;
    read_back(given, refused || numbers < given);
    print_lent_numbers(all, written, numbers);
    print_lent(all, verdicts, places);
    read_back(given, refused || first.size % 8 || bytes % 8 || bytes < first.size);
    print_lent(all, written, bytes);
    print_lent(all, verdicts, places);
}
