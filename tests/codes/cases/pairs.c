// Pairs: two numbers, lists of each length around what is asked of them, and words as they are read.
#include "../../host/independent.h"
#include "cases.h"

// ---- two numbers, joined and parted

void ask_pair(uint64_t a, uint64_t b)
{
    VALUES_OF(a, b);
    add(PAIR, "pairs two");
}

static uint64_t lawful(void) { return independent_make(any() >> 16); }

static void each_pair(void)
{
    const uint64_t plain[] = {0, ~0ul, 0xaaaaaaaaaaaaaaaa, 0x5555555555555555};
    for (int i = 0; i < 16; i++)
        ask_pair(plain[i / 4], plain[i % 4]);
    for (int i = 0; i < 64; i++) {
        ask_pair(spot(i), 0);
        ask_pair(0, spot(i));
        ask_pair(~spot(i), ~0ul);
        ask_pair(~0ul, ~spot(i));
    }
    for (int i = 0; i < 250; i++) {
        const uint64_t some = any();
        ask_pair(some, any());
        ask_pair(some, some);
        ask_pair(some, ~some);
        ask_pair(lawful(), lawful());
    }
}

// ---- lists of each length; every byte of the short ones is shown

static int are_few(uint64_t numbers, uint64_t bytes) { return numbers <= 20 && bytes <= 160; }

// The first so many bytes of what was put, or of what an earlier case brought, made into words.
static void make_into(uint64_t size, uint64_t numbers, uint64_t bytes)
{
    VALUES_OF(numbers, bytes, are_few(numbers, bytes));
    next.extra = size - next.size;
    add(PAIRS_MAKE, "pairs make");
}

// The same, read as words.
static void read_into(uint64_t size, uint64_t numbers, uint64_t bytes, uint64_t verdicts)
{
    VALUES_OF(numbers, bytes, verdicts, are_few(numbers, bytes) && verdicts <= 20);
    next.extra = size - next.size;
    add(PAIRS_READ, "pairs read");
}

static void put_two(uint64_t first, uint64_t second)
{
    put_eight(first);
    put_eight(second);
}

static void put_sent(uint64_t a, uint64_t b)
{
    uint64_t words[2];
    independent_join((const uint64_t[]){a, b}, words);
    put_two(words[0], words[1]);
}

// Pairs as they go out; at times the frames as they stand, so that making meets frames that can be read. At the end what is no pair.
static void put_list(uint64_t bytes)
{
    for (; bytes >= 16; bytes -= 16)
        (one_in(4) ? put_two : put_sent)(some_frame(), some_frame());
    while (bytes--)
        put(any());
}

// Each output as long as the list, longer and shorter, beside others that are long enough; then bytes that are no whole numbers, of the
// list and of an output.
static void each_length(uint64_t n)
{
    const uint64_t size = 8 * n, rooms[] = {n, 1ul << 32 | n, n + 1, n + 60, ~0u, n - 1, n / 2, 0};
    put_list(size);
    for (int i = 0; i < 8; i++) {
        make_into(size, rooms[i], 8 * rooms[(i + 3) % 8]);
        read_into(size, rooms[i], size, n);
        read_into(size, n, 8 * rooms[i], n + 1);
        read_into(size, n + 1, size + 8, rooms[i]);
    }
    for (uint64_t left = 1; left < 8; left++) {
        const uint64_t ragged = size + left, bytes = ONE_OF(size, ragged, size + 8, size + 8);
        put_list(ragged);
        make_into(ragged, n, bytes);
        read_into(ragged, n, bytes, n + 1);
        make_into(size, n, ragged);
        make_into(size, n, size - left);
        read_into(size, n, ragged, n);
        read_into(size, n, size - left, n);
    }
}

static void long_list(uint64_t size)
{
    const uint64_t n = size / 8, rooms[][3] = {{n, n, n}, {n - 1, n, n}, {n, n - 1, n}, {n, n, n - 1}, {~0u, n + 1, ~0u}};
    put_list(size);
    for (int i = 0; i < 5; i++) {
        make_into(size, rooms[i][0], 8 * rooms[i][1]);
        read_into(size, rooms[i][0], 8 * rooms[i][1], rooms[i][2]);
    }
}

// ---- pairs as they are read

void read_pairs(const char *name)
{
    const uint64_t n = next.size / 8;
    VALUES_OF(n, next.size, n, n <= 2);
    add(PAIRS_READ, name);
}

// Each verdict beside each, still lines of either frame or both, and numbers at chance.
static void each_verdict(void)
{
    const unsigned verdicts[] = {0, 1, 2, 13, 14};
    const uint64_t still[] = {0, ~0ul, lawful()};
    for (int i = 0; i < 25 * 8; i++) {
        put_sent(frame_of(verdicts[i / 5 % 5]), frame_of(verdicts[i % 5]));
        read_pairs("pairs verdicts");
    }
    for (int i = 0; i < 9; i++) {
        put_sent(still[i / 3], still[i % 3]);
        read_pairs("pairs still");
    }
    for (int i = 0; i < 200; i++) {
        put_two(any(), any());
        read_pairs("pairs chance");
    }
}

void pairs_cases(void)
{
    const uint64_t sizes[] = {8190 * 8, 8191 * 8, 8192 * 8, LONGEST + 1};
    seed(9);
    each_pair();
    for (uint64_t n = 0; n <= 65; n++)
        each_length(n);
    for (int i = 0; i < 4; i++)
        long_list(sizes[i]);
    each_verdict();
    pair_bursts();
}
