// Counts of the calls on pairs: this driver runs one of them once over the first n of a fixed store of frames, so that the difference
// between n and 2n frames is the call's own work. See bench/pairs.
//
// usage: pair rattle|c make|read|bytes-make|bytes-read clean|one|two|refused n
#include "reader.h"

enum { STORE = 8000 };

uint8_t bench_pairs_make(const uint64_t *frames, size_t frames_len, uint64_t *words, size_t words_len);
uint8_t bench_pairs_read(const uint64_t *words, size_t words_len, uint64_t *data, size_t data_len, uint8_t *verdicts, size_t verdicts_len);

uint64_t lks_pairs_make(const uint8_t *frames, size_t frames_len, uint8_t *words, size_t words_len);
uint64_t lks_pairs_read(const uint8_t *words, size_t words_len, uint8_t *data, size_t data_len, uint8_t *verdicts, size_t verdicts_len);

static uint64_t in[STORE], out[STORE];
static uint8_t in_bytes[STORE * 8], out_bytes[STORE * 8], verdicts[STORE];

// ---- the same work in C

// A byte of A beside the same one of B is sixteen positions of the line, out of order. Three exchanges, each of parts half as long as the
// last, put them in order, and the same ones backwards undo it. Eight of these sixteens are a pair, and the compiler takes them at once.
#define EIGHT_AT_ONCE _Pragma("clang loop unroll(disable) vectorize_width(8) interleave_count(1)")
#define FOUR_A_ROUND _Pragma("clang loop unroll_count(4)")

static inline uint16_t exchange(uint16_t x, uint16_t which, int by)
{
    uint16_t t = (uint16_t)((x ^ x >> by) & which);
    return (uint16_t)(x ^ t ^ t << by);
}

// In a list of bytes the highest byte of a number stands first. In a list of numbers the lowest does, and the line begins with the second
// word.
static inline void join(const uint8_t *pair, uint8_t *words, int highest_first)
{
    uint16_t line[8];
    EIGHT_AT_ONCE
    for (int k = 0; k < 8; k++) {
        uint8_t a = pair[k], b = pair[8 + k];
        uint16_t x = highest_first ? exchange((uint16_t)(b << 8 | a), 0x000F, 12) : exchange((uint16_t)(a << 8 | b), 0x00F0, 4);
        line[k] = exchange(exchange(x, 0x0C0C, 2), 0x2222, 1);
    }
    __builtin_memcpy(words, line + (highest_first ? 0 : 4), 8);
    __builtin_memcpy(words + 8, line + (highest_first ? 4 : 0), 8);
}

static inline void part(const uint8_t *words, uint8_t *pair, int highest_first)
{
    uint16_t line[8];
    __builtin_memcpy(line + (highest_first ? 0 : 4), words, 8);
    __builtin_memcpy(line + (highest_first ? 4 : 0), words + 8, 8);
    EIGHT_AT_ONCE
    for (int k = 0; k < 8; k++) {
        uint16_t x = exchange(exchange(line[k], 0x2222, 1), 0x0C0C, 2);
        x = highest_first ? exchange(x, 0x000F, 12) : exchange(x, 0x00F0, 4);
        pair[k] = (uint8_t)(highest_first ? x : x >> 8);
        pair[8 + k] = (uint8_t)(highest_first ? x >> 8 : x);
    }
}

__attribute__((noinline)) static uint8_t c_make(const uint64_t *restrict f, size_t n, uint64_t *restrict w, size_t w_len)
{
    if (n % 2 || w_len < n)
        return 12;
    FOUR_A_ROUND
    for (size_t i = 0; i < n / 2; i++)
        join((const uint8_t *)(f + 2 * i), (uint8_t *)(w + 2 * i), 0);
    return 0;
}

__attribute__((noinline)) static uint64_t c_make_bytes(const uint8_t *restrict f, size_t len, uint8_t *restrict w, size_t w_len)
{
    if (len % 16 || w_len % 8 || w_len < len)
        return 12;
    FOUR_A_ROUND
    for (size_t i = 0; i < len / 16; i++)
        join(f + 16 * i, w + 16 * i, 1);
    return 0;
}

// Reading takes the words apart in the output, mends each frame there, one that is refused to 0, and takes the data out of all.
static inline uint8_t mended(unsigned x, uint64_t *frame)
{
    unsigned n = corrections[x & 4095];
    if ((x ^ n) >> 12 != 7) {
        *frame = 0;
        return n & NONE ? 13 : 14;
    }
    *frame ^= masks[x & 4095];
    return (uint8_t)(n >> 8 & 3);
}

__attribute__((noinline)) static uint8_t c_read(const uint64_t *restrict w, size_t n, uint64_t *restrict d, size_t d_len,
                                                uint8_t *restrict v, size_t v_len)
{
    if (n % 2 || d_len < n || v_len < n)
        return 12;
    FOUR_A_ROUND
    for (size_t i = 0; i < n / 2; i++)
        part((const uint8_t *)(w + 2 * i), (uint8_t *)(d + 2 * i), 0);
    FOUR_A_ROUND
    for (size_t i = 0; i < n; i++) {
        unsigned x = sums_in(d + i);
        v[i] = __builtin_expect(x == CLEAN, 1) ? 0 : mended(x, d + i);
    }
    for (size_t i = 0; i < n; i++)
        d[i] = data_in(d[i]);
    return 0;
}

__attribute__((noinline)) static uint64_t c_read_bytes(const uint8_t *restrict w, size_t len, uint8_t *restrict d, size_t d_len,
                                                       uint8_t *restrict v, size_t v_len)
{
    if (len % 16 || d_len % 8 || d_len < len || v_len < len / 8)
        return 12;
    FOUR_A_ROUND
    for (size_t i = 0; i < len / 16; i++)
        part(w + 16 * i, d + 16 * i, 1);
    FOUR_A_ROUND
    for (size_t i = 0; i < len / 8; i++) {
        unsigned x = sums_at(d + 8 * i);
        uint64_t f = get(d + 8 * i);
        v[i] = __builtin_expect(x == CLEAN, 1) ? 0 : mended(x, &f);
        put(d + 8 * i, data_in(f));
    }
    return 0;
}

// ---- the store: as much work for every n

// Positions 60, 61 and 62 together are within two flips of no code word.
static uint64_t flips(const char *kind, uint64_t x)
{
    uint64_t one = 1ull << (1 + x % 31);
    if (!strcmp(kind, "one"))
        return one;
    if (!strcmp(kind, "two"))
        return one | 1ull << (32 + x % 32);
    return !strcmp(kind, "refused") ? 14 : 0;
}

static void join_bit_by_bit(uint64_t *pair)
{
    uint64_t words[2] = {0, 0};
    for (int i = 0; i < 128; i++)
        words[i / 64] = words[i / 64] << 1 | (pair[i % 2] >> (63 - i / 2) & 1);
    pair[0] = words[0];
    pair[1] = words[1];
}

static void make_input(const char *kind, int read)
{
    uint64_t x = 88172645463325252ull;
    for (size_t i = 0; i < STORE; i++) {
        x ^= x << 13, x ^= x >> 7, x ^= x << 17;
        in[i] = frame_of(x >> 16) ^ flips(kind, x);
        out[i] = x;
        put(out_bytes + 8 * i, x);
        verdicts[i] = (uint8_t)x;
    }
    for (size_t i = 0; i < STORE && read; i += 2)
        join_bit_by_bit(in + i);
    for (size_t i = 0; i < STORE; i++)
        put(in_bytes + 8 * i, in[i]);
}

static uint64_t work(const char *call, int ours, size_t n)
{
    if (!strcmp(call, "make"))
        return (ours ? bench_pairs_make : c_make)(in, n, out, STORE);
    if (!strcmp(call, "bytes-make"))
        return (ours ? lks_pairs_make : c_make_bytes)(in_bytes, 8 * n, out_bytes, sizeof out_bytes);
    if (!strcmp(call, "bytes-read"))
        return (ours ? lks_pairs_read : c_read_bytes)(in_bytes, 8 * n, out_bytes, sizeof out_bytes, verdicts, STORE);
    return (ours ? bench_pairs_read : c_read)(in, n, out, STORE, verdicts, STORE);
}

int main(int argc, char **argv)
{
    if (argc != 5)
        return puts("usage: pair rattle|c make|read|bytes-make|bytes-read clean|one|two|refused N"), 2;
    size_t n = strtoul(argv[4], NULL, 10);
    if (n > STORE)
        return 2;
    tables();
    make_input(argv[3], !strcmp(argv[2], "read") || !strcmp(argv[2], "bytes-read"));
    uint64_t number = work(argv[2], !strcmp(argv[1], "rattle"), n), sum = 0;
    for (size_t i = 0; i < STORE; i++)
        sum = ((sum + out[i]) * 31 + get(out_bytes + 8 * i)) * 31 + verdicts[i];
    return printf("%llu %llu\n", (unsigned long long)number, (unsigned long long)sum) < 0;
}
