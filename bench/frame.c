// Counts of the frame calls: this driver runs one of them once over the first n of a fixed store of frames, so that the
// difference between n and 2n frames is the call's own work. See bench/run.
//
// usage: frame rattle|c|shifts make|read|pads|single|bytes-make|bytes-read n clean|one|two
// "shifts" is read in C that takes a frame's bytes by shifts, and not from memory.
#include "reader.h"

#define STORE 8192

uint8_t bench_read(uint64_t frame);
uint8_t bench_make_list(const uint64_t *data, size_t data_len, uint64_t *frames, size_t frames_len);
uint8_t bench_read_list(const uint64_t *frames, size_t frames_len, uint64_t *data, size_t data_len, uint8_t *verdicts,
                        size_t verdicts_len, uint8_t *checks, size_t checks_len);
uint8_t bench_read_list_pads(const uint64_t *frames, size_t frames_len, uint64_t *data, size_t data_len, uint8_t *verdicts,
                             size_t verdicts_len, uint8_t *pads, size_t pads_len, uint8_t *checks, size_t checks_len);

uint64_t lks_frames_make(const uint8_t *data, size_t data_len, uint8_t *frames, size_t frames_len);
uint64_t lks_frames_read(const uint8_t *frames, size_t frames_len, uint8_t *data, size_t data_len, uint8_t *verdicts, size_t verdicts_len,
                         uint8_t *checks, size_t checks_len);

static uint64_t data[STORE], frames[STORE], out[STORE];
static uint8_t verdicts[STORE], pads[STORE], checks[STORE];
static uint8_t in_bytes[STORE * 8], out_bytes[STORE * 8];

// ---- the same work in C

// The frame of each byte of data at its place, without that of 0: a frame is their sum and the frame of 0, which the lowest byte has.
static uint64_t made[6][256];

static void maker_tables(void)
{
    uint64_t none = frame_of(0);
    for (int k = 0; k < 6; k++) {
        made[k][0] = k == 0 ? none : 0;
        for (int j = 0; j < 8; j++)
            for (int b = 0; b < 1 << j; b++)
                made[k][1 << j | b] = made[k][b] ^ frame_of(1ull << (8 * k + j)) ^ none;
    }
}

static inline uint64_t c_make(uint64_t d)
{
    return made[0][d & 255] ^ made[1][d >> 8 & 255] ^ made[2][d >> 16 & 255] ^ made[3][d >> 24 & 255] ^ made[4][d >> 32 & 255]
           ^ made[5][d >> 40];
}

static inline uint64_t c_make_at(const uint8_t *b)
{
    return made[5][b[2]] ^ made[4][b[3]] ^ made[3][b[4]] ^ made[2][b[5]] ^ made[1][b[6]] ^ made[0][b[7]];
}

__attribute__((noinline)) static uint64_t c_make_list(const uint64_t *restrict d, size_t n, uint64_t *restrict f)
{
    uint64_t all = 0;
    for (size_t i = 0; i < n; i++)
        all |= d[i];
    if (all >> 48)
        return 11;
    for (size_t i = 0; i < n; i++)
        f[i] = c_make(d[i]);
    return 0;
}

__attribute__((noinline)) static void c_read_list(const uint64_t *restrict f, size_t n, uint64_t *restrict d, uint8_t *restrict v,
                                                  uint8_t *restrict c)
{
    uint8_t pad;
    for (size_t i = 0; i < n; i++)
        v[i] = said(sums_in(f + i), f[i], d + i, &pad, c + i);
}

__attribute__((noinline)) static void c_read_list_by_shifts(const uint64_t *restrict f, size_t n, uint64_t *restrict d,
                                                            uint8_t *restrict v, uint8_t *restrict c)
{
    uint8_t pad;
    for (size_t i = 0; i < n; i++)
        v[i] = said(sums_of(f[i]), f[i], d + i, &pad, c + i);
}

__attribute__((noinline)) static void c_read_list_pads(const uint64_t *restrict f, size_t n, uint64_t *restrict d, uint8_t *restrict v,
                                                       uint8_t *restrict p, uint8_t *restrict c)
{
    for (size_t i = 0; i < n; i++)
        v[i] = said(sums_in(f + i), f[i], d + i, p + i, c + i);
}

__attribute__((noinline)) static uint64_t c_make_bytes(const uint8_t *restrict d, size_t n, uint8_t *restrict f)
{
    uint64_t all = 0;
    for (size_t i = 0; i < n; i++)
        all |= get(d + 8 * i);
    if (all >> 48)
        return 11;
    for (size_t i = 0; i < n; i++)
        put(f + 8 * i, c_make_at(d + 8 * i));
    return 0;
}

__attribute__((noinline)) static void c_read_bytes(const uint8_t *restrict f, size_t n, uint8_t *restrict d, uint8_t *restrict v,
                                                   uint8_t *restrict c)
{
    uint64_t x;
    uint8_t pad;
    for (size_t i = 0; i < n; i++) {
        v[i] = said(sums_at(f + 8 * i), get(f + 8 * i), &x, &pad, c + i);
        put(d + 8 * i, x);
    }
}

// one frame a call; its tables are ready
__attribute__((noinline)) static uint8_t c_read(uint64_t f, uint64_t *d, uint8_t *pad, uint8_t *c)
{
    return said(sums_of(f), f, d, pad, c);
}

static void on_bytes(int ours, int make, size_t n)
{
    for (size_t i = 0; i < STORE; i++)
        put(in_bytes + 8 * i, make ? data[i] : frames[i]);
    if (make && ours)
        lks_frames_make(in_bytes, 8 * n, out_bytes, sizeof out_bytes);
    else if (make)
        c_make_bytes(in_bytes, n, out_bytes);
    else if (ours)
        lks_frames_read(in_bytes, 8 * n, out_bytes, sizeof out_bytes, verdicts, STORE, checks, STORE);
    else
        c_read_bytes(in_bytes, n, out_bytes, verdicts, checks);
    for (size_t i = 0; i < STORE; i++)
        out[i] = get(out_bytes + 8 * i);
}

static void make_input(int flips)
{
    uint64_t x = 88172645463325252ull;
    for (size_t i = 0; i < STORE; i++) {
        x ^= x << 13, x ^= x >> 7, x ^= x << 17;
        data[i] = x >> 16;
        frames[i] = c_make(data[i]);
        if (flips > 0)
            frames[i] ^= 1ull << (1 + x % 31);
        if (flips > 1)
            frames[i] ^= 1ull << (32 + x % 32);
    }
}

static void work(const char *call, const char *who, size_t n)
{
    int ours = !strcmp(who, "rattle");
    if (!strcmp(call, "make")) {
        if (ours)
            bench_make_list(data, n, out, STORE);
        else
            c_make_list(data, n, out);
    } else if (!strcmp(call, "read")) {
        if (ours)
            bench_read_list(frames, n, out, STORE, verdicts, STORE, checks, STORE);
        else if (!strcmp(who, "shifts"))
            c_read_list_by_shifts(frames, n, out, verdicts, checks);
        else
            c_read_list(frames, n, out, verdicts, checks);
    } else if (!strcmp(call, "pads")) {
        if (ours)
            bench_read_list_pads(frames, n, out, STORE, verdicts, STORE, pads, STORE, checks, STORE);
        else
            c_read_list_pads(frames, n, out, verdicts, pads, checks);
    } else if (!strcmp(call, "bytes-make") || !strcmp(call, "bytes-read")) {
        on_bytes(ours, !strcmp(call, "bytes-make"), n);
    } else {
        uint64_t d;
        uint8_t pad, check;
        for (size_t i = 0; i < n; i++)
            verdicts[i] = ours ? bench_read(frames[i]) : c_read(frames[i], &d, &pad, &check);
    }
}

int main(int argc, char **argv)
{
    if (argc != 5)
        return puts("usage: frame rattle|c|shifts make|read|pads|single|bytes-make|bytes-read N clean|one|two"), 2;
    size_t n = strtoul(argv[3], NULL, 10);
    uint64_t sum = 0;
    if (n > STORE)
        return 2;
    tables();
    maker_tables();
    make_input(!strcmp(argv[4], "one") ? 1 : !strcmp(argv[4], "two") ? 2 : 0);
    work(argv[2], argv[1], n);
    for (size_t i = 0; i < STORE; i++)
        sum += ((out[i] * 31 + verdicts[i]) * 31 + pads[i]) * 31 + checks[i];
    return printf("%llu\n", (unsigned long long)sum) < 0;
}
