// Counts of the capture calls: this driver runs one of them once over the first n of a fixed store of frames, so that the difference
// between n and 2n frames is the call's own work. See bench/captures.
//
// usage: capture rattle|c write|read|bytes-write|bytes-read n
#include "plain.h"

enum { STORE = 8000, MOST_FILE = 65536, TRAILER = 24, NOTES = 64 };

uint64_t bench_capture_write(uint32_t lane, const uint64_t *frames, size_t n, const uint8_t *notes, size_t notes_len, uint8_t *file,
                             size_t file_len);
uint8_t bench_capture_read(const uint8_t *file, size_t file_len, uint64_t *frames, size_t frames_len);

uint64_t lks_capture_write(uint32_t lane, const uint8_t *frames, size_t frames_len, const uint8_t *notes, size_t notes_len, uint8_t *file,
                           size_t file_len);
uint64_t lks_capture_read(const uint8_t *file, size_t file_len, uint8_t *frames, size_t frames_len, uint8_t *answer, size_t answer_len);

static uint64_t frames[STORE];
static uint8_t frames_bytes[STORE * 8], notes[NOTES], file[MOST_FILE], answer[12];

// ---- the same work in C

static const uint64_t tag = 0x4C434150;

// By loads and stores: the C library's memcpy takes one instruction for all, which is counted once a byte.
__attribute__((no_builtin("memcpy"))) static void copy(uint8_t *restrict to, const uint8_t *restrict from, size_t n)
{
#pragma clang loop vectorize_width(16) interleave_count(8)
    for (size_t i = 0; i < n; i++)
        to[i] = from[i];
}

static uint64_t fit(size_t n, size_t notes_len, size_t file_len)
{
    if (n > (MOST_FILE - TRAILER) / 8 || notes_len > MOST_FILE - TRAILER - 8 * n || file_len < 8 * n + notes_len + TRAILER)
        return 12;
    return n > STORE ? 23 : 0;
}

static uint64_t finish(uint32_t lane, size_t n, const uint8_t *restrict more, size_t more_len, uint8_t *restrict to)
{
    __builtin_memcpy(to + 8 * n, more, more_len);
    put(to + 8 * n + more_len, tag << 32 | lane);
    put(to + 8 * n + more_len + 8, n);
    put(to + 8 * n + more_len + 16, 8 * n + more_len);
    return 8 * n + more_len + TRAILER;
}

static uint64_t label(const uint8_t *from, size_t len, uint32_t *lane, uint64_t *n)
{
    if (len > MOST_FILE)
        return 12;
    if (len < TRAILER)
        return 21;
    const uint8_t *trailer = from + len - TRAILER;
    if (get(trailer) >> 32 != tag)
        return 21;
    *lane = (uint32_t)get(trailer);
    *n = get(trailer + 8);
    if (get(trailer + 16) != len - TRAILER || (len - TRAILER) / 8 < *n)
        return 22;
    return *n > STORE ? 23 : 0;
}

__attribute__((noinline)) static uint64_t c_write(uint32_t lane, const uint64_t *restrict f, size_t n, const uint8_t *restrict more,
                                                  size_t more_len, uint8_t *restrict to, size_t to_len)
{
    uint64_t refusal = fit(n, more_len, to_len);
    if (refusal)
        return refusal;
#pragma clang loop vectorize(disable) unroll_count(8)
    for (size_t i = 0; i < n; i++)
        put(to + 8 * i, f[i]);
    return finish(lane, n, more, more_len, to);
}

__attribute__((noinline)) static uint64_t c_read(const uint8_t *restrict from, size_t len, uint64_t *restrict f, size_t f_len)
{
    uint32_t lane;
    uint64_t n, refusal = f_len < STORE ? 12 : label(from, len, &lane, &n);
    if (refusal)
        return refusal;
#pragma clang loop vectorize(disable) unroll_count(8)
    for (size_t i = 0; i < n; i++)
        f[i] = get(from + 8 * i);
    return 0;
}

__attribute__((noinline)) static uint64_t c_write_bytes(uint32_t lane, const uint8_t *restrict f, size_t f_len,
                                                        const uint8_t *restrict more, size_t more_len, uint8_t *restrict to, size_t to_len)
{
    uint64_t refusal = f_len % 8 ? 12 : fit(f_len / 8, more_len, to_len);
    if (refusal)
        return refusal;
    copy(to, f, f_len);
    return finish(lane, f_len / 8, more, more_len, to);
}

__attribute__((noinline)) static uint64_t c_read_bytes(const uint8_t *restrict from, size_t len, uint8_t *restrict f, size_t f_len,
                                                       uint8_t *restrict said, size_t said_len)
{
    uint32_t lane;
    uint64_t n, refusal = said_len < 12 || f_len % 8 || f_len < STORE * 8 ? 12 : label(from, len, &lane, &n);
    if (refusal)
        return refusal;
    copy(f, from, 8 * n);
    put(said + 4, n);
    lane = __builtin_bswap32(lane);
    __builtin_memcpy(said, &lane, 4);
    return 0;
}

// ---- the store, or a file of its first n frames: as much work for every n

static void make_input(size_t n, int read)
{
    uint64_t x = 88172645463325252ull;
    for (size_t i = 0; i < STORE; i++) {
        x ^= x << 13, x ^= x >> 7, x ^= x << 17;
        put(file + 8 * i, read ? x : 0);
        put(frames_bytes + 8 * i, read ? 0 : x);
        frames[i] = read ? 0 : x;
    }
    for (size_t i = 0; i < NOTES; i++)
        notes[i] = (uint8_t)(i * 37 + 11);
    if (read)
        finish(7, n, notes, NOTES, file);
}

static uint64_t work(const char *call, int ours, size_t n)
{
    size_t len = 8 * n + NOTES + TRAILER;
    if (!strcmp(call, "write"))
        return (ours ? bench_capture_write : c_write)(7, frames, n, notes, NOTES, file, MOST_FILE);
    if (!strcmp(call, "bytes-write"))
        return (ours ? lks_capture_write : c_write_bytes)(7, frames_bytes, 8 * n, notes, NOTES, file, MOST_FILE);
    if (!strcmp(call, "bytes-read"))
        return (ours ? lks_capture_read : c_read_bytes)(file, len, frames_bytes, sizeof frames_bytes, answer, sizeof answer);
    return ours ? bench_capture_read(file, len, frames, STORE) : c_read(file, len, frames, STORE);
}

int main(int argc, char **argv)
{
    if (argc != 4)
        return puts("usage: capture rattle|c write|read|bytes-write|bytes-read N"), 2;
    size_t n = strtoul(argv[3], NULL, 10);
    if (n > STORE)
        return 2;
    make_input(n, !strcmp(argv[2], "read") || !strcmp(argv[2], "bytes-read"));
    uint64_t sum = work(argv[2], !strcmp(argv[1], "rattle"), n);
    for (size_t i = 0; i < STORE; i++)
        sum = (sum + frames[i]) * 31 + get(frames_bytes + 8 * i);
    for (size_t i = 0; i < MOST_FILE; i++)
        sum = sum * 31 + file[i];
    return printf("%llu %llu\n", (unsigned long long)sum, (unsigned long long)(get(answer) ^ get(answer + 4))) < 0;
}
