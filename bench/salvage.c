// Counts of salvage: this driver runs the call once over a capture of the first n of a fixed store of frames, so that the difference
// between n and 2n frames is the call's own work. See bench/salvages.
//
// usage: salvage rattle|c clean|pad|bent|refused n
#include "reader.h"

enum { STORE = 8000, MOST_FILE = 65536, TRAILER = 24, NOTES = 64 };

uint8_t bench_salvage(uint8_t *file, size_t file_len, uint64_t *altered, size_t altered_len, uint64_t *places, size_t places_len,
                      uint64_t *refused, size_t refused_len);

static uint64_t altered[STORE], places[STORE], refused[STORE];
static uint8_t file[MOST_FILE];

// ---- the same work in C

static const uint64_t tag = 0x4C434150;

#define PAD 0x8000u         // in a frame's sums: its pad is the opposite of position 62
#define SOUND (CLEAN | PAD) // nothing is to be altered

static uint16_t runs[4096]; // the run sums that a correction sets right; where there is none, what no run sums are

// Over the reader's tables. The pad and position 62 stand in a frame's lowest byte, so that their sum is one bit more of its entry; a mask
// gets the pad as it is to be turned where that sum is 0.
static void salvage_tables(void)
{
    tables();
    for (unsigned b = 0; b < 256; b++)
        bytes[0][b] |= (b ^ b >> 1) & 1 ? PAD : 0;
    for (unsigned i = 0; i < 4096; i++) {
        runs[i] = corrections[i] == NONE ? 1 : (corrections[i] & CLEAN) ^ CLEAN;
        masks[i] |= ~masks[i] >> 1 & 1;
    }
}

static uint8_t refusal(const uint8_t *from, size_t len, uint64_t *n)
{
    if (len > MOST_FILE)
        return 12;
    if (len < TRAILER || get(from + len - 24) >> 32 != tag)
        return 21;
    *n = get(from + len - 16);
    if (get(from + len - 8) != len - TRAILER || (len - TRAILER) / 8 < *n)
        return 22;
    return *n > STORE ? 23 : 0;
}

// A frame that is neither sound nor refused is altered: in its places, in its pad or in both.
__attribute__((noinline)) static uint8_t c_salvage(uint8_t *restrict f, size_t len, uint64_t *restrict a, size_t a_len,
                                                   uint64_t *restrict p, size_t p_len, uint64_t *restrict r, size_t r_len)
{
    uint64_t n = 0;
    uint8_t number = refusal(f, len, &n);
    size_t changed = 0, left = 0;
    if (number == 0 && (a_len < n || p_len < n || r_len < n))
        number = 12;
    if (number)
        return number;
    for (size_t i = 0; i < n; i++) {
        unsigned x = sums_at(f + 8 * i);
        if (__builtin_expect(x == SOUND, 1))
            continue;
        if ((x & CLEAN) != runs[x & 4095]) {
            r[left++] = i;
            continue;
        }
        uint64_t turned = masks[x & 4095] ^ x >> 15;
        put(f + 8 * i, get(f + 8 * i) ^ turned);
        a[changed] = i;
        p[changed++] = turned;
    }
    return 0;
}

// ---- the store, with the trailer after its first n frames: as much work for every n

// Positions 60, 61 and 62 together are within two flips of no code word.
static uint64_t flips(const char *kind, uint64_t x)
{
    if (!strcmp(kind, "pad"))
        return 1;
    if (!strcmp(kind, "bent"))
        return 1ull << (1 + x % 31) | 1ull << (32 + x % 32);
    return !strcmp(kind, "refused") ? 14 : 0;
}

static void make_input(const char *kind, size_t n)
{
    uint64_t x = 88172645463325252ull;
    for (size_t i = 0; i < STORE; i++) {
        x ^= x << 13, x ^= x >> 7, x ^= x << 17;
        put(file + 8 * i, frame_of(x >> 16) ^ flips(kind, x));
        altered[i] = places[i] = refused[i] = x;
    }
    for (size_t i = 0; i < NOTES; i++)
        file[8 * n + i] = (uint8_t)(i * 37 + 11);
    put(file + 8 * n + NOTES, tag << 32 | 7);
    put(file + 8 * n + NOTES + 8, n);
    put(file + 8 * n + NOTES + 16, 8 * n + NOTES);
}

int main(int argc, char **argv)
{
    if (argc != 4)
        return puts("usage: salvage rattle|c clean|pad|bent|refused N"), 2;
    size_t n = strtoul(argv[3], NULL, 10);
    if (n > STORE)
        return 2;
    salvage_tables();
    make_input(argv[2], n);
    uint8_t number = (strcmp(argv[1], "rattle") ? c_salvage : bench_salvage)(file, 8 * n + NOTES + TRAILER, altered, STORE, places, STORE,
                                                                             refused, STORE);
    uint64_t sum = 0;
    for (size_t i = 0; i < STORE; i++)
        sum = ((sum + altered[i]) * 31 + places[i]) * 31 + refused[i];
    for (size_t i = 0; i < MOST_FILE; i++)
        sum = sum * 31 + file[i];
    return printf("%u %llu\n", number, (unsigned long long)sum) < 0;
}
