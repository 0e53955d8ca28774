#include "count.h"

static uint64_t state;

// A lawful frame: data and run bits, then the check bits as the shift register of g's two factors, 67 and 87, leaves them.
static uint64_t lawful(uint64_t data)
{
    int bits[64], g[13] = {0}, rest[63], n = 0;
    for (int i = 0; i < 7; i++)
        for (int j = 0; j < 7; j++)
            g[i + j] ^= (67 >> i & 1) & (87 >> j & 1);
    for (int i = 0; i < 51; i++)
        bits[i] = i == 16 || i == 33 || i == 50 ? !bits[i - 1] : (int)(data >> (47 - n++) & 1);
    for (int i = 0; i < 63; i++)
        rest[i] = i < 51 ? bits[i] : 0;
    for (int i = 0; i < 51; i++)
        if (rest[i])
            for (int j = 0; j < 13; j++)
                rest[i + j] ^= g[12 - j];
    for (int i = 51; i < 63; i++)
        bits[i] = rest[i];
    bits[63] = !bits[62];
    uint64_t f = 0;
    for (int i = 0; i < 64; i++)
        f = f * 2 + (uint64_t)bits[i];
    return f;
}

static uint64_t some_lawful(void) { return lawful(random64(&state) >> 16); }

static uint64_t some_frame(void)
{
    uint64_t r = random64(&state), f;
    switch (r % 16) {
    case 0: return random64(&state);
    case 1: return 0;
    case 2: return ~(uint64_t)0;
    default:
        f = some_lawful();
        for (uint64_t i = 0; i < r / 16 % 5; i++)
            f ^= (uint64_t)1 << random64(&state) % 64;
        return f;
    }
}

// The first n bytes of a frame, at most eight.
static int put(uint64_t f, size_t n)
{
    uint8_t buffer[8];
    put_number(buffer, f);
    for (size_t done = 0; done < n;) {
        long got = write(1, buffer + done, n - done);
        if (got <= 0)
            return 1;
        done += (size_t)got;
    }
    return 0;
}

int bytes(uint64_t seed, uint64_t n)
{
    state = seed;
    for (; n > 8; n -= 8)
        if (put(some_frame(), 8))
            return 1;
    return put(some_frame(), n);
}

int triples(void)
{
    uint64_t f = lawful(0);
    for (int a = 62; a >= 0; a--)
        for (int b = a - 1; b >= 0; b--)
            for (int c = b - 1; c >= 0; c--)
                if (put(f ^ spot(a) ^ spot(b) ^ spot(c), 8))
                    return 1;
    return 0;
}

// ---- frames whose verdict is known from how they are made

static const struct kind {
    const char *name;
    int flips;
    uint64_t pad; // 1 where it is wrong
} kinds[] = {{"clean", 0, 0}, {"one", 1, 0}, {"two", 2, 0}, {"clean-pad", 0, 1}, {"one-pad", 1, 1}, {"two-pad", 2, 1}};
enum { KINDS = sizeof kinds / sizeof kinds[0] };

// 60, 61 and 62 flipped is 13, and the code is cyclic: so are any three neighbours.
static uint64_t no_word(void)
{
    int place = (int)(random64(&state) % 61);
    return some_lawful() ^ spot(place) ^ spot(place + 1) ^ spot(place + 2);
}

static uint64_t readable(const struct kind *k)
{
    int first = (int)(random64(&state) % 63), second = (first + 1 + (int)(random64(&state) % 62)) % 63;
    return some_lawful() ^ k->pad ^ (k->flips > 0 ? spot(first) : 0) ^ (k->flips > 1 ? spot(second) : 0);
}

// Whether the name stands first in a list, as in no-word,clean.
static int is(const char *list, const char *name)
{
    for (; *name && *list == *name; list++)
        name++;
    return !*name && (!*list || *list == ',');
}

// 0 where the frame of the list's first kind is written, 2 where there is no such kind.
static int put_kind(const char *list)
{
    if (is(list, "no-word"))
        return put(no_word(), 8);
    // two lawful frames add up to a code word with every run bit wrong, and none to two flips leave it the nearest
    if (is(list, "run-broken"))
        return put(some_lawful() ^ readable(kinds + random64(&state) % 3), 8);
    for (int k = 0; k < KINDS; k++)
        if (is(list, kinds[k].name))
            return put(readable(kinds + k), 8);
    return 2;
}

static int put_in_turn(const char *list, uint64_t n)
{
    const char *kind = list;
    for (; n > 0; n--) {
        int failed = put_kind(kind);
        if (failed)
            return failed;
        while (*kind && *kind != ',')
            kind++;
        kind = *kind ? kind + 1 : list;
    }
    return 0;
}

int plan(char **words)
{
    for (; words[0] && words[1]; words += 2) {
        uint64_t n = strtoul(words[1], NULL, 10);
        int failed = is(words[0], "left-over") ? put(0, n) : put_in_turn(words[0], n);
        if (failed)
            return failed;
    }
    return 0;
}

int drip(size_t n)
{
    static uint8_t piece[65536];
    if (n > sizeof piece)
        return 2;
    for (long got; (got = read(0, piece, n)) > 0;)
        if (write(1, piece, (size_t)got) != got)
            return 1;
    return 0;
}
