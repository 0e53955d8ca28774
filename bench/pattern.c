/* The steps of the Rattle crate `pattern`, in C: the same work on the same input, for a count of instructions. The argument is
   what the Rattle driver reads on standard input: f, c, F or C, and a byte for each round of 4,096. */
/* The kit's clang comes without headers. */
typedef unsigned char uint8_t;
typedef unsigned long uint64_t;
typedef unsigned long size_t;
int printf(const char *, ...);
size_t strlen(const char *);
void *memset(void *, int, size_t);

#define ROUND 4096

struct counter {
    uint64_t filled, reg, bits, errors;
};

static inline uint64_t ahead(uint64_t r, unsigned l, unsigned t, unsigned k) {
    return (r ^ r << (l - t)) >> (l - k) & ((1u << k) - 1);
}

static inline uint64_t moved(uint64_t r, unsigned l, unsigned k, uint64_t n) {
    return (r << k | n) & ((1ull << l) - 1);
}

static inline uint64_t fill_bytes(uint64_t r, unsigned l, unsigned t, uint8_t *out, size_t n) {
    for (size_t i = 0; i < n; i++) {
        uint64_t b = ahead(r, l, t, 8);
        out[i] = (uint8_t)b;
        r = moved(r, l, 8, b);
    }
    return r;
}

static inline void compare_bits(struct counter *c, unsigned l, unsigned t, unsigned n, unsigned k) {
    uint64_t next = ahead(c->reg, l, t, k);
    c->errors += __builtin_popcountll(next ^ n);
    c->reg = moved(c->reg, l, k, next);
    c->bits += k;
}

static inline void fill_bits(struct counter *c, unsigned n, unsigned k) {
    c->reg = c->reg << k | n;
    c->filled += k;
}

static inline void feed_bytes(struct counter *c, unsigned l, unsigned t, const uint8_t *piece, size_t n) {
    for (size_t i = 0; i < n; i++) {
        unsigned room = l - c->filled;
        if (room == 0)
            compare_bits(c, l, t, piece[i], 8);
        else if (room >= 8)
            fill_bits(c, piece[i], 8);
        else {
            unsigned left = 8 - room;
            fill_bits(c, piece[i] >> left, room);
            compare_bits(c, l, t, piece[i] & ((1u << left) - 1), left);
        }
    }
}

__attribute__((noinline)) static uint64_t fill(unsigned pattern, uint64_t r, uint8_t *out, size_t n) {
    return pattern == 11 ? fill_bytes(r, 11, 9, out, n) : fill_bytes(r, 31, 28, out, n);
}

__attribute__((noinline)) static struct counter feed(unsigned pattern, struct counter c, const uint8_t *piece, size_t n) {
    if (pattern == 11)
        feed_bytes(&c, 11, 9, piece, n);
    else
        feed_bytes(&c, 31, 28, piece, n);
    return c;
}

int main(int argc, char **argv) {
    static uint8_t buffer[ROUND];
    const char *work = argc > 1 ? argv[1] : "f";
    unsigned pattern = *work == 'f' || *work == 'c' ? 11 : 31;
    size_t rounds = strlen(work) - 1;
    if (*work == 'f' || *work == 'F') {
        uint64_t r = 1;
        for (size_t i = 0; i < rounds; i++)
            r = fill(pattern, r, buffer, ROUND);
        printf("%lu\n", r);
    } else {
        struct counter c = {0, 0, 0, 0};
        memset(buffer, 0x5a, ROUND);
        for (size_t i = 0; i < rounds; i++)
            c = feed(pattern, c, buffer, ROUND);
        printf("%lu\n", c.errors);
    }
    return 0;
}
