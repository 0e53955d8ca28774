// What the drivers need of the C library, declared here since the kit's clang comes without headers; and numbers in bytes.
#ifndef PLAIN_H
#define PLAIN_H
typedef __SIZE_TYPE__ size_t;
typedef __UINT8_TYPE__ uint8_t;
typedef __UINT16_TYPE__ uint16_t;
typedef __UINT32_TYPE__ uint32_t;
typedef __UINT64_TYPE__ uint64_t;
#define NULL ((void *)0)
int printf(const char *format, ...);
int puts(const char *text);
int strcmp(const char *a, const char *b);
unsigned long strtoul(const char *text, char **end, int base);

// a number in eight bytes, highest first; the machine is little-endian
static inline uint64_t get(const uint8_t *b)
{
    uint64_t x;
    __builtin_memcpy(&x, b, 8);
    return __builtin_bswap64(x);
}

static inline void put(uint8_t *b, uint64_t x)
{
    x = __builtin_bswap64(x);
    __builtin_memcpy(b, &x, 8);
}
#endif
