// What these programs need of the C library. The kit's clang comes without headers: with LAKSHRUMOV_PLAIN_TYPES the few names are
// declared here, and without it any C compiler's own headers serve.
#ifndef PLAIN_H
#define PLAIN_H

#ifdef LAKSHRUMOV_PLAIN_TYPES
typedef __SIZE_TYPE__ size_t;
typedef __UINT8_TYPE__ uint8_t;
typedef __UINT32_TYPE__ uint32_t;
typedef __UINT64_TYPE__ uint64_t;
#define NULL ((void *)0)
#ifdef __cplusplus
extern "C" {
#endif
int printf(const char *format, ...);
int putchar(int c);
long read(int file, void *to, size_t n);
long write(int file, const void *from, size_t n);
int strcmp(const char *a, const char *b);
unsigned long strtoul(const char *text, char **end, int base);
int memcmp(const void *a, const void *b, size_t n);
void *memcpy(void *to, const void *from, size_t n);
void *memset(void *to, int byte, size_t n);
void exit(int status) __attribute__((noreturn));
void abort(void) __attribute__((noreturn));
#ifdef __cplusplus
}
#endif
#else
#include <stddef.h>
#include <stdint.h>
#include <stdio.h>
#include <stdlib.h>
#include <string.h>
#include <unistd.h>
#endif

typedef unsigned long long shown; // what %llu and %llx print

#define fail(...)                                                                                                                  \
    do {                                                                                                                           \
        printf("FAILED: ");                                                                                                        \
        printf(__VA_ARGS__);                                                                                                       \
        printf("\n");                                                                                                              \
        exit(1);                                                                                                                   \
    } while (0)

// Numbers in a byte list, eight bytes each, highest first.
static inline void put_number(uint8_t *bytes, uint64_t number)
{
    for (int i = 0; i < 8; i++)
        bytes[i] = (uint8_t)(number >> (56 - 8 * i));
}

static inline uint64_t number_at(const uint8_t *bytes)
{
    uint64_t number = 0;
    for (int i = 0; i < 8; i++)
        number = number << 8 | bytes[i];
    return number;
}

// The bit of a frame at a position of the line.
static inline uint64_t spot(int position) { return (uint64_t)1 << (63 - position); }

// splitmix64: the same numbers on every machine
static inline uint64_t random64(uint64_t *state)
{
    uint64_t z = *state += 0x9e3779b97f4a7c15u;
    z = (z ^ z >> 30) * 0xbf58476d1ce4e5b9u;
    z = (z ^ z >> 27) * 0x94d049bb133111ebu;
    return z ^ z >> 31;
}
#endif
