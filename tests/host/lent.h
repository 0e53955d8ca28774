// Lent buffers between guard bytes. After each call every buffer is held to what is due: guards, inputs and what must not be written with
// it. Over two fills, one the other's complement, no stray byte can hide behind an equal one.
#ifndef LENT_H
#define LENT_H
#include "../plain.h"

#define SIZE(list) (sizeof list / sizeof list[0])

enum { EDGE = 64, ROOM = 66000, WHOLE = EDGE + 8 + ROOM + EDGE };
enum { TURNS = 16 }; // of turn_over: each shift of a buffer, over each fill

struct lent {
    uint8_t now[WHOLE], due[WHOLE];
    size_t shift; // how far it is off its alignment
    size_t len;   // as the present call was lent it
    size_t used;  // so many of its first bytes may differ from the fill
};
extern struct lent *const every[]; // the program's buffers; NULL ends them

static uint8_t fill;        // 0 or 255
static int null_when_empty; // NULL for a length of 0, else an address
static unsigned long calls, refusals[24];

static inline void paint(struct lent *l, size_t from, size_t to)
{
    for (size_t i = from; i < to; i++)
        l->now[i] = l->due[i] = (uint8_t)(i * 37 + 11) ^ fill;
}

static inline void fresh(struct lent *l)
{
    paint(l, EDGE + l->shift, EDGE + l->shift + l->used);
    l->used = 0;
}

static inline uint8_t *lend(struct lent *l, size_t len)
{
    l->len = len;
    return len || !null_when_empty ? l->now + EDGE + l->shift : NULL;
}

// Where the first n bytes that are due stand.
static inline uint8_t *owe(struct lent *l, size_t n)
{
    l->used = n > l->used ? n : l->used;
    return l->due + EDGE + l->shift;
}

static inline void give(struct lent *l, size_t at, const uint8_t *bytes, size_t n)
{
    memcpy(owe(l, at + n) + at, bytes, n);
    memcpy(l->now + EDGE + l->shift + at, bytes, n);
}

static inline void settle(const char *call, uint64_t got, uint64_t want)
{
    if (got != want)
        fail("%s returned %llu and not %llu", call, (shown)got, (shown)want);
    for (size_t i = 0; every[i]; i++) {
        if (memcmp(every[i]->now, every[i]->due, EDGE + every[i]->shift + every[i]->len + EDGE))
            fail("%s left other bytes than are due (answer %llu)", call, (shown)got);
        every[i]->len = 0;
    }
    calls++;
    if (want < SIZE(refusals))
        refusals[want]++;
}

// New shifts and a new fill, after a look at all that is farther from the buffers than the guards.
static inline void turn_over(size_t turn)
{
    fill = turn % 2 ? 255 : 0;
    null_when_empty = turn / 2 % 2;
    for (size_t i = 0; every[i]; i++) {
        if (memcmp(every[i]->now, every[i]->due, WHOLE))
            fail("a byte far from every buffer is written");
        every[i]->shift = (turn / 2 + 3 * i) % 8;
        every[i]->used = 0;
        paint(every[i], 0, WHOLE);
    }
}
#endif
