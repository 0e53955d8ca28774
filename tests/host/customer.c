// Calls the entries on frames and on pairs as a customer would; those on frames with each refusal, each length around a boundary, NULL with
// length 0, buffers at any address. Every buffer stands between guard bytes, and after each call the whole of it, guards, inputs and what
// must not be written with it, is held to what is due. All of it runs over two fills, one the other's complement, so that no stray byte can
// hide behind an equal one.
#include "../plain.h"
#include "../../include/lakshrumov.h"

#define EDGE 16
#define ROOM 56 // seven numbers and the shift
#define WHOLE (EDGE + ROOM + 8 + EDGE)

struct lent {
    uint8_t now[WHOLE], due[WHOLE];
};

// A row of the paper, or one of them with other flips.
static const struct row {
    uint64_t frame, refusal, data;
    uint8_t rest[5]; // bytes 8..12 of the answer
} rows[] = {
    {0x0000800040003565u, 0, 0, {0, 255, 255, 0, 0}},
    {0x8000800040003567u, 0, 0, {2, 0, 62, 0, 1}},
    {0x000080004000356Bu, 13, 0, {0, 0, 0, 0, 0}},
    {0xFFFF7FFFBFFFCA9Au, 0, 0xFFFFFFFFFFFFu, {0, 255, 255, 0, 0}},
    {0, 14, 0, {0, 0, 0, 0, 0}},
    {0x0000800040003567u, 0, 0, {1, 62, 255, 0, 1}},
    {0x0000800040003564u, 0, 0, {0, 255, 255, 1, 0}},
    {0x8000800040003564u, 0, 0, {1, 0, 255, 1, 0}},
    {~(uint64_t)0, 14, 0, {0, 0, 0, 0, 0}},
    {0x0000800040002567u, 0, 0, {2, 51, 62, 0, 2}},
    {0x0000800040005565u, 0, 0, {2, 49, 50, 0, 0}},
    {0x0000800040000565u, 0, 0, {2, 50, 51, 0, 1}},
};
#define ROWS (sizeof rows / sizeof rows[0])

static const uint64_t too_large[] = {(uint64_t)1 << 48, (uint64_t)1 << 55, (uint64_t)1 << 56, (uint64_t)1 << 63, ~(uint64_t)0};

static uint8_t fill;             // 0 or 255
static int null_when_empty;      // NULL for a length of 0, else an address
static size_t shift;             // how far a buffer is off its alignment
static struct lent in, out, out2, out3;
static unsigned long calls, refusals[16];

static void fresh(struct lent *l)
{
    for (size_t i = 0; i < WHOLE; i++)
        l->now[i] = l->due[i] = (uint8_t)(i * 37 + 11) ^ fill;
}

static uint8_t *lend(struct lent *l, size_t len) { return len || !null_when_empty ? l->now + EDGE + shift : NULL; }

static void owe(struct lent *l, size_t at, uint64_t number) { put_number(l->due + EDGE + shift + at, number); }

static void give(struct lent *l, size_t at, uint64_t number)
{
    put_number(l->now + EDGE + shift + at, number);
    owe(l, at, number);
}

static void settle(const char *call, uint64_t got, uint64_t want)
{
    if (got != want)
        fail("customer: %s returned %llu and not %llu", call, (shown)got, (shown)want);
    if (memcmp(in.now, in.due, WHOLE))
        fail("customer: %s wrote to its input", call);
    if (memcmp(out.now, out.due, WHOLE) || memcmp(out2.now, out2.due, WHOLE) || memcmp(out3.now, out3.due, WHOLE))
        fail("customer: %s left other bytes than are due (answer %llu)", call, (shown)got);
    calls++;
    if (want < 16)
        refusals[want]++;
}

static void all_fresh(void) { fresh(&in), fresh(&out), fresh(&out2), fresh(&out3); }

static void frame_make(void)
{
    all_fresh();
    for (size_t i = 0; i < ROWS; i++)
        if (rows[i].refusal == 0 && rows[i].rest[0] == 0 && rows[i].rest[3] == 0)
            settle("lks_frame_make", lks_frame_make(rows[i].data), rows[i].frame);
    for (int k = 48; k < 64; k++)
        for (uint64_t low = 0; low < 2; low++)
            settle("lks_frame_make", lks_frame_make(((uint64_t)1 << k) + low), 11);
    settle("lks_frame_make", lks_frame_make(~(uint64_t)0), 11);
}

static void frame_read(void)
{
    for (size_t i = 0; i < ROWS; i++)
        for (size_t len = 0; len <= 24; len++) {
            all_fresh();
            uint64_t want = len < LKS_ANSWER_BYTES ? 12 : rows[i].refusal;
            if (want == 0) {
                owe(&out, 0, rows[i].data);
                memcpy(out.due + EDGE + shift + 8, rows[i].rest, sizeof rows[i].rest);
            }
            settle("lks_frame_read", lks_frame_read(rows[i].frame, lend(&out, len), len), want);
        }
}

// Data words 0 and 2^48 - 1 in turn, and one too large at a place, where there is one.
static void frames_make(size_t data_len, size_t frames_len, size_t bad, uint64_t large)
{
    uint64_t want = data_len % 8 || frames_len % 8 || frames_len < data_len ? 12 : bad < data_len / 8 ? 11 : 0;
    all_fresh();
    for (size_t i = 0; i < data_len / 8; i++)
        give(&in, i * 8, i == bad ? large : rows[i % 2 * 3].data);
    if (want == 0)
        for (size_t i = 0; i < data_len / 8; i++)
            owe(&out, i * 8, rows[i % 2 * 3].frame);
    settle("lks_frames_make", lks_frames_make(lend(&in, data_len), data_len, lend(&out, frames_len), frames_len), want);
}

static void frames_make_all(void)
{
    for (size_t data_len = 0; data_len <= 41; data_len++)
        for (size_t frames_len = 0; frames_len <= 49; frames_len++) {
            frames_make(data_len, frames_len, ROOM, 0);
            for (size_t k = 0; k < sizeof too_large / sizeof too_large[0]; k++)
                if (data_len >= 8)
                    frames_make(data_len, frames_len, (k + frames_len) % (data_len / 8), too_large[k]);
        }
}

static void frames_read(size_t frames_len, size_t data_len, size_t verdicts_len, size_t checks_len, size_t from)
{
    int lists_fit = verdicts_len >= frames_len / 8 && checks_len >= frames_len / 8;
    uint64_t want = frames_len % 8 || data_len % 8 || data_len < frames_len || !lists_fit ? 12 : 0;
    all_fresh();
    for (size_t i = 0; i < frames_len / 8; i++) {
        const struct row *r = &rows[(from + i) % ROWS];
        give(&in, i * 8, r->frame);
        if (want == 0) {
            owe(&out, i * 8, r->data);
            out2.due[EDGE + shift + i] = r->refusal ? (uint8_t)r->refusal : r->rest[0];
            out3.due[EDGE + shift + i] = r->rest[4];
        }
    }
    settle("lks_frames_read",
           lks_frames_read(lend(&in, frames_len), frames_len, lend(&out, data_len), data_len, lend(&out2, verdicts_len), verdicts_len,
                           lend(&out3, checks_len), checks_len),
           want);
}

static void frames_read_all(void)
{
    for (size_t frames_len = 0; frames_len <= 33; frames_len++)
        for (size_t data_len = 0; data_len <= 41; data_len++)
            for (size_t verdicts_len = 0; verdicts_len <= 6; verdicts_len++)
                for (size_t checks_len = 0; checks_len <= frames_len / 8 + 1; checks_len++)
                    frames_read(frames_len, data_len, verdicts_len, checks_len, frames_len + data_len / 8 + verdicts_len + checks_len);
    for (size_t from = 0; from < ROWS; from++)
        for (size_t n = 0; n < 6; n++)
            frames_read(n * 8, n * 8, n, n, from);
}

// Data 0 beside all ones, through the line and back: there a burst turns the first four positions over.
static void pairs(void)
{
    static const uint64_t words[2] = {0x5555555595555555u, 0x655555555A666966u};
    all_fresh();
    for (size_t i = 0; i < 2; i++) {
        give(&in, i * 8, rows[i * 3].frame);
        owe(&out, i * 8, words[i]);
    }
    settle("lks_pairs_make", lks_pairs_make(lend(&in, 16), 16, lend(&out, 16), 16), 0);
    all_fresh();
    for (size_t i = 0; i < 2; i++) {
        give(&in, i * 8, i ? words[i] : words[i] ^ (uint64_t)15 << 60);
        owe(&out, i * 8, rows[i * 3].data);
        out2.due[EDGE + shift + i] = 2;
    }
    settle("lks_pairs_read", lks_pairs_read(lend(&in, 16), 16, lend(&out, 16), 16, lend(&out2, 2), 2), 0);
}

int main(void)
{
    for (int turn = 0; turn < 32; turn++) {
        fill = turn % 2 ? 255 : 0;
        null_when_empty = turn / 2 % 2;
        shift = (size_t)turn / 4;
        frame_make();
        frame_read();
        frames_make_all();
        frames_read_all();
        pairs();
    }
    printf("customer: %lu calls answered as due and left every other byte alone; refused with 11 %lu, 12 %lu, 13 %lu, 14 %lu\n", calls,
           refusals[11], refusals[12], refusals[13], refusals[14]);
    return 0;
}
