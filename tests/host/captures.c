// Calls the three capture entries as a customer would: each refusal, alone and with others, each length around a boundary, NULL with
// length 0, buffers at any address. lent.h guards the buffers, and filed.h says what is due.
#include "filed.h"
#include "lent.h"
#include "../../include/lakshrumov.h"

enum { FRAMES_ROOM = 8 * LKS_MOST_FRAMES, ANSWER = LKS_CAPTURE_ANSWER_BYTES, GOOD_TAG = 0x4C434150 };

static struct lent frames, notes, file, answer;
struct lent *const every[] = {&frames, &notes, &file, &answer, NULL};
static const uint64_t top = ~(uint64_t)0, eighth = (uint64_t)1 << 61; // eight times 2^61 is 2^64
static uint8_t stuff[ROOM];                                           // frames and notes

// ---- writing

static void writes(const uint8_t *some_notes, size_t frames_len, size_t notes_len, size_t file_len)
{
    static const uint32_t lanes[] = {0, 7, 0x01020304, 0x80000000, 0xFFFFFFFF};
    uint32_t lane = lanes[calls % SIZE(lanes)];
    uint64_t want = write_refusal(frames_len, notes_len, file_len);
    fresh(&frames), fresh(&notes), fresh(&file);
    give(&frames, 0, stuff, frames_len);
    give(&notes, 0, some_notes, notes_len);
    if (want == 0)
        want = filed(owe(&file, frames_len + notes_len + TRAILER), lane, stuff, frames_len, some_notes, notes_len);
    uint64_t got = lks_capture_write(lane, lend(&frames, frames_len), frames_len, lend(&notes, notes_len), notes_len,
                                     lend(&file, file_len), file_len);
    settle("lks_capture_write", got, want);
}

static void small_writes(void)
{
    for (size_t frames_len = 0; frames_len <= 25; frames_len++)
        for (size_t notes_len = 0; notes_len <= 9; notes_len++)
            for (size_t file_len = 0; file_len <= frames_len + notes_len + TRAILER + 2; file_len++)
                writes(stuff + 99, frames_len, notes_len, file_len);
}

// Frames, and notes that make the file end around 65,536 bytes, and outputs around its end.
static void large_writes(void)
{
    static const size_t lengths[] = {0,     8,     63992, 63999, 64000, 64001, 64007, 64008,
                                     64016, 65504, 65511, 65512, 65513, 65520, 65536, 65544};
    for (size_t i = 0; i < SIZE(lengths); i++) {
        size_t left = lengths[i] < MOST_FILE - TRAILER ? MOST_FILE - TRAILER - lengths[i] : 0;
        size_t some[] = {0, 1, left > 1 ? left - 1 : 0, left, left + 1};
        for (size_t k = 0; k < SIZE(some); k++) {
            size_t size = lengths[i] + some[k] + TRAILER;
            size_t outs[] = {0, TRAILER, size - 1, size, size + 1, MOST_FILE - 1, MOST_FILE, MOST_FILE + 1};
            for (size_t o = 0; o < SIZE(outs); o++)
                writes(stuff + 99, lengths[i], some[k], outs[o]);
        }
    }
}

// ---- reading

// The file that stands in its buffer, by both calls.
static void reads(size_t file_len, size_t frames_len, size_t answer_len)
{
    uint8_t said[ANSWER];
    const uint8_t *there = file.due + EDGE + file.shift;
    uint64_t lane = 0, count = 0, want = read_refusal(there, file_len, &lane, &count);
    laid(laid(said, lane, 4), count, 8);
    want = answer_len < ANSWER ? 12 : want;
    if (want == 0)
        memcpy(owe(&answer, ANSWER), said, ANSWER);
    uint64_t got = lks_capture_head(lend(&file, file_len), file_len, lend(&answer, answer_len), answer_len);
    settle("lks_capture_head", got, want);
    fresh(&answer), fresh(&frames);
    want = frames_len % 8 != 0 || frames_len < FRAMES_ROOM ? 12 : want;
    if (want == 0) {
        memcpy(owe(&answer, ANSWER), said, ANSWER);
        memcpy(owe(&frames, 8 * count), there, 8 * count);
    }
    got = lks_capture_read(lend(&file, file_len), file_len, lend(&frames, frames_len), frames_len, lend(&answer, answer_len), answer_len);
    settle("lks_capture_read", got, want);
    fresh(&answer), fresh(&frames);
}

// Puts a trailer, its distance so far off, at the end of the file: its last bytes where there is no room for all of it.
static void end_in(size_t file_len, uint64_t tag, uint64_t count, uint64_t off)
{
    uint8_t trailer[TRAILER];
    size_t part = file_len < TRAILER ? file_len : TRAILER;
    put_trailer(trailer, tag, 0xFEDCBA98u + count % 256, count, file_len - TRAILER + off);
    give(&file, file_len - part, trailer + TRAILER - part, part);
}

static void begin(size_t file_len)
{
    fresh(&file);
    give(&file, 0, stuff, file_len);
}

// Tags, counts and distances, each right and wrong, so that 21, 22 and 23 meet.
static void trailers(size_t file_len)
{
    const uint64_t tags[] = {GOOD_TAG, GOOD_TAG + 1, GOOD_TAG ^ 1u << 31};
    const uint64_t counts[] = {0, 1, 2, 3, 7999, 8000, 8001, 8002, 8188, 8189, 8190, 8191, (uint64_t)1 << 32, eighth - 1, eighth,
                               eighth + 1, eighth + 8000, 2 * eighth, 4 * eighth + 1, top - eighth, top - 1, top};
    const uint64_t off[] = {0, 1, top, 8, top - 7, TRAILER, top - TRAILER + 1, (uint64_t)1 << 32, 4 * eighth};
    begin(file_len);
    for (size_t t = 0; t < SIZE(tags); t++)
        for (size_t c = 0; c < SIZE(counts); c++)
            for (size_t d = 0; d < SIZE(off); d++) {
                end_in(file_len, tags[t], counts[c], off[d]);
                reads(file_len, FRAMES_ROOM, ANSWER);
            }
}

// Outputs of every length that matters, so that 12 meets the others.
static void outputs(size_t file_len)
{
    static const size_t lengths[] = {0, 8, 63992, 63999, 64000, 64001, 64007, 64008, 65536};
    uint64_t most = file_len < TRAILER ? 0 : (file_len - TRAILER) / 8;
    begin(file_len);
    for (int kind = 0; kind < 4; kind++) // good, or 23; good; 22; 21
        for (size_t i = 0; i < SIZE(lengths); i++)
            for (size_t answer_len = 0; answer_len <= ANSWER + 1; answer_len++) {
                end_in(file_len, GOOD_TAG + (kind == 3), kind == 0 ? most : kind == 2 ? most + 1 : 0, 0);
                reads(file_len, lengths[i], answer_len);
            }
}

// A whole trailer that begins or ends where the file does, and stands in part outside of it.
static void outside(size_t file_len)
{
    uint8_t trailer[TRAILER];
    put_trailer(trailer, GOOD_TAG, 7, 0, file_len - TRAILER);
    for (int at_end = 0; at_end < 2; at_end++) {
        size_t from = EDGE + file.shift + (at_end ? file_len - TRAILER : 0);
        memcpy(file.now + from, trailer, TRAILER);
        memcpy(file.due + from, trailer, TRAILER);
        reads(file_len, FRAMES_ROOM, ANSWER);
        paint(&file, from, from + TRAILER);
    }
}

static void all_reads(void)
{
    static const size_t large[] = {64016, 64023, 64024, 64025, 64031, 64032, 65528, 65535, 65536, 65537, 65544};
    for (size_t file_len = 0; file_len <= 40; file_len++)
        trailers(file_len), outputs(file_len);
    for (size_t i = 0; i < SIZE(large); i++)
        trailers(large[i]), outputs(large[i]);
    for (size_t file_len = 0; file_len < TRAILER; file_len++)
        outside(file_len);
}

// ---- there and back

// A small file with each byte one more, one less, and with each of its bits turned.
static void changed(void)
{
    uint8_t whole[16 + 3 + TRAILER];
    filed(whole, 0x00FF0100, stuff, 16, stuff + 99, 3);
    for (size_t i = 0; i < sizeof whole; i++)
        for (int k = 0; k < 10; k++) {
            uint8_t byte = (uint8_t)(k < 8 ? whole[i] ^ 1 << k : whole[i] + 2 * k - 17);
            fresh(&file);
            give(&file, 0, whole, sizeof whole);
            give(&file, i, &byte, 1);
            reads(sizeof whole, FRAMES_ROOM, ANSWER);
        }
}

static void back(size_t from)
{
    static uint8_t inner[MOST_FILE];
    for (size_t notes_len = from; notes_len <= 1512; notes_len += 8) {
        writes(stuff + 99, 8 * LKS_MOST_FRAMES, notes_len, MOST_FILE + 1);
        reads(8 * LKS_MOST_FRAMES + notes_len + TRAILER, FRAMES_ROOM, ANSWER);
        writes(stuff + 99, 8 * notes_len, notes_len, MOST_FILE);
        reads(8 * notes_len + notes_len + TRAILER, FRAMES_ROOM, ANSWER);
    }
    size_t size = filed(inner, 1, stuff, 80, stuff + 99, 5); // notes that are a file
    writes(inner, 24, size, MOST_FILE);
    reads(24 + size + TRAILER, FRAMES_ROOM, ANSWER);
}

int main(void)
{
    uint64_t state = 21;
    for (size_t i = 0; i < ROOM; i++)
        stuff[i] = (uint8_t)random64(&state);
    for (size_t turn = 0; turn < TURNS; turn++) {
        turn_over(turn);
        small_writes();
        large_writes();
        all_reads();
        changed();
        back(turn / 2);
    }
    turn_over(0);
    printf("captures: %lu calls answered as due and left every other byte alone; refused with 12 %lu, 21 %lu, 22 %lu, 23 %lu\n", calls,
           refusals[12], refusals[21], refusals[22], refusals[23]);
    return 0;
}
