// How many bytes of stack each entry touches, the return address with them. The entry runs on a painted area in place of the stack, and
// the lowest byte that is not as it was painted ends what it touched. Each call is made over two paints, one the other's complement: a
// byte that is written with its own paint shows in the other. Prints the rows of the page's table, in KB of 1,000 bytes, rounded up.
#include "../plain.h"
#include "../../include/lakshrumov.h"

enum { AREA = 1 << 17, MOST = 512, PAINT = 0x5A, ARGUMENTS = 8 };
enum { MOST_COUNT = 8189, MOST_NOTES = 1512 }; // of frames for which a file has room, and of notes behind 8,000 of them

static uint8_t area[AREA + 16] __attribute__((aligned(16))); // and what its caller lays above it: two arguments
static uint8_t in[8 * MOST], out[8 * MOST], verdicts[MOST], checks[MOST];
static uint8_t frames[8 * (MOST_COUNT + 1)], file[8 * MOST_COUNT + MOST_NOTES + LKS_TRAILER_BYTES];

// Calls the entry with eight arguments, the last two of them at the top, with its stack below that. Returns its answer.
uint64_t on_stack(void (*entry)(void), uint8_t *top, const uint64_t arguments[ARGUMENTS]);
__asm__(".pushsection .text\n"
        "on_stack:\n"
        "    push %rbx\n"
        "    mov %rsp, %rbx\n"
        "    mov %rsi, %rsp\n"
        "    mov %rdi, %rax\n"
        "    mov %rdx, %r10\n"
        "    mov (%r10), %rdi\n"
        "    mov 8(%r10), %rsi\n"
        "    mov 16(%r10), %rdx\n"
        "    mov 24(%r10), %rcx\n"
        "    mov 32(%r10), %r8\n"
        "    mov 40(%r10), %r9\n"
        "    mov 48(%r10), %r11\n"
        "    mov %r11, (%rsp)\n"
        "    mov 56(%r10), %r11\n"
        "    mov %r11, 8(%rsp)\n"
        "    call *%rax\n"
        "    mov %rbx, %rsp\n"
        "    pop %rbx\n"
        "    ret\n"
        ".popsection\n");

static size_t most; // that an entry touched since its first call

static uint64_t called(void (*entry)(void), const uint64_t arguments[ARGUMENTS])
{
    uint64_t answer = 0;
    for (int turn = 0; turn < 2; turn++) {
        int paint = turn ? PAINT : 255 - PAINT;
        size_t low = 0;
        memset(area, paint, AREA);
        answer = on_stack(entry, area + AREA, arguments);
        while (low < AREA && area[low] == paint)
            low++;
        if (low == 0)
            fail("stack: the area is too small");
        if (AREA - low > most)
            most = AREA - low;
    }
    return answer;
}

static void row(const char *name)
{
    size_t tenths = (most + 99) / 100;
    printf("| `%s` | %llu.%llu |\n", name, (shown)(tenths / 10), (shown)(tenths % 10));
    most = 0;
}

static const uint64_t some_data[] = {0, 0x1234, 0xFFFFFFFFFFFFu, (uint64_t)1 << 48};
// clean, one flip, two flips, a wrong pad, 13, 14
static const uint64_t some_frames[] = {0x0000800040003565u, 0x0000800040003567u, 0x8000800040003567u,
                                       0x0000800040003564u, 0x000080004000356Bu, 0};
enum { WORDS = sizeof some_data / 8, FRAMES = sizeof some_frames / 8 };

static void single(void)
{
    for (size_t i = 0; i < WORDS; i++)
        called((void (*)(void))lks_frame_make, (uint64_t[ARGUMENTS]){some_data[i]});
    row("lks_frame_make");
    for (size_t i = 0; i < FRAMES; i++)
        for (size_t len = LKS_ANSWER_BYTES - 1; len <= LKS_ANSWER_BYTES; len++)
            called((void (*)(void))lks_frame_read, (uint64_t[ARGUMENTS]){some_frames[i], (uint64_t)out, len});
    row("lks_frame_read");
}

static const size_t lengths[] = {0, 8, 15, 16, 8 * MOST}; // 15: refused, and 8 in pairs

static void make_list(size_t len)
{
    called((void (*)(void))lks_frames_make, (uint64_t[ARGUMENTS]){(uint64_t)in, len, (uint64_t)out, sizeof out});
}

static void hold_answer(const char *name, uint64_t answer, int is_refused)
{
    if (answer != (is_refused ? LKS_LENGTH : 0))
        fail("stack: %s returned %llu", name, (shown)answer);
}

static void read_list(size_t len)
{
    uint64_t answer = called((void (*)(void))lks_frames_read, (uint64_t[ARGUMENTS]){(uint64_t)in, len, (uint64_t)out, sizeof out,
                                                              (uint64_t)verdicts, sizeof verdicts, (uint64_t)checks, sizeof checks});
    hold_answer("lks_frames_read", answer, len % 8 != 0);
}

static void make_pairs(size_t len)
{
    uint64_t answer = called((void (*)(void))lks_pairs_make, (uint64_t[ARGUMENTS]){(uint64_t)in, len, (uint64_t)out, sizeof out});
    hold_answer("lks_pairs_make", answer, len % 16 != 0);
}

static void read_pairs(size_t len)
{
    static uint8_t words[sizeof in];
    lks_pairs_make(in, sizeof in, words, sizeof words);
    uint64_t answer = called((void (*)(void))lks_pairs_read, (uint64_t[ARGUMENTS]){(uint64_t)words, len, (uint64_t)out, sizeof out,
                                                             (uint64_t)verdicts, sizeof verdicts});
    hold_answer("lks_pairs_read", answer, len % 16 != 0);
}

// Lists of `kinds` numbers in turn, from each of them on.
static void lists(const uint64_t *numbers, size_t kinds, void (*call)(size_t len))
{
    for (size_t from = 0; from < kinds; from++) {
        for (size_t i = 0; i < MOST; i++)
            put_number(in + 8 * i, numbers[(from + i) % kinds]);
        for (size_t k = 0; k < sizeof lengths / sizeof lengths[0]; k++)
            call(lengths[k]);
    }
}

// A capture of so many frames and bytes of notes. Kind 1: frames of a ragged length; 2: an output a byte too short.
static void write_capture(size_t count, size_t notes, int kind)
{
    size_t size = 8 * count + notes + LKS_TRAILER_BYTES;
    uint64_t answer = called((void (*)(void))lks_capture_write, (uint64_t[ARGUMENTS]){7, (uint64_t)frames, 8 * count + (kind == 1),
                                                                (uint64_t)in, notes, (uint64_t)file, size - (kind == 2)});
    if (count <= LKS_MOST_FRAMES && answer != (kind == 1 || kind == 2 ? LKS_LENGTH : size))
        fail("stack: lks_capture_write returned %llu", (shown)answer);
}

// The trailer of a file. Kind 1: no tag; 2: more frames than there is room for. In the calls on it, 3: an answer a byte too short.
static void lay_capture(size_t count, size_t notes, int kind)
{
    uint8_t *trailer = file + 8 * count + notes;
    put_number(trailer, 0x4C43415000000007u ^ (kind == 1 ? (uint64_t)1 << 32 : 0));
    put_number(trailer + 8, kind == 2 ? MOST_COUNT + 1 : count);
    put_number(trailer + 16, 8 * count + notes);
}

static void head_capture(size_t count, size_t notes, int kind)
{
    lay_capture(count, notes, kind);
    called((void (*)(void))lks_capture_head, (uint64_t[ARGUMENTS]){(uint64_t)file, 8 * count + notes + LKS_TRAILER_BYTES, (uint64_t)out,
                                                                   LKS_CAPTURE_ANSWER_BYTES - (kind == 3)});
}

static void read_capture(size_t count, size_t notes, int kind)
{
    lay_capture(count, notes, kind);
    called((void (*)(void))lks_capture_read, (uint64_t[ARGUMENTS]){(uint64_t)file, 8 * count + notes + LKS_TRAILER_BYTES, (uint64_t)frames,
                                                                   sizeof frames, (uint64_t)out, LKS_CAPTURE_ANSWER_BYTES - (kind == 3)});
}

static void captures(const char *name, void (*call)(size_t count, size_t notes, int kind))
{
    static const size_t counts[] = {0, 1, 50, LKS_MOST_FRAMES, LKS_MOST_FRAMES + 1, MOST_COUNT};
    for (size_t i = 0; i < sizeof counts / sizeof counts[0]; i++)
        for (int kind = 0; kind < 4; kind++) {
            call(counts[i], 0, kind);
            call(counts[i], MOST_NOTES, kind);
        }
    row(name);
}

int main(void)
{
    single();
    lists(some_data, WORDS - 1, make_list);
    lists(some_data, WORDS, make_list);
    row("lks_frames_make");
    lists(some_frames, FRAMES, read_list);
    row("lks_frames_read");
    lists(some_frames, FRAMES, make_pairs);
    row("lks_pairs_make");
    lists(some_frames, FRAMES, read_pairs);
    row("lks_pairs_read");
    captures("lks_capture_write", write_capture);
    captures("lks_capture_head", head_capture);
    captures("lks_capture_read", read_capture);
    return 0;
}
