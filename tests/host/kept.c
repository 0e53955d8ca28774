// A capture file on standard input, through the archive: head and read must say the same, and writing what was read must give the file
// again, byte for byte.
// usage: kept            prints the lane, the number of frames and the notes
//        kept frames     writes the bytes of the frames
#include "../plain.h"
#include "../../include/lakshrumov.h"

enum { ANSWER = LKS_CAPTURE_ANSWER_BYTES, TRAILER = LKS_TRAILER_BYTES };

static uint8_t file[LKS_MOST_FILE_BYTES + 1], again[LKS_MOST_FILE_BYTES], frames[8 * LKS_MOST_FRAMES];

static void out(const uint8_t *bytes, size_t n)
{
    if (write(1, bytes, n) != (long)n)
        fail("kept: cannot write");
}

int main(int argc, char **argv)
{
    uint8_t head[ANSWER], answer[ANSWER];
    size_t len = 0;
    for (long got; (got = read(0, file + len, sizeof file - len)) > 0; len += (size_t)got)
        ;
    uint64_t refusal = lks_capture_head(file, len, head, ANSWER);
    if (refusal != lks_capture_read(file, len, frames, sizeof frames, answer, ANSWER))
        fail("kept: head and read answer differently");
    if (refusal)
        fail("kept: refused with %llu", (shown)refusal);
    if (memcmp(head, answer, ANSWER))
        fail("kept: head and read say different things");
    uint32_t lane = (uint32_t)(number_at(answer) >> 32);
    size_t count = (size_t)number_at(answer + 4), notes_len = len - TRAILER - 8 * count;
    if (lks_capture_write(lane, frames, 8 * count, file + 8 * count, notes_len, again, sizeof again) != len || memcmp(again, file, len))
        fail("kept: what was read is written as another file");
    if (argc == 2 && !strcmp(argv[1], "frames")) {
        out(frames, 8 * count);
        return 0;
    }
    printf("lane %llu\nframes %llu\n%.*s", (shown)lane, (shown)count, (int)notes_len, (const char *)file + 8 * count);
    return 0;
}
