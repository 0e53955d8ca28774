// The header as C++ takes it: the entries keep their C names, so this links, and each has the type that is written here; the version can
// be asked for before anything is compiled.
#include "../plain.h"
#include "../../include/lakshrumov.h"

#if LKS_VERSION / 10000 != 2 || LKS_VERSION < 20100
#error this test is of major version 2, from 2.1 on
#endif

static uint8_t room[8 * LKS_MOST_FRAMES];

static uint64_t (*frame_make)(uint64_t) = lks_frame_make;
static uint64_t (*frame_read)(uint64_t, uint8_t *, size_t) = lks_frame_read;
static uint64_t (*frames_make)(const uint8_t *, size_t, uint8_t *, size_t) = lks_frames_make;
static uint64_t (*frames_read)(const uint8_t *, size_t, uint8_t *, size_t, uint8_t *, size_t, uint8_t *, size_t) = lks_frames_read;
static uint64_t (*pairs_make)(const uint8_t *, size_t, uint8_t *, size_t) = lks_pairs_make;
static uint64_t (*pairs_read)(const uint8_t *, size_t, uint8_t *, size_t, uint8_t *, size_t) = lks_pairs_read;
static uint64_t (*capture_write)(uint32_t, const uint8_t *, size_t, const uint8_t *, size_t, uint8_t *, size_t) = lks_capture_write;
static uint64_t (*capture_head)(const uint8_t *, size_t, uint8_t *, size_t) = lks_capture_head;
static uint64_t (*capture_read)(const uint8_t *, size_t, uint8_t *, size_t, uint8_t *, size_t) = lks_capture_read;

int main()
{
    uint8_t data[16] = {0}, frames[16], back[16], verdicts[2], checks[2], answer[LKS_ANSWER_BYTES];
    data[7] = 1;
    if (frames_make(data, 16, frames, 16) != 0 || number_at(frames) != frame_make(1) || number_at(frames + 8) != frame_make(0))
        fail("header: frames made from C++");
    frames[15] ^= 6; // positions 61 and 62
    if (frames_read(frames, 16, back, 16, verdicts, 2, checks, 2) != 0 || memcmp(data, back, 16) != 0)
        fail("header: frames read from C++");
    if (verdicts[0] != 0 || verdicts[1] != 2 || checks[0] != 0 || checks[1] != 2)
        fail("header: flips of frames read from C++");
    if (frame_read(number_at(frames + 8), answer, sizeof answer) != 0 || number_at(answer) != 0 || answer[12] != 2)
        fail("header: a frame read from C++");
    uint8_t words[16];
    if (pairs_make(frames, 16, words, 16) != 0)
        fail("header: a pair made from C++");
    words[0] ^= 0xC0; // position 0 of both
    if (pairs_read(words, 16, back, 16, verdicts, 2) != 0 || verdicts[0] != 1 || number_at(back) != 1 || verdicts[1] != LKS_NO_WORD)
        fail("header: a pair read from C++");
    uint8_t file[16 + 1 + LKS_TRAILER_BYTES], label[LKS_CAPTURE_ANSWER_BYTES], again[LKS_CAPTURE_ANSWER_BYTES];
    if (capture_write(7, frames, 16, data, 1, file, sizeof file) != sizeof file)
        fail("header: a capture written from C++");
    if (capture_head(file, sizeof file, label, sizeof label) != 0)
        fail("header: a capture's head from C++");
    if (capture_read(file, sizeof file, room, sizeof room, again, sizeof again) != 0 || memcmp(room, frames, 16) != 0)
        fail("header: a capture read from C++");
    if (memcmp(label, again, sizeof label) != 0 || number_at(label) != (uint64_t)7 << 32 || number_at(label + 4) != 2)
        fail("header: lane and count of a capture from C++");
    printf("header: the nine entries called from C++, 2 words there and back, and their frames through a pair and a capture\n");
    return 0;
}
