// The frame rows of the paper, and the facts of the design page about frames, held to the archive.
#include "polynomials.h"

// ---- the paper's rows

static void read_row(uint64_t frame, unsigned flips, unsigned first, unsigned second, unsigned pad_wrong, unsigned check_flips)
{
    uint8_t answer[LKS_ANSWER_BYTES];
    hold("row: refusal", lks_frame_read(frame, answer, sizeof answer), 0);
    hold("row: data", number_at(answer), 0);
    hold("row: flips", answer[8], flips);
    hold("row: first place", answer[9], first);
    hold("row: second place", answer[10], second);
    hold("row: pad", answer[11], pad_wrong);
    hold("row: check flips", answer[12], check_flips);
}

static void rows(void)
{
    static const uint64_t listing[3] = {0x0000800040003565, 0x8000800040003567, 0x000080004000356B};
    uint8_t frames[24], data[24], verdicts[3], checks[3];
    hold("row: data 0", lks_frame_make(0), 0x0000800040003565);
    hold("row: data 2^48 - 1", lks_frame_make(0xFFFFFFFFFFFF), 0xFFFF7FFFBFFFCA9A);
    hold("row 11: data 2^48", lks_frame_make(0x1000000000000), 11);
    read_row(0x8000800040003567, 2, 0, 62, 0, 1);
    read_row(0x0000800040003564, 0, 255, 255, 1, 0);
    hold("row: 60, 61, 62 flipped", verdict(0x000080004000356B), 13);
    hold("row: 64 zeros", verdict(0), 14);
    hold("row: 64 ones", verdict(~(uint64_t)0), 14);
    for (int i = 0; i < 3; i++)
        put_number(frames + 8 * i, listing[i]);
    hold("the listing's 24 bytes", lks_frames_read(frames, 24, data, 24, verdicts, 3, checks, 3), 0);
    hold("the listing's verdicts", (uint64_t)verdicts[0] << 16 | (uint64_t)verdicts[1] << 8 | verdicts[2], 0x00020D);
    hold("the listing's check flips", (uint64_t)checks[0] << 16 | (uint64_t)checks[1] << 8 | checks[2], 0x000100);
    print_held("rows: the paper's frame rows");
}

// Data 0 with flips about the first and the last check bit, 51 and 62.
static void check_flips(void)
{
    read_row(0x0000800040005565, 2, 49, 50, 0, 0);
    read_row(0x0000800040001565, 1, 50, 255, 0, 0);
    read_row(0x0000800040000565, 2, 50, 51, 0, 1);
    read_row(0x0000800040002565, 1, 51, 255, 0, 1);
    read_row(0x0000800040002567, 2, 51, 62, 0, 2);
    read_row(0x0000800040003567, 1, 62, 255, 0, 1);
    read_row(0x0000800040003566, 1, 62, 255, 1, 1);
    read_row(0x0000800040003569, 2, 60, 61, 0, 2);
    read_row(0x0000800040003568, 2, 60, 61, 1, 2);
    print_held("rows: flips in check bits and beside them");
}

// ---- the design page's facts

// Every remainder, as check bits laid over a lawful frame: 2,079 have no correction, and of them 63 have S1 = 0.
static void remainders(void)
{
    uint64_t none = 0, s1_zero = 0;
    for (uint64_t r = 0; r < 4096; r++)
        if (verdict(lks_frame_make(0) ^ r << 1) == 13) {
            none++;
            s1_zero += at(r, 2) == 0;
        }
    hold("remainders without correction", none, 2079);
    hold("of them with S1 = 0", s1_zero, 63);
    print_held("rows: 4,096 remainders, 2,079 without correction, 63 of them with S1 = 0");
}

static void three_flips(void)
{
    uint64_t count[256] = {0}, reads = 0;
    for (int a = 0; a < 63; a++)
        for (int b = a + 1; b < 63; b++)
            for (int c = b + 1; c < 63; c++, reads++)
                count[verdict(lks_frame_make(0) ^ spot(a) ^ spot(b) ^ spot(c)) & 255]++;
    hold("three flips", reads, 39711);
    hold("three flips, 13", count[13], 20811);
    hold("three flips, 14", count[14], 7530);
    hold("three flips, read wrong", count[0] + count[1] + count[2], 11370);
    print_held("rows: 39,711 three flips: 20,811 are 13, 7,530 are 14, 11,370 are read wrong");
}

// Flips at 0, 21 and 42 cancel in S1 and leave S3 a cube. With x^0 at position 0, data 0 would be another frame.
static void traps(void)
{
    uint64_t mistaken = 0x000080004000347D, turned = 0;
    hold("0, 21 and 42 flipped", 0x8000840040203565, lks_frame_make(0) ^ spot(0) ^ spot(21) ^ spot(42));
    hold("0, 21 and 42: S1", at(0x8000840040203565 >> 1, 2), 0);
    hold("0, 21 and 42 flipped is 13", verdict(0x8000840040203565), 13);
    for (int i = 0; i < 63; i++)
        turned |= (mistaken >> (63 - i) & 1) << i;
    hold("000080004000347D carries data 0", mistaken >> 13, lks_frame_make(0) >> 13);
    hold("x^0 at position 0 makes 000080004000347D", rest(turned, g14), 0);
    hold("000080004000347D is no clean frame", verdict(mistaken) == 0, 0);
    print_held("rows: 8000840040203565 is 13; 000080004000347D is the frame of x^0 at position 0");
}

int main(void)
{
    rows();
    check_flips();
    remainders();
    three_flips();
    traps();
    return 0;
}
