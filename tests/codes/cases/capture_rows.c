#include "cases.h"

// A frame and the notes "ok", of lane 01020304.
static const char capture[] = "\0\0\x80\0\x44\x8d\x21\xb9"
                              "okLCAP\1\2\3\4"
                              "\0\0\0\0\0\0\0\1"
                              "\0\0\0\0\0\0\0\12";

static void write_row(uint64_t frames, uint64_t notes, uint64_t room)
{
    memcpy(next.list, capture, 10);
    next.size = 10;
    next.extra = 8 * frames + notes - 10;
    next.split = 8 * frames + 1;
    VALUES_OF(0x01020304, room);
    add(CAPTURE_WRITE, "capture write");
}

static void read_row(uint64_t changed, uint64_t byte, uint64_t room)
{
    memcpy(next.list, capture, 34);
    next.list[changed] = (uint8_t)byte;
    next.size = 34;
    VALUES_OF(room, 8 * room);
    add(CAPTURE_READ, "capture read");
}

void capture_rows(void)
{
    write_row(1, 2, 36);
    write_row(1, 2, 33);
    write_row(8001, 0, 8 * 8001 + 24);
    read_row(0, 0, 8000);
    read_row(13, 'Q', 0);
    read_row(18, 0x20, 0); // a count of 2^61 + 1
}

// The bench numbers: a clean frame, flips at 0 and 62, three flips, a wrong pad; of lane 7, with a byte of notes.
static const char bench[] = "\0\0\x80\0\x40\0\x35\x65"
                            "\x80\0\x80\0\x40\0\x35\x67"
                            "\0\0\x80\0\x40\0\x35\x6b"
                            "\0\0\x80\0\x40\0\x35\x64"
                            "!LCAP\0\0\0\7"
                            "\0\0\0\0\0\0\0\4"
                            "\0\0\0\0\0\0\0\41";

static void salvage_row(uint64_t altered, uint64_t places, uint64_t refused)
{
    VALUES_OF(altered, places, refused, 1);
    add(SALVAGE, "salvage");
}

// With one byte turned.
static void bench_row(uint64_t byte, uint64_t by, uint64_t altered, uint64_t places, uint64_t refused)
{
    next.size = sizeof bench - 1;
    memcpy(next.list, bench, next.size);
    next.list[byte] ^= (uint8_t)by;
    salvage_row(altered, places, refused);
}

void salvage_rows(void)
{
    bench_row(0, 0, 4, 4, 5);
    next.extra = sizeof bench - 1; // what that left
    salvage_row(5, 4, 4);
    bench_row(0, 0, 3, 4, 4);
    bench_row(0, 0, 4, 3, 4);
    bench_row(0, 0, 4, 4, 3);
    bench_row(36, 1, 4, 4, 4);    // no tag
    bench_row(41, 0x20, 4, 4, 4); // a count of 2^61 + 4
    bench_row(56, 1, 0, 0, 0);    // another distance
}
