// What salvage must make of a capture, from the words of.
#include "salvage.h"

enum { LONGEST = 65536, TRAILER = 24, MOST_FRAMES = 8000 };

static uint8_t file[LONGEST + 1]; // one byte more tells a file that is too long
static size_t size;

static uint64_t places[MOST_FRAMES]; // of each frame
static int refused[MOST_FRAMES];

static void load(void)
{
    long got;
    while (size < sizeof file && (got = read(0, file + size, sizeof file - size)) > 0)
        size += (size_t)got;
}

// The refusals of Q-1 in their order; a count is held to the distance by division, so that no product wraps.
static int refusal(void)
{
    static const uint8_t tag[4] = {0x4C, 0x43, 0x41, 0x50};
    if (size > LONGEST)
        return 12;
    if (size < TRAILER || memcmp(file + size - TRAILER, tag, sizeof tag))
        return 21;
    uint64_t count = number_at(file + size - 16), distance = number_at(file + size - 8);
    if (distance != size - TRAILER || count > distance / 8)
        return 22;
    return count > MOST_FRAMES ? 23 : 0;
}

// A readable frame becomes the frame of its data, so that the places altered are where the two differ.
static void salvage(uint64_t i)
{
    uint64_t frame = number_at(file + 8 * i);
    struct reading r = independent_read(frame);
    refused[i] = r.verdict > 2;
    if (refused[i])
        return;
    uint64_t clean = independent_make(r.data);
    for (int position = 0; position < 64; position++)
        if ((frame & spot(position)) != (clean & spot(position)))
            places[i] |= spot(position);
    if (places[i] != independent_places(r))
        fail("frame %llx: the frame of its data and the frame without its flips differ", (shown)frame);
    put_number(file + 8 * i, clean);
}

static void print_account(uint64_t count)
{
    uint64_t changed = 0, left = 0;
    for (uint64_t i = 0; i < count; i++) {
        changed += places[i] != 0;
        left += (uint64_t)refused[i];
    }
    printf("frames %llu\naltered %llu\nrefused %llu\n", (shown)count, (shown)changed, (shown)left);
    for (uint64_t i = 0; i < count; i++) {
        if (places[i] != 0)
            printf("altered %llu %016llX\n", (shown)i, (shown)places[i]);
        if (refused[i])
            printf("refused %llu\n", (shown)i);
    }
}

int expected(void)
{
    load();
    int number = refusal();
    if (number != 0)
        return number;
    uint64_t count = number_at(file + size - 16);
    for (uint64_t i = 0; i < count; i++)
        salvage(i);
    print_account(count);
    return !written(3, file, size);
}
