// Capture files, laid out byte after byte. A count is held to the distance before it is multiplied, so that no product wraps.
#include "capture.h"

// the most that is lent: bytes for writing, numbers and bytes for reading
enum { OUTPUT = 65600, NUMBERS = 8100, BYTES = 64900 };

static const uint8_t tag[4] = {0x4c, 0x43, 0x41, 0x50};

void put_trailer(uint8_t *to, uint64_t lane, uint64_t count, uint64_t distance)
{
    for (int i = 0; i < 4; i++) {
        to[i] = tag[i];
        to[4 + i] = (uint8_t)(lane >> (24 - 8 * i));
    }
    put_number(to + 8, count);
    put_number(to + 16, distance);
}

// The first part's whole frames and the second part as a file, at the start of the output.
static void print_written(int refusal)
{
    static uint8_t out[OUTPUT];
    uint64_t at = 0, count = first.size / 8;
    memset(out, 0xee, sizeof out);
    if (refusal)
        print_refusal(refusal);
    else {
        for (uint64_t i = 0; i < 8 * count; i++)
            out[at++] = first.bytes[i];
        for (uint64_t i = 0; i < second.size; i++)
            out[at++] = second.bytes[i];
        put_trailer(out + at, low(0, 4), count, at);
        print(at + TRAILER);
    }
    print_lent(values[2] == 1, out, held(1, OUTPUT));
}

void capture_write(void)
{
    uint64_t count = first.size / 8, size = 8 * count + second.size + TRAILER;
    int refusal = size > LONGEST || size > held(1, OUTPUT) ? 12 : count > MOST_FRAMES ? 23 : 0;
    print_written(refusal);
    print_written(first.size % 8 ? 12 : refusal);
}

struct label label(struct list file)
{
    if (file.size > LONGEST)
        return (struct label){.refusal = 12};
    if (file.size < TRAILER)
        return (struct label){.refusal = 21};
    const uint8_t *trailer = file.bytes + file.size - TRAILER;
    if (memcmp(trailer, tag, sizeof tag))
        return (struct label){.refusal = 21};
    uint64_t lane = number_at(trailer) & 0xffffffff, count = number_at(trailer + 8), distance = number_at(trailer + 16);
    if (distance != file.size - TRAILER || count > distance || 8 * count > distance)
        return (struct label){.refusal = 22};
    return (struct label){count > MOST_FRAMES ? 23 : 0, lane, count};
}

static void print_label(struct label l)
{
    if (l.refusal)
        print_refusal(l.refusal);
    else {
        print(l.lane);
        print(l.count);
    }
}

// The frames of a file at the front of a lent list.
static const uint8_t *taken(struct label l)
{
    static uint8_t list[BYTES];
    memset(list, 0xee, sizeof list);
    for (uint64_t i = 0; !l.refusal && i < 8 * l.count; i++)
        list[i] = first.bytes[i];
    return list;
}

static void read_frames(struct label l)
{
    uint64_t numbers = held(0, NUMBERS), bytes = held(1, BYTES);
    struct label by_numbers = l, by_bytes = l;
    if (numbers < MOST_FRAMES)
        by_numbers.refusal = 12;
    if (bytes % 8 || bytes < 8 * MOST_FRAMES)
        by_bytes.refusal = 12;
    print_label(by_numbers);
    print_numbers(taken(by_numbers), numbers);
    print_label(by_bytes);
    print_list(taken(by_bytes), bytes);
}

void capture_read(void)
{
    struct label l = label(first);
    print_label(l);
    read_frames(l);
    if (l.refusal)
        print_bytes(first.bytes, 0);
    else
        print_list(first.bytes + 8 * l.count, first.size - TRAILER - 8 * l.count);
}
