// Makes the capture of a lane with one fault, from good frames of random data.
//
// usage: faults                the names of the faults, a line each
//        faults NAME           writes its capture; "Sound" is the lane without a fault
//        faults says           what docs/READING.md must say of faults, a line each
#include "faults.h"

uint64_t sent[FRAMES + 1], line[FRAMES + 1];

static void make_line(void)
{
    uint64_t state = 1;
    for (size_t i = 0; i <= FRAMES; i++) {
        sent[i] = random64(&state) >> 16;
        line[i] = independent_make(sent[i]);
    }
}

// The k-th of 256 random numbers that belong to i.
static uint64_t random_at(size_t i, unsigned k)
{
    uint64_t state = (uint64_t)i << 8 | k;
    return random64(&state);
}

static uint64_t sound(size_t i) { return line[i]; }

static uint64_t zeros(size_t i) { return (void)i, 0; }

static uint64_t ones(size_t i) { return (void)i, ~(uint64_t)0; }

// The line stops at zero after 30 bits of one frame and goes on after 30 bits of another.
uint64_t paused(size_t i)
{
    enum { STOPS = 4000, GOES_ON = 7000 };
    uint64_t first = ~(uint64_t)0 << 34;
    if (i == STOPS)
        return line[i] & first;
    if (i == GOES_ON)
        return line[i] & ~first;
    return i > STOPS && i < GOES_ON ? 0 : line[i];
}

uint64_t crossed(size_t i) { return ~line[i]; }

uint64_t late(size_t i, unsigned bits) { return line[i] << bits | line[i + 1] >> (64 - bits); }

static uint64_t late_1(size_t i) { return late(i, 1); }

static uint64_t late_17(size_t i) { return late(i, 17); }

uint64_t again(uint64_t data, unsigned bits)
{
    uint64_t frame = independent_make(data);
    return frame << bits | frame >> (64 - bits);
}

static uint64_t again_late_1(size_t i) { return (void)i, again(REPEATED, 1); }

static uint64_t lowest_first(size_t i)
{
    uint64_t turned = 0;
    for (int k = 0; k < 64; k += 8)
        turned = turned << 8 | (line[i] >> k & 255);
    return turned;
}

uint64_t noise(size_t i) { return random_at(i, 0); }

// Each bit flips with one chance in 128.
uint64_t chance(size_t i)
{
    uint64_t flips = ~(uint64_t)0;
    for (unsigned k = 0; k < 7; k++)
        flips &= random_at(i, k);
    return line[i] ^ flips;
}

// Once in twenty frames ten neighbouring bits of the line are random. They may begin in one frame and end in the next.
uint64_t burst(size_t i)
{
    enum { APART = 20, LONG = 10 };
    uint64_t flips = random_at(i / APART, 0) >> (64 - LONG);
    long begins = (long)(random_at(i / APART, 1) % (64 * APART - LONG)) - 64 * (long)(i % APART), up = 64 - LONG - begins;
    if (begins <= -LONG || begins >= 64)
        return line[i];
    return line[i] ^ (up >= 0 ? flips << up : flips >> -up);
}

static const struct fault {
    const char *name; // its section of docs/READING.md
    uint64_t (*received)(size_t i);
    size_t first, last; // bytes that the file lost at its start and at its end
} faults[] = {
    {"Sound", sound, 0, 0},
    {"Dead at zero", zeros, 0, 0},
    {"Dead at one", ones, 0, 0},
    {"Still for a part", paused, 0, 0},
    {"Crossed pair", crossed, 0, 0},
    {"Slipped by one bit", late_1, 0, 0},
    {"Slipped by more bits", late_17, 0, 0},
    {"One frame over and over", again_late_1, 0, 0},
    {"Bytes in the wrong order", lowest_first, 0, 0},
    {"Noise", noise, 0, 0},
    {"Flips by chance", chance, 0, 0},
    {"Bursts", burst, 0, 0},
    {"First bytes lost", sound, 3, 0},
    {"Last bytes lost", sound, 0, 3},
};
enum { FAULTS = sizeof faults / sizeof faults[0] };

static void write_capture(const struct fault *f)
{
    static uint8_t bytes[8 * FRAMES];
    for (size_t i = 0; i < FRAMES; i++)
        put_number(bytes + 8 * i, f->received(i));
    for (size_t done = f->first, end = sizeof bytes - f->last; done < end;) {
        long got = write(1, bytes + done, end - done);
        if (got <= 0)
            exit(1);
        done += (size_t)got;
    }
}

int main(int argc, char **argv)
{
    make_line();
    if (argc == 1) {
        for (size_t k = 1; k < FAULTS; k++)
            printf("%s\n", faults[k].name);
        return 0;
    }
    if (!strcmp(argv[1], "says")) {
        says_of_data();
        says_of_cuts();
        says_of_flips();
        says_of_gaps();
        return 0;
    }
    for (size_t k = 0; k < FAULTS; k++)
        if (!strcmp(argv[1], faults[k].name))
            return write_capture(faults + k), 0;
    return 2;
}
