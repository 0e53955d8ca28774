// Cases for crates/cases, a group at a time: what is asked, not what the answer is.
#include "cases.h"

static const struct {
    const char *name;
    void (*write)(void);
} groups[] = {
    {"rows", rows},             // the bench rows, the worked examples and the outside vectors: what crates/cases/stdin has
    {"hier", hier_cases},       // every data byte and every block
    {"dap", dap_cases},         // all double errors of two bytes; copies with up to three flips, lengths lawful and not; any outputs
    {"bus", bus_cases},         // every state and datum of widths 1 to 6; any width, changes about half of it, states out of range
    {"fill", fill_cases},       // every pattern; buffers about 65,536 bytes; short ones, registers and patterns out of range
    {"feed", feed_cases},       // pieces of a pattern with a few flips, from any state, in range and not; pieces about 65,536 bytes
    {"tally", tally_cases},     // states about each limit; lists of unequal lengths, bytes that are none, no room, and all of these at
                                // once; every order of up to eight accepted and refused frames
    {"lane", lane_cases},       // the same states and orders; pieces of frames with up to three flips, and such about 65,536 bytes
    {"capture", capture_cases}, // files and trailers about each limit, every byte of a small one, lists and outputs of any length
    {"salvage", salvage_cases}, // bent frames, every pattern of two flips, still lines; files that are refused; lists of any length
    {"pairs", pairs_cases},     // each place of two frames; lists of every length up to 65 and of thousands, to outputs of any length;
                                // frames read and refused side by side, every burst of up to four, and bursts of five that lose data
};

struct next next;
static uint64_t state;

static void out(const uint8_t *bytes, uint64_t n)
{
    while (n) {
        long done = write(1, bytes, n);
        if (done <= 0)
            exit(1);
        bytes += done;
        n -= (uint64_t)done;
    }
}

void put(uint64_t byte) { next.list[next.size++] = (uint8_t)byte; }

void put_eight(uint64_t number)
{
    put_number(next.list + next.size, number);
    next.size += 8;
}

void split(void) { next.split = next.size + 1; }

// What is lent and not brought by the case is what an earlier one left.
void add(uint64_t kind, const char *name)
{
    static uint8_t head[HEAD];
    uint64_t lent = next.size + next.extra;
    memset(head, ' ', NAME);
    for (int i = 0; name[i]; i++)
        head[i] = (uint8_t)name[i];
    put_number(head + KIND, kind);
    put_number(head + TAKEN, next.size);
    put_number(head + LENT, lent);
    put_number(head + SPLIT, next.split ? next.split - 1 : lent);
    for (int i = 0; i < VALUE_COUNT; i++)
        put_number(head + VALUES + 8 * i, next.values[i]);
    out(head, HEAD);
    out(next.list, next.size);
    next.size = next.split = next.extra = 0;
}

void seed(uint64_t number) { state = number; }

uint64_t any(void) { return random64(&state); }

uint64_t below(uint64_t n) { return any() % n; }

int one_in(uint64_t n) { return below(n) == 0; }

uint64_t one_of(const uint64_t *list, uint64_t n) { return list[below(n)]; }

int cases(const char *group)
{
    for (size_t i = 0; i < sizeof groups / sizeof groups[0]; i++)
        if (!strcmp(group, groups[i].name)) {
            groups[i].write();
            return 0;
        }
    return 2;
}
