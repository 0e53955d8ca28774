// The listing in C, for a count of instructions beside the program crates/listing: the same buffer, the same lines.
#include "reader.h"

long read(int fd, void *to, size_t n);

static uint8_t buffer[65536];

int main(void)
{
    uint64_t frames = 0, counts[15] = {0}, pads = 0, checks = 0, gap = 0, longest = 0, data, left = 0;
    tables();
    for (;;) {
        size_t have = 0;
        for (;;) {
            long got = read(0, buffer + have, sizeof buffer - have);
            if (got < 0)
                return puts("unread"), 1;
            have += (size_t)got;
            if (got == 0 || have == sizeof buffer)
                break;
        }
        for (size_t i = 0; i + 8 <= have; i += 8) {
            uint8_t pad, check, verdict = said(sums_at(buffer + i), get(buffer + i), &data, &pad, &check);
            if (__builtin_expect(verdict >= 13, 0)) {
                gap++;
                longest = gap > longest ? gap : longest;
            } else
                gap = 0;
            counts[verdict]++;
            pads += pad;
            checks += check;
            frames++;
        }
        left = have % 8;
        if (have < sizeof buffer)
            break;
    }
    printf("frames %lu\nclean %lu\none %lu\ntwo %lu\nno-word %lu\nrun-broken %lu\n", frames, counts[0], counts[1], counts[2], counts[13],
           counts[14]);
    printf("pad-wrong %lu\ncheck-flips %lu\nleft-over %lu\nlongest-gap %lu\n", pads, checks, left, longest);
    return 0;
}
