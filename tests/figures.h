// How often frames had each verdict, and the ten lines that the listing has of it.
#ifndef FIGURES_H
#define FIGURES_H
#include "plain.h"

struct figures {
    uint64_t frames, verdict[256], pad_wrong, check_flips;
};

static inline void print_listing(const struct figures *f, size_t left_over, uint64_t gap)
{
    printf("frames %llu\nclean %llu\none %llu\ntwo %llu\n", (shown)f->frames, (shown)f->verdict[0], (shown)f->verdict[1],
           (shown)f->verdict[2]);
    printf("no-word %llu\nrun-broken %llu\npad-wrong %llu\n", (shown)f->verdict[13], (shown)f->verdict[14], (shown)f->pad_wrong);
    printf("check-flips %llu\nleft-over %llu\nlongest-gap %llu\n", (shown)f->check_flips, (shown)left_over, (shown)gap);
}
#endif
