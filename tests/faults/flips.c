// What flips by chance and flips in bursts come to.
#include "faults.h"

struct worth {
    struct figures all;
    uint64_t changed, kept, refused; // frames that came otherwise than sent; of these, read as sent; refused
    uint64_t other[3];               // read as other data, by flips
};

static struct worth worth_of(uint64_t (*received)(size_t i))
{
    struct worth w = {{0, {0}, 0, 0}, 0, 0, 0, {0}};
    for (size_t i = 0; i < FRAMES; i++) {
        uint64_t frame = received(i);
        struct reading r = independent_read(frame);
        count(&w.all, &r);
        w.changed += frame != line[i];
        if (r.verdict > 2)
            w.refused++;
        else if (r.data != sent[i])
            w.other[r.verdict]++;
        else
            w.kept += frame != line[i];
    }
    return w;
}

// How many of the frames that are read with one flip and with two hand back other data.
static void misread(const struct worth *w)
{
    must(w->other[0] == 0, "no clean frame is misread");
    printf("Of the %s frames read with two flips %s hand back other data than was sent, of the %s with one flip %s.\n",
           figure(w->all.verdict[2]), figure(w->other[2]), figure(w->all.verdict[1]), figure(w->other[1]));
}

static void in_check_bits(const struct worth *w)
{
    uint64_t flips = w->all.verdict[1] + 2 * w->all.verdict[2], checks = w->all.check_flips;
    must(9 * 12 * flips < 10 * 63 * checks && 10 * 63 * checks < 11 * 12 * flips, "by chance, about 12 in 63 flips are in check bits");
    printf("Of the %s flips undone %s are in check bits, about 12 in 63.\n", figure(flips), figure(checks));
}

static void by_chance(void)
{
    struct worth w = worth_of(chance);
    uint64_t clean = w.all.verdict[0], one = w.all.verdict[1], two = w.all.verdict[2];
    must(18 * clean * two < 10 * one * one && 10 * one * one < 22 * clean * two, "by chance, one × one is about twice clean × two");
    printf("Here 63 × clean / one is %s, and one bit in 128 was flipped.\n", figure((63 * clean + one / 2) / one));
    in_check_bits(&w);
    misread(&w);
}

static void in_bursts(void)
{
    struct worth w = worth_of(burst);
    uint64_t clean = w.all.verdict[0], one = w.all.verdict[1], two = w.all.verdict[2];
    must(1000 * one * one < clean * two, "in bursts, clean × two is more than a thousand times one × one");
    printf("The bursts changed %s frames: %s are refused and %s hand back the data that was sent.\n", figure(w.changed),
           figure(w.refused), figure(w.kept));
    misread(&w);
}

// At how many places of the first 63 bits so many neighbours, all inverted, have the verdict. It is the same for all data: a verdict is a
// matter of the frame's sums, which are linear.
static unsigned inverted(int neighbours, unsigned verdict)
{
    unsigned places = 0;
    for (int from = 0; from + neighbours <= 63; from++) {
        uint64_t frame = independent_make(0);
        for (int k = 0; k < neighbours; k++)
            frame ^= spot(from + k);
        places += independent_read(frame).verdict == verdict;
    }
    return places;
}

static void neighbours(void)
{
    must(inverted(1, 1) == 63 && inverted(2, 2) == 62, "one and two inverted neighbours are undone");
    must(inverted(3, 13) == 61 && inverted(4, 13) == 60, "three and four inverted neighbours are no-word");
    printf("Three or four neighbours, all inverted, are no-word wherever they stand in the first 63 bits; of the 59 places of five, %u",
           inverted(5, 2));
    printf(" are read as other data with two flips.\n");
}

void says_of_flips(void)
{
    by_chance();
    in_bursts();
    neighbours();
}
