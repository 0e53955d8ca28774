// What the parts of `faults says` share, and what it has of whole lanes.
#include "faults.h"

void must(int holds, const char *what)
{
    if (!holds)
        fail("faults: it is not so that %s", what);
}

const char *figure(uint64_t n)
{
    static char kept[8][32];
    static unsigned turn;
    char *at = kept[turn++ % 8] + 31;
    *at = 0;
    for (int digits = 0; digits == 0 || n; n /= 10, digits++) {
        if (digits && digits % 3 == 0)
            *--at = ',';
        *--at = (char)('0' + n % 10);
    }
    return at;
}

void count(struct figures *f, const struct reading *r)
{
    f->frames++;
    f->verdict[r->verdict]++;
    f->pad_wrong += r->pad_wrong;
    f->check_flips += r->check_flips;
}

static void crossed_pair(void)
{
    for (size_t i = 0; i < FRAMES; i++) {
        struct reading r = independent_read(crossed(i));
        must(r.verdict == 0 && !r.pad_wrong && r.data == (sent[i] ^ 0xFFFFFFFFFFFFu), "a crossed frame is that of the opposite data");
    }
    printf("Each of the %s frames is read clean, with a right pad, and hands back the opposite of the data that was sent.\n",
           figure(FRAMES));
}

// A frame that is sent over and over, and cut at the wrong place.
static void over_and_over(void)
{
    struct reading r = independent_read(again(0, 1));
    must(r.verdict == 14, "the frame of data 0 over and over, cut one bit late, is run-broken");
    r = independent_read(again(REPEATED, 1));
    must(r.verdict == 0 && r.pad_wrong, "the page's repeated frame is clean, with a wrong pad");
    printf("The frame of data %X hexadecimal, cut one bit late, is read clean as data %llX.\n", REPEATED, (shown)r.data);
    uint64_t clean = 0, right = 0;
    for (size_t i = 0; i < FRAMES; i++) {
        int some_clean = 0, some_right = 0;
        for (unsigned bits = 1; bits < 64; bits++) {
            r = independent_read(again(sent[i], bits));
            some_clean |= r.verdict == 0;
            some_right |= r.verdict == 0 && !r.pad_wrong;
        }
        clean += some_clean != 0;
        right += some_right != 0;
    }
    printf("Of %s frames sent so, %s are read clean at some wrong cut, and %s of these with a right pad.\n", figure(FRAMES), figure(clean),
           figure(right));
}

// Random bits leave each remainder as often, and right run bits one time in eight. The last twelve of the 63 bits of a code word make
// each remainder once.
static void random_frames(void)
{
    enum { REMAINDERS = 4096 };
    unsigned none = 0, near;
    for (uint64_t rest = 0; rest < REMAINDERS; rest++)
        none += independent_read(independent_make(0) ^ rest << 1).verdict == 13;
    near = REMAINDERS - none;
    unsigned thousandths[] = {none * 1000, near * 875, near * 125};
    for (int i = 0; i < 3; i++)
        thousandths[i] = (thousandths[i] + REMAINDERS / 2) / REMAINDERS;
    printf("Of the %s remainders, all as likely, %s have no code word within two flips\n", figure(REMAINDERS), figure(none));
    printf("So %u.%u %% of random frames are no-word.\n", thousandths[0] / 10, thousandths[0] % 10);
    printf("Of the other %s one in eight has three right run bits: %u.%u %% are run-broken and %u.%u %% are read\n", figure(near),
           thousandths[1] / 10, thousandths[1] % 10, thousandths[2] / 10, thousandths[2] % 10);
}

void says_of_data(void)
{
    crossed_pair();
    over_and_over();
    random_frames();
}
