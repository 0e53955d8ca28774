// A capture of a lane that is alive: so many frames with no flip, with one and with two, of which so many have the wrong pad, and so many
// flips of all in check bits, in an order by chance. What a count of it must find is what was asked for.
//
// usage: living CLEAN ONE TWO PAD-WRONG CHECK-FLIPS
#include "../host/independent.h"

enum { CHECK = 51, WORD = 63 }; // the first check bit, and the positions of a word

static uint64_t state = 1;

// Whether the next of `left` has what `wanted` of them are to have: in the end just as many had it.
static int drawn(uint64_t *wanted, uint64_t left)
{
    int has = random64(&state) % left < *wanted;
    *wanted -= (uint64_t)has;
    return has;
}

// A position among the check bits or among the others that is not the one taken.
static int some_place(int is_check, int taken)
{
    int first = is_check ? CHECK : 0, end = is_check ? WORD : CHECK, place;
    do
        place = first + (int)(random64(&state) % (uint64_t)(end - first));
    while (place == taken);
    return place;
}

int main(int argc, char **argv)
{
    uint64_t left[5];
    if (argc != 6)
        return 2;
    for (int i = 0; i < 5; i++)
        left[i] = strtoul(argv[1 + i], NULL, 10);
    for (uint64_t frames = left[0] + left[1] + left[2]; frames > 0; frames--) {
        uint64_t pick = random64(&state) % frames, frame = independent_make(random64(&state) >> 16);
        unsigned flips = pick < left[0] ? 0 : pick < left[0] + left[1] ? 1 : 2;
        frame ^= (uint64_t)drawn(left + 3, frames);
        for (int place = WORD, i = 0; i < (int)flips; i++) {
            place = some_place(drawn(left + 4, left[1] + 2 * left[2] - (uint64_t)i), place);
            frame ^= spot(place);
        }
        left[flips]--;
        for (int i = 0; i < 8; i++)
            putchar((int)(frame >> (56 - 8 * i) & 255));
    }
    return left[3] != 0 || left[4] != 0;
}
