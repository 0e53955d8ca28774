// Salvage of a capture, from the words of Q-4. A list is held as bytes, eight a number.
#include "../../host/independent.h"
#include "capture.h"

enum { NUMBERS = 8100 }; // the most that is lent of each list

enum { ALTERED, PLACES, REFUSED, LISTS };

static struct {
    uint8_t bytes[8 * NUMBERS];
    uint64_t room, entries;
} lists[LISTS];

static void tell(int list, uint64_t number) { put_number(lists[list].bytes + 8 * lists[list].entries++, number); }

// A readable frame becomes the frame of its data: it must differ from it in the places answered, no others.
static void salvage_frame(uint64_t i)
{
    uint64_t frame = number_at(lent.bytes + 8 * i);
    struct reading r = independent_read(frame);
    if (r.verdict > 2) {
        tell(REFUSED, i);
        return;
    }
    uint64_t clean = independent_make(r.data), places = independent_places(r);
    if ((frame ^ clean) != places)
        fail("frame %llx: the frame of its data and the frame without its flips differ", (shown)frame);
    if (places) {
        tell(ALTERED, i);
        tell(PLACES, places);
        put_number(lent.bytes + 8 * i, clean);
    }
}

// Lists that hold ee in every byte; whether each has room for so many entries.
static int lend_lists(uint64_t entries)
{
    int fit = 1;
    for (int i = 0; i < LISTS; i++) {
        memset(lists[i].bytes, 0xee, sizeof lists[i].bytes);
        lists[i].entries = 0;
        lists[i].room = held((uint64_t)i, NUMBERS);
        fit &= lists[i].room >= entries;
    }
    return fit;
}

static void print_left(void)
{
    const int all = values[LISTS] == 1;
    print_lent(all, lent.bytes, lent.size);
    for (int i = 0; i < LISTS; i++)
        print_lent_numbers(all, lists[i].bytes, lists[i].room);
}

void salvage(void)
{
    struct label l = label(lent);
    int fit = lend_lists(l.count);
    if (l.refusal || !fit)
        print_refusal(l.refusal ? l.refusal : 12);
    else {
        for (uint64_t i = 0; i < l.count; i++)
            salvage_frame(i);
        print(lists[ALTERED].entries);
        print(lists[REFUSED].entries);
    }
    print_left();
}
