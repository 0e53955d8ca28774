// The hierarchical code. A block is read by trying every lawful one.
#include "answers.h"

// as the paper has them, by subset and c
static const char *const symbols[3][2] = {{"0011", "1100"}, {"0101", "1010"}, {"0110", "1001"}};

// The sixteen bits of a lawful block, one character each.
static void lawful_block(uint64_t v, uint64_t c, char bits[16])
{
    uint64_t u = v / 3, w = v % 3, subsets[4] = {u, w, (u + w) % 3, (u + 2 * w) % 3};
    for (int i = 0; i < 16; i++)
        bits[i] = symbols[subsets[i / 4]][c >> (3 - i / 4) & 1][i % 4];
}

void hier_make(void)
{
    uint64_t data = low(0, 1), block = 0;
    char bits[16];
    if (data > 127) {
        print_refusal(11);
        return;
    }
    lawful_block(data / 16, data % 16, bits);
    for (int i = 0; i < 16; i++)
        block = block * 2 + (bits[i] == '1');
    printf("%04lx", block);
}

// The bits in which a block differs from a lawful one; -1 where they are not at most two, each in a symbol of its own.
static int apart(uint64_t block, const char bits[16])
{
    int sum = 0;
    for (int i = 0; i < 4; i++) {
        int here = 0;
        for (int j = 0; j < 4; j++)
            here += (block >> (15 - 4 * i - j) & 1) != (uint64_t)(bits[4 * i + j] == '1');
        if (here > 1)
            return -1;
        sum += here;
    }
    return sum > 2 ? -1 : sum;
}

void hier_read(void)
{
    uint64_t block = low(0, 2), data = 0;
    int found = 0, flips = 0;
    char bits[16];
    for (uint64_t k = 0; k < 9 * 16; k++) {
        lawful_block(k / 16, k % 16, bits);
        int d = apart(block, bits);
        if (d < 0)
            continue;
        found++;
        data = k;
        flips = d;
    }
    if (found > 1)
        abort();
    if (!found)
        print_refusal(15);
    else if (data / 16 == 8)
        print_refusal(16);
    else {
        print(data);
        print((uint64_t)flips);
    }
}
