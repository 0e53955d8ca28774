// Duplicate-add-parity.
#include "answers.h"

static uint64_t parity_of(struct list copy)
{
    uint64_t sum = 0;
    for (uint64_t i = 0; i < 8 * copy.size; i++)
        sum += (uint64_t)bit_of(copy.bytes, i);
    return sum % 2;
}

// An output of a length whose first bytes are written with the data.
static void print_output(uint64_t length, uint64_t written)
{
    for (uint64_t i = 0; i < length; i++)
        printf("%02x", i < written ? first.bytes[i] : 0xee);
    putchar(' ');
}

static uint64_t output(uint64_t i) { return low(i, 4) < 255 ? low(i, 4) : 255; }

void dap_make(void)
{
    uint64_t n = output(0), m = output(1), k = first.size;
    int lawful = k >= 1 && k <= 64 && n >= k && m >= k;
    if (lawful)
        print(parity_of(first));
    else
        print_refusal(12);
    print_output(n, lawful ? k : 0);
    print_output(m, lawful ? k : 0);
}

// Two copies of a length, no more than one bit apart. The good one is handed back.
static struct list good_copy(uint64_t parity, int differing)
{
    int first_agrees = parity_of(first) == parity, second_agrees = parity_of(second) == parity;
    if (differing == 0) {
        print(first_agrees ? 0 : 3);
        return first;
    }
    if (first_agrees == second_agrees)
        abort();
    print(first_agrees ? 2 : 1);
    return first_agrees ? first : second;
}

void dap_read(void)
{
    uint64_t parity = low(0, 1), n = first.size;
    int differing = 0, refusal = n < 1 || n > 64 || n != second.size ? 12 : parity > 1 ? 11 : 0;
    struct list good = {first.bytes, 0};
    for (uint64_t i = 0; !refusal && i < 8 * n; i++)
        differing += bit_of(first.bytes, i) != bit_of(second.bytes, i);
    if (differing > 1)
        refusal = 17;
    if (refusal)
        print_refusal(refusal);
    else
        good = good_copy(parity, differing);
    print_bytes(good.bytes, good.size);
}
