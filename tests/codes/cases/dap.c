#include "cases.h"

// Two copies of two bytes, the first of odd parity, and the parity: 33 bits, of which each two are damaged once.
static void double_errors(void)
{
    for (int i = 0; i < 33; i++)
        for (int j = 0; j < i; j++) {
            uint64_t bits = 0xa53da53d1 ^ (uint64_t)1 << (i ? i + 3 : 0) ^ (uint64_t)1 << (j ? j + 3 : 0);
            VALUES_OF(bits & 1);
            for (int byte = 3; byte >= 0; byte--) {
                put(bits >> (4 + 8 * byte));
                if (byte == 2)
                    split();
            }
            add(DAP_READ, "dap double");
        }
}

static uint64_t some_length(void) { return one_in(3) ? ONE_OF(0, 1, 2, 63, 64, 65, 127, 128) : 1 + below(64); }

static void make(void)
{
    uint64_t n = some_length();
    uint64_t first = one_in(2) ? n : one_in(2) ? n + below(4) : below(70);
    uint64_t second = one_in(2) ? n : one_in(2) ? n - (n && one_in(2)) : below(300);
    VALUES_OF(first, second);
    for (uint64_t i = 0; i < n; i++)
        put(any());
    add(DAP_MAKE, "dap make");
}

static void read_back(void)
{
    uint64_t n = some_length(), m = one_in(12) ? some_length() : n, ones = 0;
    uint8_t *second = next.list + n;
    for (uint64_t i = 0; i < n; i++) {
        put(any());
        for (int j = 0; j < 8; j++)
            ones += next.list[i] >> j & 1;
    }
    split();
    for (uint64_t i = 0; i < m; i++)
        put(i < n ? next.list[i] : any());
    for (uint64_t flips = n + m ? ONE_OF(0, 1, 1, 1, 2, 3) : 0; flips; flips--)
        next.list[below(n + m)] ^= (uint8_t)(1 << below(8));
    if (one_in(30) && m)
        second[below(m)] = (uint8_t)any();
    VALUES_OF(one_in(12) ? ONE_OF(2, 3, 128, 255) : (ones + (uint64_t)one_in(3)) % 2);
    add(DAP_READ, "dap read");
}

void dap_cases(void)
{
    double_errors();
    seed(1);
    for (int i = 0; i < 3600; i++)
        if (one_in(3))
            make();
        else
            read_back();
}
