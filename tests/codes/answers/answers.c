#include "answers.h"

uint64_t values[VALUE_COUNT];
struct list lent, first, second;

uint64_t low(uint64_t i, int bytes) { return values[i] & (((uint64_t)1 << 8 * bytes) - 1); }

uint64_t held(uint64_t i, uint64_t most) { return low(i, 4) < most ? low(i, 4) : most; }

int bit_of(const uint8_t *bytes, uint64_t i) { return bytes[i / 8] >> (7 - i % 8) & 1; }

void print(uint64_t n) { printf("%lu ", n); }

void print_refusal(int n) { printf("refused %d ", n); }

void print_bytes(const uint8_t *bytes, uint64_t n)
{
    for (uint64_t i = 0; i < n; i++)
        printf("%02x", bytes[i]);
    putchar(' ');
}

// The sum of a list and of one number more, which goes in by its halves.
static uint64_t with(uint64_t sum, uint64_t number)
{
    sum = (sum * 16777619 + number / 4294967296) % 4294967296;
    return (sum * 16777619 + number % 4294967296) % 4294967296;
}

void print_list(const uint8_t *bytes, uint64_t n)
{
    uint64_t sum = n;
    if (n <= 200) {
        print_bytes(bytes, n);
        return;
    }
    for (uint64_t i = 0; i < n; i++)
        sum = with(sum, bytes[i]);
    print(sum);
}

void print_numbers(const uint8_t *bytes, uint64_t n)
{
    uint64_t sum = n;
    for (uint64_t i = 0; i < n; i++)
        sum = with(sum, number_at(bytes + 8 * i));
    print(sum);
}

void print_lent(int all, const uint8_t *bytes, uint64_t n) { (all ? print_bytes : print_list)(bytes, n); }

void print_lent_numbers(int all, const uint8_t *bytes, uint64_t n)
{
    if (all)
        print_bytes(bytes, 8 * n);
    else
        print_numbers(bytes, n);
}

static void (*const kinds[KINDS])(void) = {
    [HIER_MAKE] = hier_make,
    [HIER_READ] = hier_read,
    [DAP_MAKE] = dap_make,
    [DAP_READ] = dap_read,
    [BUS] = bus,
    [START] = pattern_start,
    [FILL] = pattern_fill,
    [FEED] = pattern_feed,
    [TALLY] = tally_add,
    [LANE] = lane_count,
    [CAPTURE_WRITE] = capture_write,
    [CAPTURE_READ] = capture_read,
    [SALVAGE] = salvage,
    [PAIR] = pair,
    [PAIRS_MAKE] = pairs_make,
    [PAIRS_READ] = pairs_read,
};

// Fills as much as standard input has; answers whether that is all.
static int take(uint8_t *to, uint64_t n)
{
    uint64_t done = 0;
    for (long got; done < n && (got = read(0, to + done, n - done)) > 0;)
        done += (uint64_t)got;
    return done == n;
}

// The length that stands in a head, of four bytes, held to a limit.
static uint64_t length(const uint8_t *head, int at, uint64_t most)
{
    uint64_t n = number_at(head + at) & 0xffffffff;
    return n < most ? n : most;
}

int answers(void)
{
    static uint8_t head[HEAD], buffer[LONGEST + 1];
    while (take(head, HEAD)) {
        uint64_t kind = number_at(head + KIND);
        take(buffer, length(head, TAKEN, sizeof buffer));
        lent.bytes = first.bytes = buffer;
        lent.size = length(head, LENT, sizeof buffer);
        first.size = length(head, SPLIT, lent.size);
        second.bytes = buffer + first.size;
        second.size = lent.size - first.size;
        for (int i = 0; i < VALUE_COUNT; i++)
            values[i] = number_at(head + VALUES + 8 * i);
        printf("%.16s", (const char *)head);
        (kind && kind < KINDS ? kinds[kind] : lane_count)();
        putchar('\n');
    }
    return 0;
}
