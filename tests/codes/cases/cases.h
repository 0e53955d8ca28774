// The case that is written next, chance, and who writes the cases of each group.
#ifndef CASES_H
#define CASES_H
#include "../codes.h"

extern struct next {
    uint64_t values[VALUE_COUNT], split, extra; // of the list, the length of its first part; bytes lent past those that the case brings
    uint8_t list[LONGEST + 1];
    uint64_t size;
} next;

void put(uint64_t byte);                   // into the list
void put_eight(uint64_t number);           // its bytes, highest first
void split(void);                          // the first part ends here: it is the whole list, where this is not called
void add(uint64_t kind, const char *name); // writes the case, with the values of `next`
#define VALUES_OF(...) memcpy(next.values, (const uint64_t[VALUE_COUNT]){__VA_ARGS__}, sizeof next.values)

void seed(uint64_t number);
uint64_t any(void);
uint64_t below(uint64_t n);
int one_in(uint64_t n);
uint64_t one_of(const uint64_t *list, uint64_t n);
#define ONE_OF(...) one_of((const uint64_t[]){__VA_ARGS__}, sizeof((const uint64_t[]){__VA_ARGS__}) / sizeof(uint64_t))

uint64_t some_pattern(void);         // mostly one that there is
uint64_t some_frame(void);           // with up to three flips and any pad; or at chance
uint64_t frame_of(unsigned verdict); // one that is read so
void ask_pair(uint64_t a, uint64_t b);
void read_pairs(const char *name); // all that was put, into lists that just fit

void rows(void);
void tally_rows(void); // of rows; so are the next three
void capture_rows(void);
void salvage_rows(void);
void pair_rows(void);
void hier_cases(void);
void dap_cases(void);
void bus_cases(void);
void fill_cases(void);
void feed_cases(void);
void tally_cases(void);
void lane_cases(void);
void capture_cases(void);
void salvage_cases(void);
void pairs_cases(void);
void pair_bursts(void); // of pairs_cases
#endif
