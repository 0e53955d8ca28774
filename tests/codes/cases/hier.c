#include "cases.h"

void hier_cases(void)
{
    for (uint64_t i = 0; i < 256; i++) {
        VALUES_OF(i);
        add(HIER_MAKE, "hier make");
    }
    for (uint64_t i = 0; i < 65536; i++) {
        VALUES_OF(i);
        add(HIER_READ, "hier read");
    }
}
