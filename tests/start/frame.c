// A user's program over the installed header and library: prints the frame of data 1234 and the version of the header.
#include "../plain.h"
#include "lakshrumov.h"

int main(void)
{
    printf("frame %016llX\n", (shown)lks_frame_make(0x1234));
    printf("version %d.%d.%d\n", LKS_VERSION / 10000, LKS_VERSION / 100 % 100, LKS_VERSION % 100);
    return 0;
}
