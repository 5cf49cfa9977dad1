/* version.c - prints the version of include/bias.h and the numbers that go with it, as host/versions.txt has them, but for
 * the checksum of its structs and functions (host/check/border.sh). */
#include <stdio.h>

#include "bias.h"

int main(void)
{
    printf("%u %u %u %u %u %u %u %u\n", (unsigned)BIAS_VERSION, BIAS_STATE_LAYOUT, BIAS_MARKS_LENGTH, BIAS_STATE_LENGTH,
           BIAS_INPUTS_LENGTH, BIAS_MOST_BLOCKS, BIAS_MOST_DEPTH, BIAS_MOST_IMAGE_LENGTH);
    return 0;
}
