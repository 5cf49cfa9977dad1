/* makefeed.c - writes the manual's feed example (000, chapter 1.5, number 2) as an image, through bias_write.
 * Usage: makefeed FILE
 */
#include <stdio.h>

#include "bias.h"

/* The listing of the manual; ramps in 5 rpm/s, the wait in 2 ms, longer operands low byte first. */
static const uint8_t feed[][BIAS_BLOCK_LENGTH] = {
    {0x22, 0xE8, 0x03},             /*  0 Acceleration = 5000 rpm/s */
    {0x23, 0xF4, 0x01},             /*  1 Deceleration = 2500 rpm/s */
    {0x21, 0xE8, 0x03},             /*  2 START_POS: Speed = 1000 rpm */
    {0x20, 0xA0, 0x86, 0x01, 0x00}, /*  3 Position = 100000 INCR */
    {0x0E},                         /*  4 Start axis */
    {0x01, 0x00, 0x00},             /*  5 Move incremental, axis no. = 0, target = 0 */
    {0x58},                         /*  6 Wait for position reached */
    {0x59, 0xF4, 0x01},             /*  7 Wait time 1000 ms */
    {0x20, 0xBC, 0x7F, 0x00, 0x00}, /*  8 Position = 32700 INCR */
    {0x21, 0xFA, 0x00},             /*  9 Speed = 250 rpm */
    {0x0E},                         /* 10 Start axis */
    {0x01, 0x00, 0x00},             /* 11 Move incremental, axis no. = 0, target = 0 */
    {0x58},                         /* 12 Wait for "position reached" */
    {0x55, 0x02, 0x00},             /* 13 Jump START_POS */
};

int main(int argc, char **argv)
{
    uint8_t image[BIAS_MOST_IMAGE_LENGTH];
    const uint32_t count = sizeof feed / sizeof feed[0];
    if (argc != 2) {
        fprintf(stderr, "usage: makefeed FILE\n");
        return 2;
    }
    bias_verdict verdict = bias_write(BIAS_FORMAT, BIAS_TYPE_637, BIAS_SLOT_B_EMPTY, BIAS_SLOT_C_EMPTY, 0, count,
                                      &feed[0][0], sizeof feed, image, sizeof image);
    if (verdict.number != BIAS_SUCCESS) {
        fprintf(stderr, "makefeed: refusal %u place %llu\n", (unsigned)verdict.number, (unsigned long long)verdict.place);
        return 1;
    }
    FILE *file = fopen(argv[1], "wb");
    if (file == NULL || fwrite(image, 1, (size_t)verdict.place, file) != verdict.place || fclose(file) != 0) {
        perror(argv[1]);
        return 2;
    }
    return 0;
}
