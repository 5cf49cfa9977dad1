/* wide_sums.c - readers of numbers as host/port/number.sh has to refuse them: each sums the value in 64 bits, or calls for
 * help, or hands out more than 16 bits. None of them is in the library. */
#include <stddef.h>
#include <stdint.h>

typedef struct {
    uint64_t wide;
    uint32_t word;
    uint16_t narrow;
} number;

/* A product of 64 bits for each byte. */
void by_weights(number *out, const uint8_t *image, size_t at)
{
    uint64_t value = 0, weight = 1;
    for (; image[at] >= 128; at++) {
        value += (image[at] - 128) * weight;
        weight *= 131;
    }
    out->narrow = (uint16_t)((value + image[at] * weight) >> 40);
}

/* Sums with carry. */
void by_carry(number *out, const uint8_t *image, size_t at)
{
    uint64_t value = 0xFFFFFF00;
    for (; image[at] >= 128; at++)
        value += image[at];
    out->narrow = (uint16_t)(value >> 32);
}

/* Shifted by more than a word's width. */
void by_shifts(number *out, const uint8_t *image, size_t at)
{
    uint64_t value = 0;
    for (; image[at] >= 128; at++)
        value = value << 7 | (image[at] & 127u);
    out->wide = value;
}

/* In 32 bits. */
void in_a_word(number *out, const uint8_t *image, size_t at)
{
    out->word = image[at] - 128u + 128u * image[at + 1];
}

/* A quotient of 64 bits, for which there is no instruction. */
void by_a_call(number *out, const uint8_t *image, size_t at)
{
    uint64_t value = 0x123456789ABCDEF0u;
    out->narrow = (uint16_t)(value / (image[at] | 1u));
}
