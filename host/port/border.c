/* border.c - the border of bias.h for other machines than x86-64. host/port/build.sh compiles it together with the module
 * that the proved sources become, whose functions it calls: each has `_raw` behind its name, takes the result's address
 * first, and takes lengths in 64 bits on every machine. */
#include "bias.h"

void *bias_load_raw(bias_verdict *verdict, const uint8_t *image, uint64_t image_len, uint8_t *marks, uint64_t marks_len,
                    uint8_t *state, uint64_t state_len);
void *bias_step_raw(bias_answer *answer, const uint8_t *image, uint64_t image_len, uint8_t *state, uint64_t state_len,
                    uint32_t task, const uint8_t *inputs, uint64_t inputs_len, uint8_t start_input, uint8_t ramp_ended,
                    uint8_t in_window);
void *bias_write_raw(bias_verdict *verdict, uint32_t format, uint32_t type, uint32_t slot_b, uint32_t slot_c,
                     uint32_t start, uint32_t count, const uint8_t *blocks, uint64_t blocks_len, uint8_t *out,
                     uint64_t out_len);
void *bias_write_landings_raw(bias_verdict *verdict, uint32_t format, uint32_t type, uint32_t slot_b, uint32_t slot_c,
                              uint32_t start, uint32_t count, const uint8_t *landings, uint64_t landings_len,
                              const uint8_t *blocks, uint64_t blocks_len, uint8_t *out, uint64_t out_len);

bias_verdict bias_load(const uint8_t *image, size_t image_len, uint8_t *marks, size_t marks_len, uint8_t *state,
                       size_t state_len)
{
    bias_verdict verdict;
    bias_load_raw(&verdict, image, image_len, marks, marks_len, state, state_len);
    return verdict;
}

bias_answer bias_step(const uint8_t *image, size_t image_len, uint8_t *state, size_t state_len, uint32_t task,
                      const uint8_t *inputs, size_t inputs_len, uint8_t start_input, uint8_t ramp_ended,
                      uint8_t in_window)
{
    bias_answer answer;
    bias_step_raw(&answer, image, image_len, state, state_len, task, inputs, inputs_len, start_input, ramp_ended,
                  in_window);
    return answer;
}

bias_verdict bias_write(uint32_t format, uint32_t type, uint32_t slot_b, uint32_t slot_c, uint32_t start, uint32_t count,
                        const uint8_t *blocks, size_t blocks_len, uint8_t *out, size_t out_len)
{
    bias_verdict verdict;
    bias_write_raw(&verdict, format, type, slot_b, slot_c, start, count, blocks, blocks_len, out, out_len);
    return verdict;
}

bias_verdict bias_write_landings(uint32_t format, uint32_t type, uint32_t slot_b, uint32_t slot_c, uint32_t start,
                                 uint32_t count, const uint8_t *landings, size_t landings_len, const uint8_t *blocks,
                                 size_t blocks_len, uint8_t *out, size_t out_len)
{
    bias_verdict verdict;
    bias_write_landings_raw(&verdict, format, type, slot_b, slot_c, start, count, landings, landings_len, blocks,
                            blocks_len, out, out_len);
    return verdict;
}
