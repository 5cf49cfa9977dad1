/* reference.h - the independent reference (host/reference) under names of its own, beside the library's. */
#ifndef REFERENCE_H
#define REFERENCE_H

#include "bias.h"

bias_verdict reference_load(const uint8_t *image, size_t image_len, uint8_t *marks, size_t marks_len, uint8_t *state,
                            size_t state_len);
bias_answer reference_step(const uint8_t *image, size_t image_len, uint8_t *state, size_t state_len, uint32_t task,
                           const uint8_t *inputs, size_t inputs_len, uint8_t start_input, uint8_t ramp_ended,
                           uint8_t in_window);
bias_verdict reference_write(uint32_t format, uint32_t type, uint32_t slot_b, uint32_t slot_c, uint32_t start,
                             uint32_t count, const uint8_t *blocks, size_t blocks_len, uint8_t *out, size_t out_len);
bias_verdict reference_write_landings(uint32_t format, uint32_t type, uint32_t slot_b, uint32_t slot_c, uint32_t start,
                                      uint32_t count, const uint8_t *landings, size_t landings_len,
                                      const uint8_t *blocks, size_t blocks_len, uint8_t *out, size_t out_len);

#endif
