/* SPDX-License-Identifier: Apache-2.0
 *
 * The proved entry points, which crates/dsp_library exports. rokdaum.c calls them once it has tested what a caller gave;
 * c/check_header compares these prototypes with the exports. */
#ifndef ROKDAUM_PROVED_H
#define ROKDAUM_PROVED_H

#include "rokdaum.h"

/* A handle as the exports take it: `machine` of a `rokdaum`. */
typedef struct rokdaum_handle {
    uint64_t mark;
    void *at;
} rokdaum_handle;

int32_t rokdaum_proved_open(rokdaum_handle *handle, const rokdaum_options *options);
int32_t rokdaum_proved_close(rokdaum_handle *handle);
int32_t rokdaum_proved_create(rokdaum_handle *handle, uint8_t i, uint32_t kind, uint8_t group, const int16_t *parameters, rokdaum_length parameters_len, uint32_t *full);
int32_t rokdaum_proved_delete(rokdaum_handle *handle, uint8_t i);
int32_t rokdaum_proved_chain(rokdaum_handle *handle, uint8_t channel, const uint8_t *members, rokdaum_length members_len);
int32_t rokdaum_proved_unchain(rokdaum_handle *handle, uint8_t channel);
int32_t rokdaum_proved_ready(rokdaum_handle *handle, uint8_t channel);
int32_t rokdaum_proved_feed_sample(rokdaum_handle *handle, uint8_t channel, int16_t sample, int16_t *out, uint32_t *count);
int32_t rokdaum_proved_feed(rokdaum_handle *handle, uint8_t channel, const int16_t *input, rokdaum_length input_len, int16_t *out, rokdaum_length out_len, uint32_t *count);
int32_t rokdaum_proved_set(rokdaum_handle *handle, uint8_t i, const int16_t *words, rokdaum_length words_len);
int32_t rokdaum_proved_reset(rokdaum_handle *handle, uint8_t i);
int32_t rokdaum_proved_get(rokdaum_handle *handle, uint8_t i, int16_t *words, rokdaum_length words_len, uint32_t *count);
int32_t rokdaum_proved_step(rokdaum_handle *handle, uint32_t space, uint32_t *moved);
int32_t rokdaum_proved_compact(rokdaum_handle *handle, uint32_t space, uint32_t *moved);
int32_t rokdaum_proved_copied(rokdaum_handle *handle, uint64_t *words);
int32_t rokdaum_proved_release(rokdaum_handle *handle, uint8_t group, uint32_t *released);
int32_t rokdaum_proved_stat(rokdaum_handle *handle, uint8_t group, int32_t *active, uint32_t *activations);
int32_t rokdaum_proved_map(rokdaum_handle *handle, uint32_t space, rokdaum_block *blocks, rokdaum_length blocks_len, uint32_t *count);

int16_t rokdaum_proved_add(int16_t a, int16_t b);
int32_t rokdaum_proved_l_mac(int32_t v, int16_t a, int16_t b);
int32_t rokdaum_proved_div_s(int16_t a, int16_t b, int16_t *quotient);
int32_t rokdaum_proved_add_block(const int16_t *a, rokdaum_length a_len, const int16_t *b, rokdaum_length b_len, int16_t *out, rokdaum_length out_len);
int32_t rokdaum_proved_sub_block(const int16_t *a, rokdaum_length a_len, const int16_t *b, rokdaum_length b_len, int16_t *out, rokdaum_length out_len);
int32_t rokdaum_proved_mult_block(int16_t gain, const int16_t *samples, rokdaum_length samples_len, int16_t *out, rokdaum_length out_len);
int32_t rokdaum_proved_shl_block(const int16_t *samples, rokdaum_length samples_len, int16_t shift, int16_t *out, rokdaum_length out_len);
int32_t rokdaum_proved_shr_block(const int16_t *samples, rokdaum_length samples_len, int16_t shift, int16_t *out, rokdaum_length out_len);
int32_t rokdaum_proved_l_mac_block(int32_t v, const int16_t *a, rokdaum_length a_len, const int16_t *b, rokdaum_length b_len, int32_t *sum);
int32_t rokdaum_proved_fir(const int16_t *coefficients, rokdaum_length coefficients_len, const int16_t *line, rokdaum_length line_len, int16_t *out, rokdaum_length out_len);
int32_t rokdaum_proved_g711_encode(uint32_t law, const int16_t *samples, rokdaum_length samples_len, uint8_t *codes, rokdaum_length codes_len);
int32_t rokdaum_proved_g711_decode(uint32_t law, const uint8_t *codes, rokdaum_length codes_len, int16_t *samples, rokdaum_length samples_len);

#endif
