/* SPDX-License-Identifier: Apache-2.0
 * The arithmetic of the five kinds over a block of samples. baseline.c has it in the order of the definitions, best.c as quick as
 * it gets; both give the same words.
 *
 * Where a `line` is said, line[0 .. taps - 2] are the samples before the block, the oldest first, and line[taps - 1 ..] is the
 * block. PAD words behind it may be read. No output overlaps an input. */
#ifndef KERNELS_H
#define KERNELS_H
#include "operators.h"

enum { TAPS_MAX = 64, PAD = 128 };

/* y[i] = sum of c[k] x[i - k], each partial sum saturated, in Q15. */
void fir(const word16 *c, int taps, const word16 *line, int n, word16 *y);

/* The same at the last of each `by` samples. `phase` are the samples since the last output. Returns how many outputs there are. */
int decimate(const word16 *c, int taps, int by, int phase, const word16 *line, int n, word16 *y);

/* A second-order section: c has b0 b1 b2 a1 a2 in Q14, past has x1 x2 y1 y2, which go on. */
void biquad(const word16 c[5], word16 past[4], const word16 *x, int n, word16 *y);

/* Goertzel's resonator: the level of each frame. state has the samples in the frame and the resonator's last two values. */
struct tone { word16 k, frame, shift; };
int tone(struct tone p, word16 state[3], const word16 *x, int n, word16 *levels);

/* The codes of samples by the law, 0 A and 1 mu. */
void encode(int law, const word16 *x, int n, word16 *codes);
#endif
