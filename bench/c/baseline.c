/* SPDX-License-Identifier: Apache-2.0
 * The five kinds in the order of their definitions: each step saturates, as the operators of G.191 do. */
#include "kernels.h"

/* The output at line[at]. */
static word16 fir_at(const word16 *c, int taps, const word16 *line, int at)
{
    word32 sum = 0;
    for (int k = 0; k < taps; k++)
        sum = L_mac(sum, c[k], line[at - k]);
    return round16(sum);
}

void fir(const word16 *c, int taps, const word16 *line, int n, word16 *y)
{
    for (int i = 0; i < n; i++)
        y[i] = fir_at(c, taps, line, taps - 1 + i);
}

int decimate(const word16 *c, int taps, int by, int phase, const word16 *line, int n, word16 *y)
{
    int made = 0;
    for (int i = by - 1 - phase; i < n; i += by)
        y[made++] = fir_at(c, taps, line, taps - 1 + i);
    return made;
}

void biquad(const word16 c[5], word16 past[4], const word16 *x, int n, word16 *y)
{
    word16 x1 = past[0], x2 = past[1], y1 = past[2], y2 = past[3];
    for (int i = 0; i < n; i++) {
        word32 sum = L_mult(c[0], x[i]);
        sum = L_mac(sum, c[1], x1);
        sum = L_mac(sum, c[2], x2);
        sum = L_msu(sum, c[3], y1);
        sum = L_msu(sum, c[4], y2);
        x2 = x1, x1 = x[i];
        y2 = y1, y1 = round16(L_shl1(sum));
        y[i] = y1;
    }
    past[0] = x1, past[1] = x2, past[2] = y1, past[3] = y2;
}

int tone(struct tone p, word16 state[3], const word16 *x, int n, word16 *levels)
{
    word16 count = state[0], v1 = state[1], v2 = state[2];
    int made = 0;
    for (int i = 0; i < n; i++) {
        word16 v = sub(add((word16)(x[i] >> p.shift), times_twice(p.k, v1)), v2);
        v2 = v1, v1 = v;
        if (++count == p.frame) {
            word32 energy = L_mac(L_mult(v1, v1), v2, v2);
            levels[made++] = extract_h(L_msu(energy, times_twice(p.k, v1), v2));
            count = v1 = v2 = 0;
        }
    }
    state[0] = count, state[1] = v1, state[2] = v2;
    return made;
}

void encode(int law, const word16 *x, int n, word16 *codes)
{
    if (law)
        for (int i = 0; i < n; i++)
            codes[i] = (word16)encode_mu(x[i]);
    else
        for (int i = 0; i < n; i++)
            codes[i] = (word16)encode_a(x[i]);
}
