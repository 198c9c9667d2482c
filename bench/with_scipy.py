# SPDX-License-Identifier: Apache-2.0
"""A job by scipy over a file of samples, all at once: bench/peers times it.

    /usr/bin/python3 bench/with_scipy.py fir|biquad|decimate COEFFICIENTS IN OUT

COEFFICIENTS is a file of words: taps in Q15, or b0 b1 b2 a1 a2 in Q14.
"""
import sys

import numpy as np
from scipy.signal import lfilter, upfirdn

job, coefficients, source, target = sys.argv[1:]
c, x = np.loadtxt(coefficients), np.fromfile(source, "<i2").astype(float)
if not x.size:
    y = x
elif job == "fir":
    y = lfilter(c / 32768, 1, x)
elif job == "decimate":
    # It gives the first of 8 samples: with a zero in front that is the last one.
    y = upfirdn(c / 32768, np.append(0, x), down=8)[1 : x.size // 8 + 1]
else:
    y = lfilter(c[:3] / 16384, [1, *c[3:] / 16384], x)
np.clip(np.rint(y), -32768, 32767).astype("<i2").tofile(target)
