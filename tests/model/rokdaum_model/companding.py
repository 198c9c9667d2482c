# SPDX-License-Identifier: Apache-2.0
"""Companding of ITU-T G.711 on samples of 16 bits.

A code is 0 to 255. A negative sample x has the interval of -1 - x.
"""

from __future__ import annotations

from bisect import bisect_right
from functools import lru_cache

LAW_A, LAW_MU = 0, 1
A_LAW_MASK = 0x55
SIGN = 128
MU_BIAS, MU_TOP = 33, 8191


@lru_cache(maxsize=None)
def intervals(law: int) -> tuple[tuple[int, int], ...]:
    """The lower end and the width of each interval, by 16 times the segment plus the step.

    Intervals of A-law are of magnitudes. Those of mu-law are of magnitudes in quarters, with the bias added.
    """
    found = []
    for segment in range(8):
        for step in range(16):
            if law == LAW_MU:
                found.append(((16 + step) << (segment + 1), 1 << (segment + 1)))
            elif segment == 0:
                found.append((16 * step, 16))
            else:
                width = 16 << (segment - 1)
                found.append((width * (16 + step), width))
    return tuple(found)


@lru_cache(maxsize=None)
def _lower_ends(law: int) -> tuple[int, ...]:
    return tuple(low for low, _ in intervals(law))


def interval_of(law: int, magnitude: int) -> int:
    """The index of the one interval that holds a magnitude of 0 to 32767."""
    value = magnitude if law == LAW_A else min(magnitude // 4 + MU_BIAS, MU_TOP)
    return bisect_right(_lower_ends(law), value) - 1


def encode(law: int, x: int) -> int:
    """The code of a sample."""
    sign = SIGN if x >= 0 else 0
    index = interval_of(law, x if x >= 0 else -1 - x)
    return (sign + index) ^ A_LAW_MASK if law == LAW_A else sign + 127 - index


def decode(law: int, code: int) -> int:
    """The sample of a code: the middle of its interval, with its sign."""
    if law == LAW_A:
        code ^= A_LAW_MASK
        low, width = intervals(law)[code & 127]
        magnitude = low + width // 2
    else:
        segment, step = divmod(127 - (code & 127), 16)
        magnitude = (128 << segment) + (8 << segment) * step + (4 << segment) - 132
    return magnitude if code & SIGN else -magnitude
