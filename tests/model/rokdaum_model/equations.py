# SPDX-License-Identifier: Apache-2.0
"""One step of each recursion, in the order of its sums."""

from __future__ import annotations

from .operators import add, extract_h, l_mac, l_msu, l_mult, l_shl, round_, shr, sub


def biquad_step(coefficients: tuple[int, ...], x: tuple[int, int, int], y: tuple[int, int]) -> int:
    """The output of a second-order section in Q14: `x` is the newest sample and the two before it, `y` the last two outputs."""
    b0, b1, b2, a1, a2 = coefficients
    total = l_mult(b0, x[0])
    total = l_mac(total, b1, x[1])
    total = l_mac(total, b2, x[2])
    total = l_msu(total, a1, y[0])
    total = l_msu(total, a2, y[1])
    return round_(l_shl(total, 1))


def tone_turn(k: int, v: int) -> int:
    """Twice the product with k in Q15."""
    return extract_h(l_shl(l_mult(k, v), 1))


def tone_step(k: int, shift: int, x: int, v1: int, v2: int) -> int:
    """The next value of the resonator of Goertzel's recursion."""
    return sub(add(shr(x, shift), tone_turn(k, v1)), v2)


def tone_level(k: int, v1: int, v2: int) -> int:
    """The level at a frame's end."""
    total = l_mac(l_mult(v1, v1), v2, v2)
    return extract_h(l_msu(total, tone_turn(k, v1), v2))
