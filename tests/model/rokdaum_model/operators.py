# SPDX-License-Identifier: Apache-2.0
"""The basic operators of ITU-T G.191 as functions of whole numbers.

A Word16 is -32768 to 32767, a Word32 is -2147483648 to 2147483647. Where a result doesn't fit its type, the operator
saturates: it gives the nearest value of the type.
"""

from __future__ import annotations

WORD16_MIN, WORD16_MAX = -(1 << 15), (1 << 15) - 1
WORD32_MIN, WORD32_MAX = -(1 << 31), (1 << 31) - 1


def saturate16(v: int) -> int:
    """The nearest Word16."""
    return WORD16_MIN if v < WORD16_MIN else WORD16_MAX if v > WORD16_MAX else v


def saturate32(v: int) -> int:
    """The nearest Word32."""
    return WORD32_MIN if v < WORD32_MIN else WORD32_MAX if v > WORD32_MAX else v


def add(a: int, b: int) -> int:
    """The sum of two Word16."""
    return saturate16(a + b)


def sub(a: int, b: int) -> int:
    """The difference of two Word16."""
    return saturate16(a - b)


def negate(a: int) -> int:
    """The negative of a Word16."""
    return saturate16(-a)


def abs_s(a: int) -> int:
    """The magnitude of a Word16."""
    return saturate16(abs(a))


def l_add(a: int, b: int) -> int:
    """The sum of two Word32."""
    return saturate32(a + b)


def l_sub(a: int, b: int) -> int:
    """The difference of two Word32."""
    return saturate32(a - b)


def l_negate(a: int) -> int:
    """The negative of a Word32."""
    return saturate32(-a)


def l_abs(a: int) -> int:
    """The magnitude of a Word32."""
    return saturate32(abs(a))


def mult(a: int, b: int) -> int:
    """The product of two fractions in Q15."""
    return saturate16(a * b // 32768)


def mult_r(a: int, b: int) -> int:
    """The rounded product of two fractions in Q15."""
    return saturate16((a * b + 16384) // 32768)


def l_mult(a: int, b: int) -> int:
    """The product of two fractions in Q15, in Q31."""
    return saturate32(2 * a * b)


def l_mac(v: int, a: int, b: int) -> int:
    """Multiply and accumulate."""
    return l_add(v, l_mult(a, b))


def l_msu(v: int, a: int, b: int) -> int:
    """Multiply and subtract."""
    return l_sub(v, l_mult(a, b))


def shl(a: int, n: int) -> int:
    """A Word16 shifted left by n, right where n is negative."""
    return saturate16(a << n) if n >= 0 else shr(a, -n)


def shr(a: int, n: int) -> int:
    """A Word16 shifted right by n, left where n is negative."""
    return a >> n if n >= 0 else shl(a, -n)


def l_shl(v: int, n: int) -> int:
    """A Word32 shifted left by n, right where n is negative."""
    return saturate32(v << n) if n >= 0 else l_shr(v, -n)


def l_shr(v: int, n: int) -> int:
    """A Word32 shifted right by n, left where n is negative."""
    return v >> n if n >= 0 else l_shl(v, -n)


def extract_h(v: int) -> int:
    """The upper half of a Word32."""
    return v // 65536


def extract_l(v: int) -> int:
    """The lower half of a Word32, as a Word16."""
    return (v + 32768) % 65536 - 32768


def round_(v: int) -> int:
    """The upper half of a Word32, rounded."""
    return extract_h(l_add(v, 32768))


def l_deposit_h(a: int) -> int:
    """A Word16 as the upper half of a Word32."""
    return a * 65536


def l_deposit_l(a: int) -> int:
    """A Word16 as a Word32 of the same value."""
    return a


def _norm(v: int, bits: int) -> int:
    """The left shift that brings `v` into the upper half of its range of `bits` bits."""
    if v == 0:
        return 0
    if v == -1:
        return bits - 1
    low, high = 1 << (bits - 2), (1 << (bits - 1)) - 1
    return next(n for n in range(bits) if low <= v << n <= high or -high - 1 <= v << n <= -low - 1)


def norm_s(a: int) -> int:
    """The left shift that normalizes a Word16."""
    return _norm(a, 16)


def norm_l(v: int) -> int:
    """The left shift that normalizes a Word32."""
    return _norm(v, 32)


def div_s(a: int, b: int) -> int:
    """The quotient as a fraction in Q15. It is asked for 0 <= a <= b and b > 0 only."""
    if not (0 <= a <= b and b > 0):
        raise ValueError(f"div_s({a}, {b})")
    return min(a * 32768 // b, 32767)
