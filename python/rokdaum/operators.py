# SPDX-License-Identifier: Apache-2.0
"""Operators of ITU-T G.191 over arrays, and a FIR filter, by the C library and without a host.

Arrays have shape (samples,) and whole numbers of 16 bits; what is given is int16, and saturates as the operators do. Each call raises FloatsRefused
for floats, OutOfRange for another shape, for numbers that don't fit or for arrays of two lengths, and LibraryMissing.
"""

from __future__ import annotations

import operator
from collections.abc import Sequence
from ctypes import c_int16, c_int32

import numpy as np

from . import library
from .errors import REFUSALS, BadLength, OutOfRange, Params, Refused
from .samples import as_words


def words(values: object) -> np.ndarray:
    """Whole numbers as int16 that stand in a row."""
    return np.ascontiguousarray(as_words(values), np.int16)


def word(value: int, what: str) -> int:
    """A whole number of 16 bits. Raises OutOfRange, and TypeError for what is no whole number."""
    found = operator.index(value)
    if not -32768 <= found <= 32767:
        raise OutOfRange(f"{what} is -32768 to 32767, and {found} isn't")
    return found


def alike(a: object, b: object) -> tuple[np.ndarray, np.ndarray]:
    """Two arrays of one length."""
    first, second = words(a), words(b)
    if len(first) != len(second):
        raise OutOfRange(f"both arrays have one length, and these have {len(first)} and {len(second)} samples")
    return first, second


def at(values: np.ndarray) -> object:
    """Where the words of an array begin."""
    return values.ctypes.data_as(library.WORDS)


def done(code: int, what: str) -> None:
    """Raises what a code stands for, but for that of success."""
    if code:
        raise REFUSALS.get(code, Refused)(f"{what}: {library.load().rokdaum_error_text(code).decode()}")


def add(a: object, b: object) -> np.ndarray:
    """The sum of each two samples, saturated (`add`)."""
    first, second = alike(a, b)
    out = np.empty(len(first), np.int16)
    done(library.load().rokdaum_add_block(at(first), at(second), at(out), len(out)), "add")
    return out


def sub(a: object, b: object) -> np.ndarray:
    """The difference of each two samples, saturated (`sub`)."""
    first, second = alike(a, b)
    out = np.empty(len(first), np.int16)
    done(library.load().rokdaum_sub_block(at(first), at(second), at(out), len(out)), "sub")
    return out


def mult(samples: object, gain: int) -> np.ndarray:
    """The product of each sample and a gain in Q15, rounded down (`mult`)."""
    given = words(samples)
    out = np.empty(len(given), np.int16)
    done(library.load().rokdaum_mult_block(word(gain, "a gain"), at(given), at(out), len(out)), "mult")
    return out


def shl(samples: object, shift: int) -> np.ndarray:
    """Each sample shifted to the left by `shift` bits, saturated, and to the right where it is negative (`shl`)."""
    given = words(samples)
    out = np.empty(len(given), np.int16)
    done(library.load().rokdaum_shl_block(at(given), word(shift, "a shift"), at(out), len(out)), "shl")
    return out


def shr(samples: object, shift: int) -> np.ndarray:
    """Each sample shifted to the right by `shift` bits, rounded down, and to the left, saturated, where it is negative (`shr`)."""
    given = words(samples)
    out = np.empty(len(given), np.int16)
    done(library.load().rokdaum_shr_block(at(given), word(shift, "a shift"), at(out), len(out)), "shr")
    return out


def l_mac(v: int, a: object, b: object) -> int:
    """`v`, of 32 bits, with the doubled product of each two samples added, the first two first, saturated at each step (`L_mac`)."""
    start = operator.index(v)
    if not -(1 << 31) <= start < 1 << 31:
        raise OutOfRange(f"a sum has 32 bits, and {start} doesn't fit")
    first, second = alike(a, b)
    found = c_int32()
    done(library.load().rokdaum_l_mac_block(start, at(first), at(second), len(first), found), "L_mac")
    return found.value


def div_s(a: int, b: int) -> int:
    """The quotient a / b in Q15, for 0 <= a <= b and b above 0 (`div_s`). Raises Params for other operands."""
    found = c_int16()
    code = library.load().rokdaum_div_s(word(a, "an operand"), word(b, "an operand"), found)
    if code == Params.code:
        raise Params(f"div_s takes 0 <= a <= b with b above 0, and not {a} and {b}")
    done(code, "div_s")
    return found.value


def fir(coefficients: Sequence[int], samples: object, past: object = ()) -> np.ndarray:
    """A FIR filter over any number of samples: 1 to 64 coefficients in Q15, that of the newest sample first.

    `past` has samples that came before, the newest last; where there are fewer than coefficients but one, 0 came before them. What is given has shape
    (samples,). Raises BadLength for none or more than 64 coefficients.
    """
    taps, given, before = words(coefficients), words(samples), words(past)
    if not 1 <= len(taps) <= library.COEFFICIENTS:
        raise BadLength(f"there are 1 to {library.COEFFICIENTS} coefficients, and {len(taps)} are given")
    kept = len(taps) - 1
    line = np.concatenate([np.zeros(max(kept - len(before), 0), np.int16), before[max(len(before) - kept, 0) :], given, np.zeros(library.COEFFICIENTS - 1 - kept, np.int16)])
    out = np.empty(len(given), np.int16)
    for start in range(0, len(given), library.BLOCK_SAMPLES):
        block = out[start : start + library.BLOCK_SAMPLES]
        heard = line[start : start + len(block) + library.COEFFICIENTS - 1]
        done(library.load().rokdaum_fir(at(taps), len(taps), at(heard), len(heard), at(block), len(block)), "fir")
    return out
