#!/usr/bin/env python3
# SPDX-License-Identifier: Apache-2.0
"""The rule by which codes are dialled digits is the same in C, in Python and in the example of telephone lines, over random codes.

    /usr/bin/python3 c/tests/digits.py out/c/librokdaum.so

Numpy and scipy are needed, as rokdaum.design needs them. The last line is 'N passed, M failed'.
"""

from __future__ import annotations

import ctypes
import random
import runpy
import sys
from pathlib import Path

TOP = Path(__file__).resolve().parent.parent.parent
sys.path.insert(0, str(TOP / "python"))
sys.dont_write_bytecode = True

from rokdaum import design  # noqa: E402  (it stands in python/)

CASES, MOST_CODES = 2000, 60
reported = runpy.run_path(str(TOP / "examples" / "dtmf_line" / "digits"))["reported"]


class Digits(ctypes.Structure):
    """`rokdaum_digits` of the header."""

    _fields_ = [(name, ctypes.c_uint32) for name in ("frames_on", "frames_off")] + [(name, ctypes.c_int32) for name in ("last", "held")] + [(name, ctypes.c_uint32) for name in ("run", "away")]


def in_c(library: ctypes.CDLL, frames_on: int, frames_off: int, codes: list[int]) -> str:
    """The digits of codes by `rokdaum_dialled`."""
    digits, count = Digits(frames_on, frames_off, design.NO_DIGIT, design.NO_DIGIT, 0, 0), len(codes)
    given, dialled = (ctypes.c_int16 * count)(*codes), ctypes.create_string_buffer(count + 1)
    found = ctypes.c_size_t()
    if library.rokdaum_dialled(ctypes.byref(digits), given, ctypes.c_size_t(count), dialled, ctypes.c_size_t(count), ctypes.byref(found)):
        raise SystemExit(f"rokdaum_dialled refuses {codes}")
    return dialled.raw[: found.value].decode("ascii")


def random_codes(chance: random.Random) -> list[int]:
    """Codes with runs, gaps and repeats."""
    codes: list[int] = []
    length = chance.randrange(MOST_CODES)
    while len(codes) < length:
        codes += [chance.choice((design.NO_DIGIT, *range(chance.choice((2, 16)))))] * chance.randrange(1, 5)
    return codes[:length]


def main(words: list[str]) -> int:
    """Compares the three over random codes."""
    library, chance, passed, failed = ctypes.CDLL(str(Path(words[0]).resolve())), random.Random(1), 0, 0
    for _ in range(CASES):
        codes, frames_on, frames_off = random_codes(chance), chance.randrange(1, 5), chance.randrange(1, 5)
        wanted = in_c(library, frames_on, frames_off, codes)
        by_design = design.Digits((), frames_on, frames_off).dialled(codes)
        by_example = "".join(design.KEYS[code] for code in reported(codes, frames_on, frames_off))
        if wanted == by_design == by_example:
            passed += 1
        else:
            failed += 1
            print(f"{codes} at {frames_on}, {frames_off}: {wanted} in C, {by_design} by rokdaum.design, {by_example} by examples/dtmf_line")
    print(f"{passed} passed, {failed} failed")
    return 1 if failed else 0


if __name__ == "__main__":
    sys.exit(main(sys.argv[1:]))
