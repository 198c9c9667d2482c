# SPDX-License-Identifier: Apache-2.0
"""Vectors of G.191's operators and of G.711, and laws over all values."""

from __future__ import annotations

import unittest

from rokdaum_model import operators as op
from rokdaum_model.companding import LAW_A, LAW_MU, decode, encode, intervals

VECTORS = [
    ("add", (32767, 1), 32767), ("sub", (-32768, 1), -32768), ("negate", (-32768,), 32767), ("abs_s", (-32768,), 32767),
    ("mult", (-32768, -32768), 32767), ("mult", (-1, 1), -1), ("mult_r", (-1, 1), 0), ("mult_r", (16384, 1), 1),
    ("l_mult", (-32768, -32768), 2147483647), ("shl", (1, 15), 32767), ("shl", (-1, 15), -32768), ("shl", (-3, -1), -2),
    ("shl", (0, 32767), 0), ("shr", (-1, 40), -1), ("shr", (1, -15), 32767), ("l_shl", (1, 31), 2147483647),
    ("l_shl", (-1, 31), -2147483648), ("l_shr", (-5, 1), -3), ("extract_h", (-1,), -1), ("extract_l", (32768,), -32768),
    ("round_", (32767,), 0), ("round_", (32768,), 1), ("round_", (2147483647,), 32767), ("round_", (-32769,), -1),
    ("norm_s", (1,), 14), ("norm_s", (-2,), 14), ("norm_s", (-16384,), 1), ("norm_s", (-32768,), 0), ("norm_l", (1,), 30),
    ("div_s", (1, 3), 10922), ("div_s", (5, 5), 32767), ("div_s", (0, 7), 0),
]
CODES = [
    (LAW_A, 0, 213), (LAW_A, -1, 85), (LAW_MU, 0, 255), (LAW_MU, -1, 127), (LAW_MU, 32767, 128), (LAW_MU, -32768, 0),
]
SAMPLES = [
    (LAW_A, 170, 32256), (LAW_A, 42, -32256), (LAW_A, 213, 8), (LAW_A, 85, -8), (LAW_MU, 128, 32124), (LAW_MU, 0, -32124),
    (LAW_MU, 255, 0), (LAW_MU, 127, 0),
]


class Operators(unittest.TestCase):
    """The basic operators."""

    def test_vectors(self) -> None:
        for name, arguments, value in VECTORS:
            self.assertEqual(getattr(op, name)(*arguments), value, f"{name}{arguments}")

    def test_normalizing_brings_every_word_into_the_upper_half(self) -> None:
        for a in range(-32768, 32768):
            n = op.norm_s(a)
            if a not in (0, -1):
                self.assertTrue(16384 <= a << n <= 32767 or -32768 <= a << n <= -16385, a)

    def test_the_divider_takes_no_quotient_above_one(self) -> None:
        for a, b in ((2, 1), (-1, 1), (0, 0)):
            with self.assertRaises(ValueError):
                op.div_s(a, b)


class Companding(unittest.TestCase):
    """Codes and samples."""

    def test_vectors(self) -> None:
        for law, x, code in CODES:
            self.assertEqual(encode(law, x), code)
        for law, code, x in SAMPLES:
            self.assertEqual(decode(law, code), x)

    def test_intervals_stand_side_by_side(self) -> None:
        for law, first, behind in ((LAW_A, 0, 32768), (LAW_MU, 32, 8192)):
            for low, width in intervals(law):
                self.assertEqual(low, first)
                first += width
            self.assertEqual(first, behind)

    def test_each_code_is_its_own_sample_s(self) -> None:
        for law in (LAW_A, LAW_MU):
            for code in range(256):
                x = decode(law, code)
                if (law, code) != (LAW_MU, 127) and x >= 0:
                    self.assertEqual(encode(law, x), code)
                if x < 0:
                    self.assertEqual(encode(law, x), code)


if __name__ == "__main__":
    unittest.main()
