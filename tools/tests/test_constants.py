# SPDX-License-Identifier: Apache-2.0
"""The list of constants that definitions take from the code."""

from __future__ import annotations

import sys
import unittest
from pathlib import Path
from unittest import mock

sys.dont_write_bytecode = True
sys.path.insert(0, str(Path(__file__).resolve().parents[1]))

import constants  # noqa: E402  (it is in tools/)


class Constants(unittest.TestCase):
    """What the list says, and that it can be wrong."""

    def test_each_is_held(self) -> None:
        """Each constant that a definition takes is written down outside the code, or is said to show nowhere."""
        self.assertEqual(constants.wrong(), [])

    def test_what_is_missing_is_named(self) -> None:
        """A constant without an entry, and one whose number is another."""
        short = {one: place for one, place in constants.HOLDS.items() if one != ("alg_g711", "BIAS")}
        with mock.patch.object(constants, "HOLDS", short):
            self.assertEqual(constants.wrong(), ["alg_g711: BIAS is taken by a definition, and nothing outside the code is said to hold it"])
        other = {**constants.HOLDS, ("alg_g711", "BIAS"): constants.in_model("companding.py", "MU_BIAS, MU_TOP = 34, 8191")}
        with mock.patch.object(constants, "HOLDS", other):
            self.assertEqual(len(constants.wrong()), 1)

    def test_both_ways_of_naming(self) -> None:
        """By a list of names, and by a name for the module."""
        self.assertEqual(set(constants.taken_in("use Rattle.a.specs.declared.b.TheConstants.{ONE, TWO}\n")), {("a", "ONE"), ("a", "TWO")})
        text = "use Rattle.a.specs.declared.TheConstants as words\nx = words.THREE\n"
        self.assertEqual(set(constants.taken_in(text)), {("a", "THREE")})


if __name__ == "__main__":
    unittest.main()
