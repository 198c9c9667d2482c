# SPDX-License-Identifier: Apache-2.0
"""The constants of `alg_dtmf` that its definition and its code share are those that the model computes: no proof and hardly a signal tells a slip."""

from __future__ import annotations

import re
import sys
import unittest
from pathlib import Path

sys.dont_write_bytecode = True
TOP = Path(__file__).resolve().parents[3]
sys.path.insert(0, str(TOP / "tests/model"))

from rokdaum_model.gateway import FACTORS, HIGH_TONES, LOW_TONES  # noqa: E402


class Constants(unittest.TestCase):
    """The words of crates/alg_dtmf/src/lib.rt."""

    def constants(self) -> dict[str, int]:
        """Each constant of 16 bits with its value."""
        text = (TOP / "crates/alg_dtmf/src/lib.rt").read_text(encoding="utf-8")
        return {name: int(value.replace("_", "")) for name, value in re.findall(r"pub const (\w+): i16 = (-?[\d_]+);", text)}

    def test_factors(self) -> None:
        found = self.constants()
        self.assertEqual([found.get(f"FACTOR_{tone}") for tone in LOW_TONES + HIGH_TONES], list(FACTORS))

    def test_others(self) -> None:
        """One in Q14, the bits that a frame's energy is shifted less than its samples, those of the share, those of a row's place."""
        found = self.constants()
        self.assertEqual([found.get(it) for it in ("ONE", "ENERGY_BITS", "SHARE_BITS", "PLACE_BITS", "NO_DIGIT")], [16384, 3, 8, 2, -1])


if __name__ == "__main__":
    unittest.main()
