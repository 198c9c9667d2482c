# SPDX-License-Identifier: Apache-2.0
"""The house style of the crates' sources, as docs/CONTRIBUTING.md has it: how long a line may be, and that each function says what it does."""

from __future__ import annotations

import re
import unittest
from collections.abc import Iterator
from pathlib import Path

TOP = Path(__file__).resolve().parents[2]
CODE, COMMENT, CONTRACT = 100, 140, 160
FUNCTION = re.compile(r"\s*(pub(\([^)]*\))? )?(unsafe )?(const )?(extern \"C\" )?fn (?P<name>\w+)")
# What `rt fmt` leaves as it is written: contracts and the lines that go on with them, imports, text, and proofs in the source.
CLAUSE = re.compile(r"\s*(requires|ensures|ghost|invariant|decreases|#!?\[tactic|[^\x00-\x7f(|+]|\(?[a-z_]+(\.\w+)* ?[^\x00-\x7f]|\+)")


def sources() -> list[Path]:
    """The sources of all crates."""
    return sorted(TOP.glob("crates/*/src/**/*.rt"))


def too_long(lines: list[str]) -> Iterator[tuple[int, int, int]]:
    """The lines that are too long: their numbers, letters, and how many they may have. Imports and text may be as long as they are."""
    for number, line in enumerate(lines, 1):
        if line.lstrip().startswith(("ghost use ", "use ")) or '"' in line:
            continue
        if line.lstrip().startswith("//"):
            most = COMMENT
        elif any(ord(letter) > 127 for letter in line) or CLAUSE.match(line) or ".old" in line:
            most = CONTRACT
        else:
            most = CODE
        if len(line) > most:
            yield number, len(line), most


def undocumented(lines: list[str]) -> Iterator[tuple[int, str]]:
    """The functions without a docstring: their lines and names. Those of a trait's impl are told at the trait, a test and `main` by their names."""
    of_trait = False
    for at, line in enumerate(lines):
        if re.match(r"(unsafe )?impl\b.* for ", line):
            of_trait = True
        elif line == "}" or re.match(r"(unsafe )?(impl|trait|pub|mod|fn|struct|enum)\b", line):
            of_trait = False
        found = FUNCTION.match(line)
        if found is None or of_trait or found["name"] == "main":
            continue
        above = at - 1
        while above >= 0 and re.match(r"\s*#\[", lines[above]):
            above -= 1
        if any("#[test]" in attribute for attribute in lines[above + 1 : at]):
            continue
        if not lines[above].lstrip().startswith("///"):
            yield at + 1, found["name"]


class Sources(unittest.TestCase):
    def test_lines(self) -> None:
        """Code has lines of at most 100 letters, comments of 140, contracts of 160."""
        self.assertGreater(len(sources()), 200)
        for path in sources():
            for number, letters, most in too_long(path.read_text(encoding="utf-8").split("\n")):
                with self.subTest(path=path.relative_to(TOP), line=number):
                    self.assertLessEqual(letters, most)

    def test_docstrings(self) -> None:
        """Each function has one, a private one too."""
        for path in sources():
            for number, name in undocumented(path.read_text(encoding="utf-8").split("\n")):
                with self.subTest(path=path.relative_to(TOP), line=number):
                    self.fail(f"{name} has no docstring")

    def test_what_is_found(self) -> None:
        """A line that is too long, and a function without a docstring, are found."""
        long = ["    let sum = " + "a + " * 30 + "b;", "// " + "word " * 40, "    ensures { " + "x ≡ x → " * 30 + "}"]
        self.assertEqual([(number, most) for number, _, most in too_long(long)], [(1, CODE), (2, COMMENT), (3, CONTRACT)])
        told = ["/// Adds.", "#[inline]", "fn add() {}", "fn take() {}", "impl Drop for A {", "    fn drop() {}", "}", "fn main() {}", "#[test]", "fn holds() {}"]
        self.assertEqual(list(undocumented(told)), [(4, "take")])


if __name__ == "__main__":
    unittest.main()
