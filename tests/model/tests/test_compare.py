# SPDX-License-Identifier: Apache-2.0
"""Comparing and command lines."""

from __future__ import annotations

import tempfile
import unittest
from dataclasses import replace
from pathlib import Path

from rokdaum_model.cases import Case, read_case, write_case
from rokdaum_model.command_line import PortsError, UsageError, arguments, config_of, option_words
from rokdaum_model.compare import Result, differences
from rokdaum_model.console import Config

CASE = Case(["script", "in0", "out0"], b"stat 0\nfly\n", [b"\1\0"], b"ok - 0\nno 2 syntax\n", [b"\2\0\3\0"], 1)
SAME = Result(1, CASE.replies, b"", [b"\2\0\3\0"])


class Comparing(unittest.TestCase):
    """Each sort of difference is found, and nothing else."""

    def test_the_same(self) -> None:
        self.assertEqual(differences(CASE, SAME), [])

    def test_each_difference(self) -> None:
        for other, word in ((SAME._replace(status=0), "status 0"), (SAME._replace(replies=b"ok - 1\nno 2 syntax\n"), "'stat 0'"),
                            (SAME._replace(replies=b"ok - 0\n"), "'fly'"), (SAME._replace(stderr=b"x"), "standard error"),
                            (SAME._replace(replies=CASE.replies + b"ok\n"), "behind"), (SAME._replace(outputs=[None]), "made"),
                            (SAME._replace(outputs=[b"\2\0\4\0"]), "byte 2"), (SAME._replace(outputs=[b"\2\0"]), "byte 2"),
                            (SAME._replace(outputs=[b"\2\0\3\0\0"]), "byte 4")):
            found = differences(CASE, other)
            self.assertEqual(len(found), 1)
            self.assertIn(word, found[0])

    def test_what_is_free(self) -> None:
        case = replace(CASE, replies=b"ok * 0\nno 2 syntax\n", any_replies=[0], any_outputs={"0": [(0, 2)]})
        self.assertEqual(differences(case, SAME._replace(outputs=[b"\7\7\3\0"])), [])
        self.assertEqual(len(differences(case, SAME._replace(outputs=[b"\7\7\4\0"]))), 1)
        self.assertEqual(len(differences(case, SAME._replace(replies=b"ok - 1\nno 2 syntax\n"))), 1)
        case = replace(CASE, any_outputs={"0": [(2, None)]})
        self.assertEqual(differences(case, SAME._replace(outputs=[b"\2\0"])), [])
        self.assertEqual(len(differences(case, SAME._replace(outputs=[b"\3\0"]))), 1)

    def test_a_case_is_the_same_from_its_folder(self) -> None:
        case = replace(CASE, note="a case", stale=True, piped=True, any_replies=[1])
        with tempfile.TemporaryDirectory() as folder:
            write_case(Path(folder), case)
            self.assertEqual(read_case(Path(folder)), case)


class CommandLines(unittest.TestCase):
    """Which word becomes what."""

    def test_all_options(self) -> None:
        asked = arguments(["--daram", "8", "--saram=12", "s", "--external", "16", "--poison", "65535", "--in8", "1", "--out8", "2",
                           "a", "b", "--", "-c", "d"])
        self.assertEqual((asked.script, asked.sizes, asked.poison, asked.in8, asked.out8), ("s", (8, 12, 16), -1, 1, 2))
        self.assertEqual(asked.ports, [("a", "b"), ("-c", "d")])

    def test_options_come_back(self) -> None:
        for config in (Config(), Config(8, 12, 16, -1, 1, 2), Config(poison=0, out8=65535)):
            self.assertEqual(config_of(arguments(option_words(config) + ["s", "a", "b"])), config)

    def test_what_is_refused(self) -> None:
        refused: tuple[list[str], ...] = (
            ["--poison", "65536", "s", "a", "b"], ["--flute", "s"], [], ["-x"], ["--daram"], ["--daram", "-1", "s"],
            ["--in8", "1", "--in8", "1", "s", "a", "b"])
        for words in refused:
            with self.assertRaises(UsageError):
                arguments(words)
        for words in (["s"], ["s", "a"], ["s"] + ["a", "b"] * 17):
            with self.assertRaises(PortsError):
                arguments(words)


if __name__ == "__main__":
    unittest.main()
