# SPDX-License-Identifier: Apache-2.0
"""Tests of tools/walks.py: what is wrong with a walk, over traces made by hand. `tools/walks.py --check` runs it over the program."""
from __future__ import annotations

import contextlib
import io
import sys
import tempfile
import unittest
from pathlib import Path
from unittest import mock

sys.path.insert(0, str(Path(__file__).resolve().parents[1]))
import walks  # noqa: E402

PAGE = """# Architecture

## Walk 1

`create 0 fir 0 16384`: `first`, then `second` and `third`.

<!-- walk: create 0 fir 0 16384 -->
    low::one::first
    low::one::second
    low::one::third
<!-- end of the walk -->

## Walk 2

`feed`.
"""
PROGRAM = Path("/bin/true")


class Walked(unittest.TestCase):
    def setUp(self) -> None:
        folder = tempfile.TemporaryDirectory()
        self.addCleanup(folder.cleanup)
        self.root = Path(folder.name)
        source = self.root / "crates/low/src/one.rt"
        source.parent.mkdir(parents=True)
        source.write_text("fn first() {}\nfn second() {}\nfn third() {}\n")
        self.walk = walks.walks_of(PAGE)[0]

    def wrong(self, passed: list[str], there: set[str]) -> list[str]:
        return walks.wrong(self.root, self.walk, passed, there)

    def test_a_walk_of_a_page(self) -> None:
        self.assertEqual(self.walk.line, "create 0 fir 0 16384")
        self.assertEqual(self.walk.functions, ("low::one::first", "low::one::second", "low::one::third"))
        self.assertIn("then `second`", self.walk.section)
        self.assertNotIn("`feed`", self.walk.section)

    def test_what_is_passed_in_order(self) -> None:
        passed = ["low::one::first", "other", "low::one::second", "low::one::third"]
        self.assertEqual(self.wrong(passed, set(passed)), [])

    def test_what_is_not_passed(self) -> None:
        there = set(self.walk.functions)
        found = self.wrong(["low::one::first", "low::one::third"], there)
        self.assertEqual(found, ["create 0 fir 0 16384: low::one::second isn't passed at all"])

    def test_another_order(self) -> None:
        passed = ["low::one::second", "low::one::first", "low::one::third"]
        self.assertEqual(self.wrong(passed, set(passed)), ["create 0 fir 0 16384: low::one::second isn't passed there"])

    def test_what_is_inlined_has_a_source(self) -> None:
        self.assertEqual(self.wrong(["low::one::third"], {"low::one::third"}), [])
        (self.root / "crates/low/src/one.rt").write_text("fn first() {}\nfn second_one() {}\nfn third() {}\n")
        self.assertEqual(self.wrong(["low::one::third"], {"low::one::third"}), ["create 0 fir 0 16384: no function low::one::second"])

    def test_what_the_text_does_not_name(self) -> None:
        self.walk = walks.walks_of(PAGE.replace("then `second` and", "then a second and"))[0]
        self.assertEqual(self.wrong([], set()), ["create 0 fir 0 16384: the section doesn't name `second`"])

    def test_the_last_line_is_what_the_lines_before_lack(self) -> None:
        traces = {("a", "b"): ["open", "a", "b", "close"], ("a", "b", "c"): ["open", "a", "b", "c", "close"]}
        with mock.patch.dict(walks.WALKS, {"c, once": ("a", "b")}), mock.patch.object(walks, "traced", lambda _, script: traces[script]):
            self.assertEqual(walks.last_line(PROGRAM, "c, once"), ["c", "close"])

    def check(self, page: str, passed: list[str]) -> tuple[int, str]:
        path = self.root / walks.PAGE
        path.parent.mkdir(exist_ok=True)
        path.write_text(page)
        said = io.StringIO()
        with (
            mock.patch.object(walks, "symbols", lambda _: set(self.walk.functions)),
            mock.patch.object(walks, "last_line", lambda _, __: passed),
            contextlib.redirect_stderr(said),
            contextlib.redirect_stdout(said),
        ):
            return walks.check(self.root, PROGRAM), said.getvalue()

    def test_the_check(self) -> None:
        with mock.patch.dict(walks.WALKS, {self.walk.line: ()}, clear=True):
            self.assertEqual(self.check(PAGE, list(self.walk.functions))[0], 0)
            status, said = self.check(PAGE, [])
            self.assertEqual(status, 1)
            self.assertIn("0 passed, 3 failed", said)

    def test_a_walk_that_is_gone_or_has_no_lines(self) -> None:
        with mock.patch.dict(walks.WALKS, {self.walk.line: (), "feed 0 256": ()}, clear=True):
            status, said = self.check(PAGE, list(self.walk.functions))
            self.assertEqual(status, 1)
            self.assertIn("there is no walk feed 0 256", said)
        with mock.patch.dict(walks.WALKS, {}, clear=True):
            self.assertIn("WALKS of tools/walks.py has no such line", self.check(PAGE, [])[1])

    def test_every_walk_of_the_page_has_its_lines(self) -> None:
        root = Path(__file__).resolve().parents[2]
        found = walks.walks_of((root / walks.PAGE).read_text(encoding="utf-8"))
        self.assertEqual({walk.line for walk in found}, set(walks.WALKS))
        for walk in found:
            self.assertEqual(walks.wrong(root, walk, [], set()), [], walk.line)


if __name__ == "__main__":
    unittest.main()
