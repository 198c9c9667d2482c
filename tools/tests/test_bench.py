# SPDX-License-Identifier: Apache-2.0
"""Tests of bench: the loads, the arithmetic of its tables, and the job in C, without the built program."""
from __future__ import annotations

import hashlib
import shutil
import subprocess
import sys
import tempfile
import unittest
from pathlib import Path
from unittest import mock

TOP = Path(__file__).resolve().parents[2]
sys.path.insert(0, str(TOP / "bench"))
sys.dont_write_bytecode = True
import loads  # noqa: E402  (its folder has to be on the path first)
import measure  # noqa: E402

SCALE = 0.002
WARNINGS = ("-Wall", "-Wextra", "-Werror")
# A checksum of each load at that scale: its script and its inputs.
MADE = {
    "fir": "3cd25e9ff67d6609",
    "fir_loud": "8a54ac16f7b3d82c",
    "sixteen_lines": "de51530e2fe1ddcb",
    "decoder": "6f2287ef7e612f13",
    "by_turns": "ebdd8fb1452b26b1",
    "lines": "923f90357db0a8dd",
    "creations": "97efd40e7b428836",
    "decimator_and_tone": "69392aee05d1b279",
}


def checksum(load: loads.Load) -> str:
    total = hashlib.sha256(load.script.encode())
    for data in load.inputs:
        total.update(f"{len(data)}\n".encode() + data)
    return total.hexdigest()[:16]


def fed(load: loads.Load, channel: int) -> int:
    """The samples that a script takes of a channel."""
    feeds = [line.split() for line in load.script.splitlines() if line.startswith("feed")]
    return sum(int(samples) for _, c, samples in feeds if int(c) == channel)


class Loads(unittest.TestCase):
    def test_each_making_gives_the_same_bytes(self) -> None:
        self.assertEqual({load.name: checksum(load) for load in loads.loads(loads.MAKERS, SCALE)}, MADE)

    def test_inputs_are_as_long_as_the_feeds(self) -> None:
        for load in loads.loads(loads.MAKERS, SCALE):
            with self.subTest(load.name):
                self.assertEqual([2 * fed(load, c) for c in range(len(load.inputs))], [len(data) for data in load.inputs])

    def test_units_are_counted(self) -> None:
        for load in loads.loads(loads.MAKERS, SCALE):
            with self.subTest(load.name):
                samples = sum(fed(load, c) for c in range(len(load.inputs)))
                counts = {"sample": samples, "feed": load.script.count("feed"), "line": load.script.count("\n"), "pair": load.script.count("create")}
                self.assertEqual(load.units, counts[load.unit])
                if load.unit == "pair":
                    self.assertEqual(load.units, load.script.count("delete"))

    def test_no_coefficients_of_a_bounded_filter_saturate(self) -> None:
        words = [int(word) for word in loads.coefficients(1, 64, 32000).split()]
        self.assertLessEqual(sum(abs(word) for word in words), 32000)
        self.assertGreater(sum(abs(word) for word in words), 31900)


class Tables(unittest.TestCase):
    NAMES = ("ours", "theirs", "others")

    def test_a_table(self) -> None:
        self.assertEqual(measure.table(["a", "b"], [["1", "2"]]), "| a | b |\n|---|---|\n| 1 | 2 |\n")

    def test_what_valgrind_says_is_read(self) -> None:
        told = "==7== I1  misses:      1,146,433\n==7== D1  misses:  563,867  (  397,109 rd   +  166,758 wr)\n==7== Mispredicts:  2,793 (9 cond)\n"
        self.assertEqual([measure.number_behind(label, told) for label in measure.MISSED], [1146433, 563867, 2793])
        self.assertEqual(measure.number_behind("Collected :", "==7== Collected : 880788\n"), 880788)
        self.assertRaises(SystemExit, measure.number_behind, "Collected :", told)

    def test_a_ratio_is_what_the_other_takes(self) -> None:
        self.assertEqual((measure.ratio(5, 2), measure.ratio(1, 3), measure.ratio(1, 0)), ("2.5", "0.333", "-"))

    def test_cells_have_the_ratio_to_the_first(self) -> None:
        self.assertEqual(measure.cells({"ours": 0.04, "theirs": 0.4}, self.NAMES, 3), ["0.040", "0.400 (10)", ""])
        self.assertEqual(measure.cells({"ours": 2000, "theirs": 1000, "others": 3000}, self.NAMES, 0), ["2,000", "1,000 (0.5)", "3,000 (1.5)"])

    def test_who_takes_less_is_said(self) -> None:
        rows = {"one": {"ours": 1.0, "theirs": 0.9, "others": 0.99}, "two": {"ours": 1.0, "theirs": 2.0}, "three": {"ours": 1.0, "theirs": 0.5}}
        self.assertEqual(measure.quicker(rows, self.NAMES), "- theirs takes less than ours at: one; three.\n")
        self.assertEqual(measure.quicker({"two": rows["two"]}, self.NAMES), "None takes less than ours.\n")

    def test_a_table_is_put_between_its_marks(self) -> None:
        with tempfile.TemporaryDirectory() as folder:
            page = Path(folder, "page.md")
            page.write_text("a\n<!-- table: x -->\nold\n<!-- end of the table -->\nb\n<!-- table: y -->\n<!-- end of the table -->\n")
            measure.fill(page, "x", "new\n")
            self.assertEqual(page.read_text(), "a\n<!-- table: x -->\nnew\n<!-- end of the table -->\nb\n<!-- table: y -->\n<!-- end of the table -->\n")
            self.assertRaises(SystemExit, measure.fill, page, "z", "new\n")

    def test_the_page_has_marks_for_each_table(self) -> None:
        page = measure.PAGE.read_text(encoding="utf-8")
        for name in ("loads, seconds", "loads, instructions", "loads, misses", "peers", "peers, samples that differ", "by block", "by width", "by width, in time", "growth"):
            self.assertEqual(page.count(f"<!-- table: {name} -->\n"), 1, name)

    def test_the_commands_say_how_they_are_used(self) -> None:
        for name in ("run", "growth"):
            ran = subprocess.run([TOP / "bench" / name, "--help"], capture_output=True, text=True)
            self.assertIn("--write", ran.stdout, ran.stderr)

    def test_seconds_are_those_of_the_child(self) -> None:
        ran = measure.timed([sys.executable, "-c", "import sys; sys.exit(3)"], TOP)
        self.assertEqual(ran.status, 3)
        self.assertGreater(ran.seconds, 0)


@unittest.skipUnless(shutil.which("clang"), "no clang")
class InC(unittest.TestCase):
    built: dict[str, Path]

    @classmethod
    def setUpClass(cls) -> None:
        folder = tempfile.TemporaryDirectory()
        cls.addClassCleanup(folder.cleanup)
        out = mock.patch.object(measure, "OUT", Path(folder.name))
        out.start()
        cls.addClassCleanup(out.stop)
        # A warning ends the build.
        cls.built = {one.name: one.build(*WARNINGS) for one in measure.IN_C}

    def programs(self) -> list[tuple[str, Path]]:
        return [(one.name, self.built[one.name]) for one in measure.IN_C if one.can_run()]

    def test_the_examples(self) -> None:
        for name, program in self.programs():
            with self.subTest(name):
                ran = subprocess.run([TOP / "examples" / "check", program], capture_output=True, text=True)
                self.assertEqual(ran.returncode, 0, ran.stdout + ran.stderr)

    def test_the_worked_rows(self) -> None:
        for name, program in self.programs():
            with self.subTest(name):
                ran = subprocess.run([sys.executable, "-B", TOP / "tests" / "differential", "--rows", "--program", program], capture_output=True, text=True)
                self.assertEqual(ran.returncode, 0, ran.stdout + ran.stderr)

    def test_the_loads(self) -> None:
        """Both give the same replies, outputs and status."""
        for load in loads.loads(loads.MAKERS, SCALE):
            with self.subTest(load.name):
                found = {}
                for name, program in self.programs():
                    with tempfile.TemporaryDirectory() as folder:
                        load.write(Path(folder))
                        ran = subprocess.run([program, *load.arguments], cwd=folder, capture_output=True)
                        found[name] = (ran.returncode, ran.stdout, [Path(folder, f"out{c}").read_bytes() for c in range(len(load.inputs))])
                self.assertEqual(len({repr(it) for it in found.values()}), 1, list(found))

    def test_the_job_of_spandsp_compiles(self) -> None:
        source, made = measure.SOURCES / "spandsp.c", measure.OUT / "spandsp.o"
        subprocess.run(["clang", *measure.STANDARD, *measure.SPANDSP.flags, *WARNINGS, "-c", source, "-o", made], check=True)


if __name__ == "__main__":
    unittest.main()
