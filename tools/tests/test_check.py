# SPDX-License-Identifier: Apache-2.0
"""How `check` counts what its parts say, and what `status.py` reads off the log of a whole run."""

from __future__ import annotations

import contextlib
import importlib.machinery
import importlib.util
import io
import json
import os
import subprocess
import sys
import tempfile
import unittest
from pathlib import Path
from types import ModuleType
from unittest import mock

TOP = Path(__file__).resolve().parents[2]
sys.path.insert(0, str(TOP / "tools"))

import status  # noqa: E402  (it stands in tools/)
from tests.case import entered  # noqa: E402


def script(name: str) -> ModuleType:
    """A script without an ending, as a module."""
    loader = importlib.machinery.SourceFileLoader(name, str(TOP / name))
    spec = importlib.util.spec_from_loader(name, loader)
    assert spec
    made = importlib.util.module_from_spec(spec)
    sys.modules[name] = made
    loader.exec_module(made)
    return made


check = script("check")

LOG = """== low
crate low: modules loaded=0 checked=12
logic=proved functions=31 sum=00
rt: low proved
== low: its tests
logic=proved tests=7 functions=40 axioms=2
rt: low: its tests are proved
rt: low: trying its must-fail edits (2)
must-fail low/a_sum_is_dropped.edit: refused, as it must be: src/lib.rt:3:4: error
rt: must-fail low/another.edit: refused, as it must be
tests: 7
test sums::one ... ok
test result: ok. 7 passed; 0 failed; 0 ignored; 0 filtered out
rt: low: its tests passed
1 passed, 0 failed
"""

# The same crate once more on that machine: what was proved is kept, and the tests are run.
KEPT_LOG = """rt: low is kept: an earlier run on this machine proved the same files over the same libraries
tests: 7
test result: ok. 7 passed; 0 failed; 0 ignored; 0 filtered out
rt: low: its tests passed
1 passed, 0 failed
"""


class Counting(unittest.TestCase):
    def counts(self, text: str, ended: int, kept: str = "") -> tuple[int, int]:
        outcome = check.counted(text, ended, kept)
        return outcome.passed, outcome.failed

    def test_what_a_part_keeps_counts(self) -> None:
        self.assertEqual(self.counts("9 passed, 0 failed\n", 0, '{"passed": 4, "failed": 0}\n'), (4, 0))
        self.assertEqual(self.counts("anything\n", 1, '{"passed": 4, "failed": 3}'), (4, 3))

    def test_the_last_line_of_rt_counts(self) -> None:
        self.assertEqual(self.counts("1 passed, 2 failed\n9 passed, 0 failed\n\n", 0), (9, 0))
        self.assertEqual(self.counts("28 documents, 40 wrong\n", 1), (0, 1))

    def test_what_a_part_says_of_itself_is_kept(self) -> None:
        self.assertEqual(check.counted("a\n90 worked rows, 0 differ\n", 0).said, "90 worked rows, 0 differ")

    def test_a_part_that_counts_nothing_is_one(self) -> None:
        self.assertEqual(self.counts("all as it should be\n", 0), (1, 0))
        self.assertEqual(self.counts("", 1), (0, 1))

    def test_a_bad_end_is_a_failure_whatever_was_counted(self) -> None:
        self.assertEqual(self.counts("5 passed, 0 failed\n", 1), (5, 1))
        self.assertEqual(self.counts("", 1, '{"passed": 5, "failed": 0}'), (5, 1))

    def test_nothing_passed_is_a_failure(self) -> None:
        self.assertEqual(self.counts("0 passed, 0 failed\n", 0), (0, 1))
        self.assertEqual(self.counts("", 0, '{"passed": 0, "failed": 0}'), (0, 1))

    def test_tests_of_unittest_are_counted(self) -> None:
        """Skipped ones haven't passed."""
        with tempfile.TemporaryDirectory() as folder:
            Path(folder, "test_it.py").write_text(
                "import unittest\nclass It(unittest.TestCase):\n    def test_a(self): pass\n    def test_b(self): self.fail()\n"
                "    def test_c(self): raise OSError\n    @unittest.skip('no luck')\n    def test_d(self): pass\n    def test_e(self): pass\n")
            count = Path(folder, "count")
            ran = subprocess.run([sys.executable, "-B", TOP / "tools" / "counted.py", "-s", folder], env={**os.environ, "ROKDAUM_COUNT": str(count)}, capture_output=True, text=True)
            self.assertEqual((ran.returncode, json.loads(count.read_text())), (1, {"passed": 2, "failed": 2}))
            self.assertIn("no luck", ran.stdout)
            Path(folder, "test_it.py").write_text("")
            self.assertEqual(subprocess.run([sys.executable, "-B", TOP / "tools" / "counted.py", "-s", folder], capture_output=True).returncode, 1)

    def test_shell_scripts_keep_their_count(self) -> None:
        with tempfile.TemporaryDirectory() as folder:
            count = Path(folder, "count")
            subprocess.run([TOP / "examples" / "check", "false"], env={**os.environ, "ROKDAUM_COUNT": str(count)}, capture_output=True)
            told = json.loads(count.read_text())
            self.assertEqual(told["passed"], 0)
            self.assertGreater(told["failed"], 5)


class Packages(unittest.TestCase):
    """What is missing on a machine whose dpkg-query knows these packages, and who may install it."""

    def setUp(self) -> None:
        self.bin = Path(entered(self, tempfile.TemporaryDirectory()))
        entered(self, mock.patch.dict(os.environ, {"PATH": str(self.bin)}))
        entered(self, mock.patch.object(check, "LOGS", self.bin))
        self.said = entered(self, contextlib.redirect_stdout(io.StringIO()))

    def put(self, name: str, text: str) -> None:
        (self.bin / name).write_text(f"#!/bin/sh\n{text}\n")
        (self.bin / name).chmod(0o755)

    def know(self, *names: str) -> None:
        self.put("dpkg-query", "".join(f"echo {name} installed;" for name in names) + "echo sox config-files")

    def test_what_is_not_installed_is_missing(self) -> None:
        self.know("gcc")
        part = check.Part("x", ("true",), "", needs=("gcc", "sox", "no-such-package"), runs=())
        self.assertEqual(check.missing_packages([part]), ["no-such-package", "sox"])
        self.assertIn("apt-get install no-such-package sox", check.lacking(part))

    def test_elsewhere_than_on_debian_nothing_is_asked(self) -> None:
        self.assertEqual(check.missing_packages(check.PARTS), [])

    def test_root_installs_them(self) -> None:
        self.put("apt-get", f'echo "$@" >> {self.bin}/asked')
        with mock.patch.object(check.os, "geteuid", return_value=0):
            self.assertTrue(check.set_up(["sox", "mypy"]))
        self.assertEqual((self.bin / "asked").read_text(), "update\ninstall -y sox mypy\n")

    def test_sudo_without_a_password_installs_them(self) -> None:
        self.put("apt-get", "exit 0")
        self.put("sudo", f'printf "%s\\n" "$*" >> {self.bin}/asked')
        with mock.patch.object(check.os, "geteuid", return_value=1000):
            self.assertTrue(check.set_up(["sox"]))
        self.assertEqual((self.bin / "asked").read_text(), "-n true\n-n apt-get update\n-n apt-get install -y sox\n")

    def test_another_user_is_told_the_command(self) -> None:
        self.put("apt-get", "exit 0")
        self.put("sudo", "exit 1")
        with mock.patch.object(check.os, "geteuid", return_value=1000):
            self.assertFalse(check.set_up(["mypy", "sox"]))
        self.assertIn("sudo sh -c 'apt-get update && apt-get install mypy sox'", self.said.getvalue())

    def test_a_failed_install_is_told(self) -> None:
        self.put("apt-get", "echo no network; exit 100")
        with mock.patch.object(check.os, "geteuid", return_value=0):
            self.assertFalse(check.set_up(["sox"]))
        self.assertEqual((self.bin / "packages.log").read_text(), "no network\n")

    def test_nothing_is_run_without_them(self) -> None:
        self.know("gcc")
        self.put("apt-get", "exit 100")
        with mock.patch.object(check.sys, "argv", ["check", "compat"]), mock.patch.object(check, "run_all") as ran:
            self.assertEqual(check.main(), 2)
            ran.assert_not_called()
        with mock.patch.object(check.sys, "argv", ["check", "--anyway", "compat"]), mock.patch.object(check, "run_all", return_value={"compat": check.Outcome(0, 1)}) as ran:
            self.assertEqual(check.main(), 1)
            ran.assert_called_once()

    def test_the_list_is_what_the_parts_need(self) -> None:
        kept = [line for line in check.PACKAGES.read_text().splitlines() if not line.startswith("#")]
        self.assertEqual(kept, sorted({it for part in check.PARTS if not part.by_name for it in part.needs}))


class Touched(unittest.TestCase):
    """A part that changes a file that isn't its own has failed."""

    def setUp(self) -> None:
        self.top = Path(entered(self, tempfile.TemporaryDirectory()))
        subprocess.run(["git", "init", "-q", self.top], check=True)
        (self.top / ".gitignore").write_text("out/\n")
        (self.top / "speech.wav").write_bytes(b"the user's own")
        (self.top / "out").mkdir()
        entered(self, mock.patch.object(check, "TOP", self.top))
        entered(self, mock.patch.object(check, "LOGS", self.top / "out"))
        self.said = entered(self, contextlib.redirect_stdout(io.StringIO()))

    def run_part(self, command: str) -> tuple[int, int]:
        outcome = check.run(check.Part("x", ("sh", "-c", command), "", runs=()), False)
        return outcome.passed, outcome.failed

    def test_a_part_in_a_folder_of_its_own(self) -> None:
        self.assertEqual(self.run_part("echo x > out/mine"), (1, 0))

    def test_a_changed_a_made_and_a_removed_file(self) -> None:
        for command in ("echo x >> speech.wav", "echo x > phone.raw", "rm speech.wav"):
            with self.subTest(command=command):
                self.assertEqual(self.run_part(command), (1, 1))
        self.assertIn("speech.wav", self.said.getvalue())

    def test_the_same_octets_written_again(self) -> None:
        self.assertEqual(self.run_part("sleep 0.02; cp speech.wav out/a; cat out/a > speech.wav"), (1, 1))


class Status(unittest.TestCase):
    def test_a_log_is_read_crate_by_crate(self) -> None:
        row = status.rows_of(LOG)["low"]
        self.assertEqual((row.functions, row.tests, row.refused), (31, 7, ["a_sum_is_dropped", "another"]))

    def test_tests_of_a_kept_crate_count(self) -> None:
        row = status.rows_of(KEPT_LOG)["low"]
        self.assertEqual((row.kept, row.tests), (True, 7))

    def test_the_page_has_the_sums(self) -> None:
        summary = {"commit": "abc", "changed": False, "ended": "today", "kit": "k", "processors": 4, "parts": {"proofs": {"passed": 3, "failed": 0, "minutes": 2.5}}}
        page = status.page(summary, LOG, {})
        self.assertIn("| last line | 3 passed, 0 failed |", page)
        self.assertIn("| low | 31 | 7 | 2 |", page)
        self.assertNotIn("Run by name", page)

    def test_the_page_has_what_was_run_by_name(self) -> None:
        summary = {"commit": "abc", "changed": False, "ended": "today", "kit": "k", "processors": 4, "parts": {}}
        run = {"command": "tests/x --cases 9", "commit": "0123456789", "passed": 9, "failed": 0, "minutes": 1.5, "processors": 2, "said": "9 cases, 0 differ"}
        self.assertIn("| long_x | `tests/x --cases 9` | `01234567` | 9 | 0 | 1.5 | 2 | 9 cases, 0 differ |", status.page(summary, LOG, {"long_x": run}))


if __name__ == "__main__":
    unittest.main()
