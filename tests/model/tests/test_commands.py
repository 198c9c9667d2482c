# SPDX-License-Identifier: Apache-2.0
"""The commands `tests/differential` and `tests/fuzz`, with the model in the program's place: as it is, and with something wrong."""

from __future__ import annotations

import subprocess
import sys
import tempfile
import unittest
from pathlib import Path

TESTS = Path(__file__).resolve().parents[2]
WRAPPER = """#!{python}
import os, subprocess, sys
sys.path.insert(0, {model!r})
sys.dont_write_bytecode = True
done = subprocess.run([sys.executable, "-B", "-m", "rokdaum_model", "--form", "running", *sys.argv[1:]],
                      env=dict(os.environ, PYTHONPATH={model!r}), stdout=subprocess.PIPE)
replies, status = done.stdout, done.returncode
{twist}
os.write(1, replies)
sys.exit(status)
"""


class Commands(unittest.TestCase):
    """What the commands say of a right program and of wrong ones."""

    def setUp(self) -> None:
        folder = tempfile.TemporaryDirectory(prefix="rokdaum-")
        self.addCleanup(folder.cleanup)
        self.folder = Path(folder.name)

    def program(self, twist: str = "pass") -> str:
        """A program that is the model, but for a twist of its replies or its status."""
        path = self.folder / "program"
        path.write_text(WRAPPER.format(python=sys.executable, model=str(TESTS / "model"), twist=twist))
        path.chmod(0o755)
        return str(path)

    def run_command(self, name: str, *words: str) -> subprocess.CompletedProcess:
        """Runs a command of `tests`."""
        return subprocess.run([sys.executable, TESTS / name, *words, "--jobs", "2", "--keep", str(self.folder / "kept")],
                              capture_output=True, text=True, timeout=120)

    def test_a_right_program(self) -> None:
        done = self.run_command("differential", "--cases", "12", "--poison", "--program", self.program())
        self.assertEqual(done.returncode, 0, done.stdout + done.stderr)
        self.assertIn("12 cases of seed 1, 24 runs of the program, 0 differ", done.stdout)
        done = self.run_command("fuzz", "--seconds", "2", "--program", self.program())
        self.assertEqual(done.returncode, 0, done.stdout + done.stderr)
        self.assertIn("0 differ", done.stdout)

    def test_a_wrong_reply_is_found_and_kept(self) -> None:
        program = self.program("replies = replies.replace(b'ok 1\\n', b'ok 2\\n')")
        done = self.run_command("differential", "--cases", "12", "--program", program)
        self.assertEqual(done.returncode, 1)
        self.assertIn("wanted b'ok 1', got b'ok 2'", done.stdout)
        again = done.stdout.split("again: ")[1].splitlines()[0].split()
        self.assertEqual(again[0], "tests/differential")
        done = subprocess.run([sys.executable, TESTS / "differential", *again[1:]], capture_output=True, text=True, timeout=60)
        self.assertEqual((done.returncode, "1 case, 1 differ" in done.stdout), (1, True))

    def test_a_wrong_status_is_found_by_the_rows(self) -> None:
        done = self.run_command("differential", "--rows", "--program", self.program("status = 0"))
        self.assertEqual(done.returncode, 1)
        self.assertIn("status 0, wanted 1", done.stdout)

    def test_a_wrong_program_is_found_by_changed_scripts(self) -> None:
        program = self.program("replies = replies.replace(b'no 2 syntax', b'no 3 range')")
        done = self.run_command("fuzz", "--seconds", "2", "--program", program)
        self.assertEqual(done.returncode, 1)
        self.assertIn("wanted b'no 2 syntax', got b'no 3 range'", done.stdout)

    def test_a_program_that_is_not_there(self) -> None:
        for name in ("differential", "faults", "fuzz"):
            done = self.run_command(name, "--program", str(self.folder / "absent"))
            self.assertEqual((done.returncode, done.stdout), (2, ""))
            self.assertIn("isn't a program that can be run", done.stderr)


if __name__ == "__main__":
    unittest.main()
