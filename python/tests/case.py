# SPDX-License-Identifier: Apache-2.0
"""What the tests stand on: the package beside this folder, the built program, and a folder of their own.

DSP_CONSOLE and GATEWAY_CONSOLE name the words that start the programs; else they are those that ./dsp_console and ./gateway_console build.
"""

from __future__ import annotations

import os
import shlex
import subprocess
import sys
import tempfile
import unittest
from pathlib import Path
from typing import Any

sys.dont_write_bytecode = True
PYTHON = Path(__file__).resolve().parent.parent
REPOSITORY = PYTHON.parent
sys.path.insert(0, str(PYTHON))

try:
    import matplotlib  # noqa: F401
    import numpy as np
    import scipy  # noqa: F401
except ImportError as why:
    sys.exit(f"{sys.executable} lacks a package ({why}): on Debian apt-get install $(grep -v '^#' tests/debian.txt), and run the tests by /usr/bin/python3")

from signals import noise, tone  # noqa: E402, F401  (the tests take them from here)

from rokdaum.script import Pair, Result, Settings, parse, run  # noqa: E402

PATIENCE = 120


def named(name: str, crate: str) -> str:
    """The words that start a program, which are set for the commands too. A test never starts a build."""
    built = REPOSITORY / "crates" / crate / "out" / crate
    words = os.environ.setdefault(name.upper(), shlex.quote(str(built)))
    if shlex.split(words)[0] == str(built) and not built.is_file():
        sys.exit(f"{built} isn't built: ./{name} builds it, or name another program by {name.upper()}")
    return words


PROGRAM, GATEWAY = named("dsp_console", "dsp_console_main"), named("gateway_console", "gateway_console")


class Case(unittest.TestCase):
    """A test in a folder of its own."""

    def setUp(self) -> None:
        held = tempfile.TemporaryDirectory(prefix="rokdaum-test-")
        self.addCleanup(held.cleanup)
        self.room = Path(held.name)

    def write(self, name: str, content: str | bytes | np.ndarray) -> Path:
        """A file with a text, bytes, or samples of 16 bits."""
        path = self.room / name
        if isinstance(content, np.ndarray):
            content = content.astype("<i2").tobytes()
        path.write_bytes(content.encode() if isinstance(content, str) else content)
        return path

    def samples(self, name: str) -> np.ndarray:
        """The samples of a file."""
        return np.fromfile(self.room / name, "<i2")

    def left_over(self) -> list[str]:
        """Files that a run should have removed."""
        return sorted(path.name for path in self.room.iterdir() if path.name.startswith("."))

    def run_text(self, text: str, *names: str, settings: Settings = Settings(), **how: Any) -> Result:
        """Runs a script over files of the test's folder."""
        pairs = [Pair(self.room / source, self.room / target) for source, target in zip(names[::2], names[1::2])]
        return run(parse(text), pairs, settings, **how)

    def program(self, script: str, *words: str) -> tuple[str, int]:
        """The program itself over a script: its replies and status."""
        self.write("plain.script", script)
        options = [word for word in words if word.startswith("--")]
        ports = [word for word in words if not word.startswith("--")]
        done = subprocess.run([*shlex.split(PROGRAM), *options, "plain.script", *ports], cwd=self.room, capture_output=True, text=True, timeout=PATIENCE, check=False)
        return done.stdout, done.returncode

    def command(self, name: str, *words: str, given: str | None = None, python: str | None = None) -> subprocess.CompletedProcess[str]:
        """A command of `bin` in the test's folder."""
        stdin = subprocess.DEVNULL if given is None else None
        return subprocess.run(
            [python or sys.executable, str(PYTHON / "bin" / name), *words], cwd=self.room, input=given, stdin=stdin, capture_output=True, text=True, timeout=PATIENCE, check=False
        )
