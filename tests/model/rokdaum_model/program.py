# SPDX-License-Identifier: Apache-2.0
"""Runs of the program over files in a folder of its own, several at a time."""

from __future__ import annotations

import os
import shutil
import subprocess
import tempfile
from dataclasses import dataclass
from pathlib import Path
from typing import IO, Optional, Sequence

from .cases import Case
from .compare import Result
from .sets import HOSTED, PROGRAMS

TOP = Path(__file__).resolve().parents[3]
"""The top of the repository."""

TIMEOUT = 60.0


class NoProgram(Exception):
    """The program isn't there."""


def program_of(kinds: str) -> Path:
    """Where the program that hosts a set is built."""
    return TOP / "crates" / PROGRAMS[kinds] / "out" / PROGRAMS[kinds]


def find_program(given: Optional[str], kinds: str = HOSTED) -> Path:
    """The program that is to be run. Raises `NoProgram` with a sentence."""
    path = Path(given).absolute() if given else program_of(kinds)
    if os.access(path, os.X_OK) and path.is_file():
        return path
    if given:
        raise NoProgram(f"{given} isn't a program that can be run")
    built_by = "./dsp_console, run once," if kinds == HOSTED else f"`rt run` in crates/{PROGRAMS[kinds]}"
    raise NoProgram(f"{path} isn't there: {built_by} builds it, and --program names another one")


def memory_folder() -> Optional[str]:
    """A folder in memory where there is one, so that the runs wait for no disk."""
    return "/dev/shm" if os.access("/dev/shm", os.W_OK) else None


@dataclass
class Started:
    """A run that was started."""

    case: Case
    process: subprocess.Popen[bytes]
    files: tuple[IO[bytes], IO[bytes]]


class Slot:
    """A folder in which one run at a time is made."""

    def __init__(self, program: Path, top: Path, number: int):
        self.program, self.folder = str(program), top / str(number)
        self.folder.mkdir()

    def _write_ports(self, case: Case) -> None:
        """The inputs, and outputs that hold something or aren't there."""
        for c, data in enumerate(case.inputs):
            (self.folder / f"in{c}").write_bytes(data)
            out = self.folder / f"out{c}"
            held = case.held_before(c)
            if held is None:
                out.unlink(missing_ok=True)
            else:
                out.write_bytes(held)

    def start(self, case: Case, environment: Optional[dict[str, str]] = None) -> Started:
        """Starts the run of a case."""
        self._write_ports(case)
        words, piped = list(case.words), case.piped
        if piped:
            words[words.index("script")] = "/dev/stdin"
        else:
            (self.folder / "script").write_bytes(case.script)
        files = (open(self.folder / "replies", "wb"), open(self.folder / "stderr", "wb"))
        process = subprocess.Popen(
            [self.program, *words], cwd=self.folder, stdin=subprocess.PIPE if piped else subprocess.DEVNULL,
            stdout=files[0], stderr=files[1], env=environment)
        return Started(case, process, files)

    def finish(self, started: Started, timeout: float = TIMEOUT) -> Result:
        """Waits for the run's end; a run that takes too long is ended, and its status is -1."""
        process = started.process
        try:
            process.communicate(started.case.script if started.case.piped else None, timeout)
            status = process.returncode
        except subprocess.TimeoutExpired:
            process.kill()
            process.wait()
            status = -1
        for file in started.files:
            file.close()
        outs = [self.folder / f"out{c}" for c in range(len(started.case.outputs))]
        return Result(status, (self.folder / "replies").read_bytes(), (self.folder / "stderr").read_bytes(),
                      [out.read_bytes() if out.exists() else None for out in outs])


def temporary_folder() -> tempfile.TemporaryDirectory[str]:
    """A folder for a whole command, in memory where there is such, which goes with it."""
    return tempfile.TemporaryDirectory(prefix="rokdaum-", dir=memory_folder())


class Slots:
    """Slots in a folder of their own below `top`, which goes at the end."""

    def __init__(self, program: Path, count: int, top: str):
        self.top = Path(tempfile.mkdtemp(dir=top))
        self.slots = [Slot(program, self.top, number) for number in range(count)]

    def __enter__(self) -> Sequence[Slot]:
        return self.slots

    def __exit__(self, *_: object) -> None:
        shutil.rmtree(self.top, ignore_errors=True)
