# SPDX-License-Identifier: Apache-2.0
"""The C library that shortens and breaks a program's calls of read and write: how it is built, and what it reports."""

from __future__ import annotations

import subprocess
from pathlib import Path
from typing import NamedTuple

from .ports import TapeIn
from .program import TOP, NoProgram

SOURCE = TOP / "tests/preload/faulty_io.c"


def build_library(folder: str) -> Path:
    """Builds the library. Raises `NoProgram` where there is no C compiler."""
    library = Path(folder) / "faulty_io.so"
    try:
        subprocess.run(["cc", "-O2", "-Wall", "-Werror", "-shared", "-fPIC", "-o", library, SOURCE], check=True)
    except (OSError, subprocess.CalledProcessError) as error:
        raise NoProgram(f"{SOURCE} can't be built by cc: {error}") from None
    return library


class Failed(NamedTuple):
    """Which call failed, and of each descriptor how many bytes were read and how often its end was."""

    kind: str
    descriptor: int
    taken: list[int]
    ends: list[int]

    def tape(self, data: bytes, descriptor: int) -> TapeIn:
        """A file as the program saw it up to the call that failed."""
        ends = self.ends[descriptor] if descriptor == self.descriptor else None
        return TapeIn(data[:self.taken[descriptor]], ends=ends)

    def was_read(self, descriptor: int) -> bool:
        """Whether the program saw a byte of a file, or its end."""
        return self.taken[descriptor] + self.ends[descriptor] > 0


def read_report(path: Path) -> Failed:
    """What the library says at the end of a run."""
    kind, descriptor, *read = path.read_text().split()
    pairs = [pair.split(":") for pair in read]
    return Failed(kind, int(descriptor), [int(taken) for taken, _ in pairs], [int(ends) for _, ends in pairs])
