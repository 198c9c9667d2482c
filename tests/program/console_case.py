# SPDX-License-Identifier: Apache-2.0
"""What the tests of the program stand on: a folder of their own, and runs of the program in it.

The environment may name the program in ROKDAUM_PROGRAM (else it is the one that `./dsp_console` builds), that with the kinds of a gateway in
ROKDAUM_GATEWAY (else the one that `./gateway_console` builds), and in ROKDAUM_PATIENCE how many seconds a run or a reply is waited for.
"""

from __future__ import annotations

import os
import shutil
import struct
import subprocess
import sys
import tempfile
import unittest
from pathlib import Path
from typing import IO, Any, NamedTuple, Optional, Sequence, Union

sys.dont_write_bytecode = True
sys.path.insert(0, str(Path(__file__).resolve().parents[1] / "model"))

from rokdaum_model.program import find_program  # noqa: E402
from rokdaum_model.sets import GATEWAY_SET  # noqa: E402

PROGRAM = str(find_program(os.environ.get("ROKDAUM_PROGRAM")))
GATEWAY = str(find_program(os.environ.get("ROKDAUM_GATEWAY"), GATEWAY_SET))
PATIENCE = float(os.environ.get("ROKDAUM_PATIENCE", "60"))   # seconds that a run or a reply is waited for
HALF = b"create 0 fir 0 16384\nchain 0 0\n"
"""A channel that halves its samples."""

READ_FAILED = (3, b"dsp_console: read failed\n")
WRITE_FAILED = (4, b"dsp_console: write failed\n")
WRONG_SIZE = (2, b"dsp_console: a space is 0 to 65536 words, a multiple of 4\n")
WRONG_PORTS = (2, b"dsp_console: ports come in pairs, 1 to 16\n")
NOT_UTF8 = (2, b"dsp_console: an argument isn't UTF-8\n")
NO_MEMORY = (5, b"dsp_console: out of memory\n")

Word = Union[str, bytes]


class Ended(NamedTuple):
    """How a run ended."""

    status: int
    replies: bytes
    stderr: bytes

    @property
    def end(self) -> tuple[int, bytes]:
        """The status and the standard error."""
        return self.status, self.stderr


def words(*samples: int) -> bytes:
    """Samples of 16 bits, the low byte first."""
    return struct.pack("<%dh" % len(samples), *samples)


def piped(stream: Optional[IO[bytes]]) -> IO[bytes]:
    """A stream of a process that was started with a pipe there."""
    assert stream
    return stream


class ConsoleCase(unittest.TestCase):
    """A test in a folder of its own, with a script that halves three samples."""

    def setUp(self) -> None:
        self.folder = Path(tempfile.mkdtemp(prefix="rokdaum-"))
        self.addCleanup(shutil.rmtree, self.folder, ignore_errors=True)
        self.write("script", HALF + b"feed 0 2\nfeed 0 1\n")
        self.write("in", words(2, 4, 6))

    def write(self, name: str, data: bytes) -> None:
        """Makes a file in the test's folder."""
        (self.folder / name).write_bytes(data)

    def read(self, name: str) -> bytes:
        """The bytes of a file in the test's folder."""
        return (self.folder / name).read_bytes()

    def exists(self, name: str) -> bool:
        """Whether a file is in the test's folder."""
        return (self.folder / name).exists()

    def run_program(self, *words_: Word, stdin: Optional[bytes] = None, environment: Optional[dict[str, str]] = None,
                    program: str = PROGRAM, **how: Any) -> Ended:
        """Runs the program to its end. `how` goes to `subprocess.run`."""
        how.setdefault("stdout", subprocess.PIPE)
        how.setdefault("stderr", subprocess.PIPE)
        if stdin is None:
            how.setdefault("stdin", subprocess.DEVNULL)
        done = subprocess.run([program, *words_], cwd=self.folder, input=stdin, timeout=PATIENCE,
                              env={**os.environ, **environment} if environment else None, **how)
        return Ended(done.returncode, done.stdout or b"", done.stderr or b"")

    def run_script(self, script: bytes, *words_: Word, **how: Any) -> Ended:
        """Runs the program over a script in a regular file; `words_` are the options and the pairs."""
        self.write("given", script)
        return self.run_program(*[w for w in words_ if str(w).startswith("--")], "given",
                                *[w for w in words_ if not str(w).startswith("--")], **how)

    def pairs(self, inputs: Sequence[bytes]) -> list[str]:
        """Writes inputs as files; the names of the pairs."""
        for c, data in enumerate(inputs):
            self.write(f"in{c}", data)
        return [f"{way}{c}" for c in range(len(inputs)) for way in ("in", "out")]
