# SPDX-License-Identifier: Apache-2.0
"""What the tests of `rokdaum.Host` stand on: the C library, which is made first.

Where it can't be made the tests fail, and say what `make` said: none is skipped.
"""

from __future__ import annotations

import fcntl
import os
import subprocess
import sys
import unittest
from functools import cache
from pathlib import Path

sys.dont_write_bytecode = True
PYTHON = Path(__file__).resolve().parent.parent
REPOSITORY = PYTHON.parent
sys.path[:0] = [str(PYTHON), str(REPOSITORY / "tests" / "model")]

from rokdaum.library import VARIABLE  # noqa: E402  (the package's folder has to be on the path first)


@cache
def why_there_is_no_library() -> str:
    """Makes the library where ROKDAUM_LIBRARY doesn't name one; what `make` said where it failed, or nothing."""
    if os.environ.get(VARIABLE):
        return ""
    os.makedirs(REPOSITORY / "out", exist_ok=True)
    with open(REPOSITORY / "out" / "c.lock", "w") as lock:
        fcntl.flock(lock, fcntl.LOCK_EX)
        done = subprocess.run(["make", "-s", "-C", str(REPOSITORY / "c"), "all"], stdin=subprocess.DEVNULL, capture_output=True, text=True, check=False)
    return "" if done.returncode == 0 else f"`make -C c` ended with {done.returncode}: {(done.stdout + done.stderr)[-2000:]}"


class LibraryCase(unittest.TestCase):
    """A test with the C library."""

    @classmethod
    def setUpClass(cls) -> None:
        if why := why_there_is_no_library():
            raise RuntimeError(f"there is no C library: {why}")
