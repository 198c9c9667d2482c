# SPDX-License-Identifier: Apache-2.0
"""What the commands share: which Python has the packages, and how an error ends a command."""

from __future__ import annotations

import importlib.util
import os
import subprocess
import sys
from collections.abc import Callable
from pathlib import Path

from ..errors import MissingPackage, RokdaumError

# The Python that Debian's packages python3-numpy and others are for. The one on PATH may be another.
DEBIAN_PYTHON = "/usr/bin/python3"
SCRIPTS = Path(__file__).resolve().parent.parent.parent / "bin"


def need(*names: str) -> None:
    """Goes on if the packages are here. A command of this folder's `bin` is started anew under Debian's Python where that has them.

    Raises MissingPackage where neither has them.
    """
    missing = [name for name in names if importlib.util.find_spec(name) is None]
    if not missing:
        return
    is_ours = Path(os.path.realpath(sys.argv[0])).parent == SCRIPTS
    if is_ours and os.access(DEBIAN_PYTHON, os.X_OK) and os.path.realpath(sys.executable) != os.path.realpath(DEBIAN_PYTHON):
        tried = subprocess.run([DEBIAN_PYTHON, "-c", "import " + ", ".join(names)], capture_output=True, check=False)
        if tried.returncode == 0:
            sys.stdout.flush()
            os.execv(DEBIAN_PYTHON, [DEBIAN_PYTHON, *sys.argv])
    raise MissingPackage(missing[0])


def write_whole(path: Path, text: str) -> None:
    """Writes a file that is whole or stays as it was."""
    part = path.with_name(f".{path.name}.{os.getpid()}.part")
    try:
        part.write_text(text, encoding="utf-8")
        os.replace(part, path)
    finally:
        part.unlink(missing_ok=True)


def ended(name: str, body: Callable[[], int]) -> int:
    """Runs a command's body. An error of this package, or of a file, is one line on the standard error and its exit status."""
    try:
        return body()
    except RokdaumError as why:
        print(f"{name}: {why}", file=sys.stderr)
        return why.status
    except BrokenPipeError:
        # Whoever read the output has enough. Python would complain once more when it ends.
        os.dup2(os.open(os.devnull, os.O_WRONLY), sys.stdout.fileno())
        return 4
    except OSError as why:
        print(f"{name}: {why.filename}: {why.strerror}" if why.filename else f"{name}: {why.strerror}", file=sys.stderr)
        return 4
    except KeyboardInterrupt:
        return 130
