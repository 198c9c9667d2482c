# SPDX-License-Identifier: Apache-2.0
"""What the recipes share: how dsp_console is started, and how files of samples are read and written.

DSP_CONSOLE and GATEWAY_CONSOLE name other programs, with words before their arguments if they need them.
"""
from __future__ import annotations

import os
import shlex
import subprocess
import sys
import tempfile
from array import array
from collections.abc import Iterable, Sequence
from pathlib import Path

REPOSITORY = Path(__file__).resolve().parent.parent.parent
RATE = 8000
CONSOLE, GATEWAY = "dsp_console", "gateway_console"
LONGEST_FEED = 1024


class Refused(SystemExit):
    """A line of a script was refused: its number, its text and the reply. Who doesn't catch it ends with that line."""


def program(name: str = CONSOLE) -> list[str]:
    """The words that start dsp_console, or gateway_console."""
    return shlex.split(os.environ.get(name.upper(), "")) or [str(REPOSITORY / name)]


def feeds(channel: int, samples: int, block: int = LONGEST_FEED) -> list[str]:
    """The lines that feed so many samples to a channel: whole blocks, and what is left."""
    whole, rest = divmod(samples, block)
    return [f"feed {channel} {block}"] * whole + ([f"feed {channel} {rest}"] if rest else [])


def samples_in(path: Path, octets: bool = False) -> int:
    """How many samples a file has: words of 16 bits, or bytes."""
    return path.stat().st_size // (1 if octets else 2)


def serve(lines: Sequence[str], ports: Iterable[Path], options: Sequence[str] = (), name: str = CONSOLE) -> list[str]:
    """Runs a script over pairs of files, IN and OUT, and gives the replies. Raises Refused at the first refused line."""
    replies = answers(lines, ports, options, name)
    for number, (line, reply) in enumerate(zip(lines, replies), 1):
        if reply.startswith("no "):
            raise Refused(f"line {number}: {line}: {reply}")
    return replies


def answers(lines: Sequence[str], ports: Iterable[Path], options: Sequence[str] = (), name: str = CONSOLE) -> list[str]:
    """The same where refused lines are wanted too."""
    with tempfile.NamedTemporaryFile("w", suffix=".script") as script:
        script.write("\n".join(lines) + "\n")
        script.flush()
        words = [*program(name), *options, script.name, *map(str, ports)]
        # The standard error is the caller's: there the first use says how far it is, and a failed run why.
        ran = subprocess.run(words, stdin=subprocess.DEVNULL, stdout=subprocess.PIPE, text=True, check=False)
    if ran.returncode not in (0, 1):
        sys.exit(f"{name} ended with status {ran.returncode}")
    return ran.stdout.splitlines()


def read_samples(path: Path) -> array[int]:
    """The samples of a file of 16-bit words, the low byte first."""
    found = array("h")
    found.frombytes(path.read_bytes()[: path.stat().st_size // 2 * 2])
    if sys.byteorder == "big":
        found.byteswap()
    return found


def write_samples(path: Path, samples: Iterable[int]) -> None:
    """Writes samples as words of 16 bits, the low byte first."""
    words = array("h", samples)
    if sys.byteorder == "big":
        words.byteswap()
    path.write_bytes(words.tobytes())


def paths(usage: str, count: int) -> list[Path]:
    """The files that the command line names, so many of them; ends with the usage line otherwise, or where an input isn't there."""
    given = [Path(word) for word in sys.argv[1:]]
    if len(given) != count:
        sys.exit(f"usage: {usage}")
    if not given[0].is_file():
        sys.exit(f"no such file: {given[0]}")
    if count == 2 and given[1].exists() and given[1].samefile(given[0]):
        sys.exit(f"{given[1]} is the input: it would be emptied before it is read")
    return given
