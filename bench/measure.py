# SPDX-License-Identifier: Apache-2.0
"""What the commands of this folder share: seconds and instructions of a program, tables, and where they go."""
from __future__ import annotations

import contextlib
import math
import os
import re
import shutil
import subprocess
import sys
import tempfile
import time
from collections.abc import Iterable, Iterator, Mapping, Sequence
from dataclasses import dataclass
from pathlib import Path
from typing import Union

TOP = Path(__file__).resolve().parent.parent
SOURCES = Path(__file__).resolve().parent / "c"
OUT = TOP / "out" / "bench"
PAGE = TOP / "docs" / "BENCHMARKS.md"
BUILT = TOP / "crates" / "dsp_console_main" / "out" / "dsp_console_main"

# ---- programs


@dataclass(frozen=True)
class Compiled:
    """A program in C: its name in tables, what compiles it, and its sources in bench/c."""

    name: str
    compiler: str
    flags: tuple[str, ...]
    sources: tuple[str, ...]
    # what the processor has to have, as /proc/cpuinfo says it
    needs: str = ""
    libraries: tuple[str, ...] = ()

    @property
    def path(self) -> Path:
        """Where `build` puts it."""
        return OUT / self.name.replace(" ", "_").replace(",", "")

    def build(self, *more: str) -> Path:
        """Compiles it, with more flags if there are some."""
        OUT.mkdir(parents=True, exist_ok=True)
        files = [str(SOURCES / it) for it in self.sources]
        call = [self.compiler, *STANDARD, *self.flags, *more, *files, "-o", str(self.path), *self.libraries]
        subprocess.run(call, check=True)
        return self.path

    def can_run(self) -> bool:
        """Whether there is a compiler, and a processor that has what it needs."""
        return shutil.which(self.compiler) is not None and (not self.needs or self.needs in Path("/proc/cpuinfo").read_text().split())


STANDARD = ("-std=gnu11", "-D_GNU_SOURCE")
HOST = ("console.c", "host.c")
# The job in C. The program itself is built for x86-64-v2, by a newer clang.
IN_ORDER = Compiled("C in order", "clang", ("-O2",), (*HOST, "baseline.c"))
STRONGEST = Compiled("Strongest C", "clang", ("-O3", "-march=x86-64-v2"), (*HOST, "best.c"), "sse4_1")
WITH_AVX2 = Compiled("Strongest C, AVX2", "clang", ("-O3", "-march=x86-64-v3"), (*HOST, "best.c"), "avx2")
IN_C = (IN_ORDER, STRONGEST, WITH_AVX2)
SPANDSP = Compiled("SpanDSP", "clang", ("-O2",), ("spandsp.c",), libraries=("-l:libspandsp.so.2", "-lm"))


def find_program(given: str | None) -> Path:
    """The program that is measured, or the end with a sentence."""
    path = Path(given).resolve() if given else BUILT
    if not os.access(path, os.X_OK) or not path.is_file():
        sys.exit(f"{path} isn't a program that can be run: ./dsp_console builds it, and --program names another one")
    return path


@contextlib.contextmanager
def room() -> Iterator[Path]:
    """A folder that goes at the end, in memory where there is such, so that no run waits for a disk."""
    memory = "/dev/shm" if os.access("/dev/shm", os.W_OK) else None
    with tempfile.TemporaryDirectory(prefix="bench-", dir=memory) as folder:
        yield Path(folder)


# ---- seconds and instructions


@dataclass(frozen=True)
class Ran:
    """A run that has ended: its processor time in seconds, of the user and the system, and its status."""

    seconds: float
    status: int


def timed(words: Sequence[str | Path], folder: Path, replies: Path | None = None) -> Ran:
    """Runs a program in a folder. `wait4` tells the usage of that child alone, and not of what a wrapper around Python has run."""
    target = os.open(replies or os.devnull, os.O_WRONLY | os.O_CREAT | os.O_TRUNC, 0o600)
    try:
        child = subprocess.Popen([str(word) for word in words], cwd=folder, stdin=subprocess.DEVNULL, stdout=target)
        _, status, usage = os.wait4(child.pid, 0)
        child.returncode = os.waitstatus_to_exitcode(status)
    finally:
        os.close(target)
    return Ran(usage.ru_utime + usage.ru_stime, child.returncode)


# The words of a run, and its folder.
Call = tuple[Sequence[Union[str, Path]], Path]


def least_by_turns(calls: Sequence[Call], runs: int) -> list[float]:
    """The least seconds of each call, which run by turns: what disturbs one disturbs the others too."""
    least = [math.inf] * len(calls)
    for _ in range(runs):
        for at, (words, folder) in enumerate(calls):
            least[at] = min(least[at], timed(words, folder).seconds)
    return least


def under_valgrind(tool: Sequence[str], words: Sequence[str | Path], folder: Path) -> str:
    """What this tool of valgrind says of a run. Where the program failed, the end with what it said."""
    call = ["valgrind", *tool, *(str(word) for word in words)]
    ran = subprocess.run(call, cwd=folder, stdin=subprocess.DEVNULL, capture_output=True, text=True, errors="replace")
    if ran.returncode > 1:
        sys.exit(f"{words[0]}: status {ran.returncode}: {ran.stderr[-500:]}")
    return ran.stderr


def number_behind(label: str, told: str) -> int:
    """The number that stands behind a label in what valgrind says."""
    found = re.search(label + r":? +([\d,]+)", told)
    if not found:
        sys.exit(f"valgrind counted nothing: {told[-500:]}")
    return int(found[1].replace(",", ""))


def instructions(words: Sequence[str | Path], folder: Path) -> int:
    """The instructions of a run by callgrind, which work beside it doesn't touch."""
    return number_behind("Collected :", under_valgrind(("--tool=callgrind", "--callgrind-out-file=/dev/null"), words, folder))


# First caches of 32 KB each, in eight ways of lines of 64 octets, as most processors have them.
CACHES = ("--I1=32768,8,64", "--D1=32768,8,64")
MISSED = ("I1 +misses", "D1 +misses", "Mispredicts")


def misses(words: Sequence[str | Path], folder: Path) -> tuple[int, ...]:
    """What a run misses by cachegrind, which work beside it doesn't touch: in the first caches of instructions and of data, and of branches."""
    told = under_valgrind(("--tool=cachegrind", "--cachegrind-out-file=/dev/null", "--cache-sim=yes", "--branch-sim=yes", *CACHES), words, folder)
    return tuple(number_behind(label, told) for label in MISSED)


# ---- tables

# What is less than so much quicker isn't called so.
NOISE = 0.05


def table(head: Sequence[str], rows: Iterable[Sequence[str]]) -> str:
    """A table of Markdown."""
    lines = ["| " + " | ".join(cells) + " |" for cells in (head, *rows)]
    lines.insert(1, "|" + "---|" * len(head))
    return "\n".join(lines) + "\n"


def ratio(value: float, of: float) -> str:
    """How many times the other a value is, in three figures, or `-` where the other is nothing."""
    return f"{value / of:.3g}" if of > 0 else "-"


def cells(values: Mapping[str, float], names: Sequence[str], digits: int) -> list[str]:
    """The values of the programs of a row, and behind each but the first in brackets how many times the first it is. Empty where there is none."""
    found = []
    for at, name in enumerate(names):
        text = f"{values[name]:,.{digits}f}" if name in values else ""
        found.append(f"{text} ({ratio(values[name], values[names[0]])})" if at and text and names[0] in values else text)
    return found


def quicker(rows: Mapping[str, Mapping[str, float]], names: Sequence[str]) -> str:
    """A sentence for each program but the first that takes less than it, which says in which rows."""
    told = ""
    for name in names[1:]:
        where = [row for row, values in rows.items() if name in values and values[name] < (1 - NOISE) * values[names[0]]]
        if where:
            told += f"- {name} takes less than {names[0]} at: {'; '.join(where)}.\n"
    return told or f"None takes less than {names[0]}.\n"


def circumstances() -> str:
    """The processor, the day, and what else the machine does now: a line that stands beside each table. To be asked before a run."""
    name = next((line.split(":", 1)[1].strip() for line in Path("/proc/cpuinfo").read_text().splitlines() if line.startswith("model name")), "a processor")
    bound, there = len(os.sched_getaffinity(0)), os.cpu_count() or 1
    where = f"bound to {bound} of {there} processors" if bound < there else f"on {there} processors"
    load = os.getloadavg()[0]
    busy = f", beside other work (load {load:.1f} at the start)" if load > 0.5 else ""
    return f"{name}, {time.strftime('%Y-%m-%d', time.gmtime())}, {where}{busy}."


def fill(page: Path, name: str, text: str) -> None:
    """Puts a text between the marks of its name in a page, or ends with a sentence where they aren't there."""
    begin, end = f"<!-- table: {name} -->\n", "<!-- end of the table -->"
    old = page.read_text(encoding="utf-8")
    head, found, rest = old.partition(begin)
    if not found or end not in rest:
        sys.exit(f"{page} has no marks for {name}")
    page.write_text(head + begin + text + rest[rest.index(end) :], encoding="utf-8")
