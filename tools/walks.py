#!/usr/bin/env python3
# SPDX-License-Identifier: Apache-2.0
"""Holds the walks of docs/ARCHITECTURE.md to what the built program passes, as gdb sees it.

    tools/walks.py --check [--program PROGRAM]     says what a walk lists that the program doesn't pass
    tools/walks.py --trace LINE [--program PROGRAM]     prints what the program passes for the last line of a walk

A walk is a list of functions between `<!-- walk: LINE -->` and `<!-- end of the walk -->`, in their order, by their symbols. LINE is the
last line of a script; WALKS has the lines before it. What is held:

- the program passes each of them that has a symbol there, in the order of the list;
- one without a symbol was inlined: a function of that name has to be in the sources of its crate;
- the section names each of them in backticks, so that its sentences go by the list.

The proved program has inlined many of them. That of `rt try` has inlined none, and takes minutes: rt try leaves no program, so name a copy.
The last line is 'N passed, M failed'. gdb has to be there.
"""
from __future__ import annotations

import argparse
import os
import re
import shutil
import subprocess
import sys
import tempfile
from dataclasses import dataclass
from pathlib import Path

sys.path.insert(0, str(Path(__file__).resolve().parent))
import counted  # noqa: E402  (the folder of this file has to be on the path first)

ROOT = Path(__file__).resolve().parent.parent
PAGE = Path("docs/ARCHITECTURE.md")
TRACE = Path(__file__).resolve().parent / "trace.gdb"
BUILT = Path("crates/dsp_console_main/out/dsp_console_main")
WALK = re.compile(r"<!-- walk: ([^>]+) -->\n(.*?)<!-- end of the walk -->", re.S)
PASSES = re.compile(r"^passes (.*)$", re.M)
FIR = "create 0 fir 0 16384"
# The lines before the last one of each walk. `first` is the first feed after a creation, in which the instance is idle.
WALKS: dict[str, tuple[str, ...]] = {
    FIR: (),
    "feed 0 256": (FIR, "chain 0 0", "feed 0 256"),
    "feed 0 256, first": (FIR, "chain 0 0"),
}
SAMPLES = 1024
SECONDS = 1200


@dataclass(frozen=True)
class Walk:
    """A walk of the page: its line, its functions in order, and the section around it."""

    line: str
    functions: tuple[str, ...]
    section: str


def walks_of(page: str) -> list[Walk]:
    """The walks of a page, each with the text from the heading above it to the next one."""
    found = []
    for match in WALK.finditer(page):
        begin = page.rfind("\n## ", 0, match.start())
        end = page.find("\n## ", match.end())
        section = WALK.sub("", page[begin : end if end >= 0 else len(page)])
        found.append(Walk(match[1], tuple(line.strip() for line in match[2].splitlines() if line.startswith("    ")), section))
    return found


def traced(program: Path, script: tuple[str, ...]) -> list[str]:
    """The functions that a run of the script passes, in order."""
    with tempfile.TemporaryDirectory(prefix="walks-") as name:
        folder = Path(name)
        (folder / "script").write_text("".join(f"{line}\n" for line in script), encoding="utf-8")
        (folder / "in").write_bytes(bytes(2 * SAMPLES))
        call = ["gdb", "-q", "-batch", "-nx", "-x", str(TRACE), str(program)]
        ran = subprocess.run(call, cwd=folder, stdin=subprocess.DEVNULL, capture_output=True, text=True, timeout=SECONDS)
        found = PASSES.findall(ran.stdout)
        if not found:
            raise SystemExit(f"gdb saw no function of {program}: {ran.stderr[-500:]}")
        return found


def line_of(walk: str) -> str:
    return walk.split(",")[0]


def last_line(program: Path, walk: str) -> list[str]:
    """What is passed from the last line on: the trace without what it has in common with that of the lines before."""
    before, whole = traced(program, WALKS[walk]), traced(program, (*WALKS[walk], line_of(walk)))
    same = 0
    while same < min(len(before), len(whole)) and before[same] == whole[same]:
        same += 1
    return whole[same:]


def symbols(program: Path) -> set[str]:
    """The names of the functions that the program has, without type arguments."""
    ran = subprocess.run(["nm", "-C", "--defined-only", str(program)], capture_output=True, text=True, check=True)
    names = set()
    for line in ran.stdout.splitlines():
        name, before = line.split(" ", 2)[-1], ""
        while name != before:
            before, name = name, re.sub(r"<[^<>]*>", "", name)
        names.add(re.sub(r"::h[0-9a-f]{16}$", "", name).replace("::::", "::").removesuffix("::"))
    return names


def has_source(root: Path, function: str) -> bool:
    """Whether a function of that name is in the sources of its crate."""
    parts = function.split("::")
    wanted = re.compile(rf"\bfn {re.escape(parts[-1])}\b")
    return any(wanted.search(path.read_text(encoding="utf-8")) for path in (root / "crates" / parts[0] / "src").rglob("*.rt"))


def wrong(root: Path, walk: Walk, passed: list[str], there: set[str]) -> list[str]:
    """What a walk lists that isn't so: of functions with a symbol their order, of others their source, of all their names in the text."""
    found, at = [], 0
    for function in walk.functions:
        name = function.split("::")[-1]
        if function in there:
            if function in passed[at:]:
                at = passed.index(function, at) + 1
            else:
                found.append(f"{walk.line}: {function} isn't passed {'there' if function in passed else 'at all'}")
        elif not has_source(root, function):
            found.append(f"{walk.line}: no function {function}")
        if f"`{name}`" not in walk.section:
            found.append(f"{walk.line}: the section doesn't name `{name}`")
    return found


def check(root: Path, program: Path) -> int:
    walks = walks_of((root / PAGE).read_text(encoding="utf-8"))
    there = symbols(program)
    passed, failed, seen = 0, 0, 0
    for walk in walks:
        if walk.line not in WALKS:
            problems = [f"{walk.line}: WALKS of tools/walks.py has no such line"]
        else:
            problems = wrong(root, walk, last_line(program, walk.line), there)
        for text in problems:
            print(f"{PAGE}: {text}", file=sys.stderr)
        passed, failed = passed + len(walk.functions), failed + len(problems)
        seen += sum(function in there for function in walk.functions)
    missing = set(WALKS) - {walk.line for walk in walks}
    for line in sorted(missing):
        print(f"{PAGE}: there is no walk {line}", file=sys.stderr)
    failed += len(missing)
    print(f"{seen} functions have symbols in {program.name}", file=sys.stderr)
    passed = max(passed - failed, 0)
    print(f"{passed} passed, {failed} failed")
    counted.keep(passed, failed)
    return 1 if failed or not seen else 0


def main(words: list[str]) -> int:
    parser = argparse.ArgumentParser(description="Holds the walks of docs/ARCHITECTURE.md to what the built program passes.")
    parser.add_argument("--root", type=Path, default=ROOT, help="another checkout")
    parser.add_argument("--program", type=Path, help="another program")
    wanted = parser.add_mutually_exclusive_group(required=True)
    wanted.add_argument("--check", action="store_true", help="say what a walk lists that isn't passed")
    wanted.add_argument("--trace", metavar="LINE", choices=sorted(WALKS), help="print what is passed for a line")
    given = parser.parse_args(words)
    program = (given.program or given.root / BUILT).resolve()
    if not os.access(program, os.X_OK):
        print(f"{program} isn't there: ./dsp_console builds it", file=sys.stderr)
        return 2
    if not shutil.which("gdb"):
        print("no gdb: apt-get install gdb", file=sys.stderr)
        return 2
    if given.trace:
        print("\n".join(last_line(program, given.trace)))
        return 0
    return check(given.root, program)


if __name__ == "__main__":
    sys.exit(main(sys.argv[1:]))
