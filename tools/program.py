# SPDX-License-Identifier: Apache-2.0
"""The proved programs and the library: whether they are built from the sources as they stand, and how they are built anew.

`dsp_console`, `check`, `tools/build.py` and `tools/archive.py` use this. A build, of one of them or of several at once, is a run of `rt ci`
over a copy of their crates and of those below, without their must-fail edits: every crate is proved, as many at a time as the graph, the
processors and the memory allow, and the programs are what that run makes. A second run beside it proves the longest chain of crates, for
which the others would wait. The archive of a static library is made by `rattle build` over what the first run leaves; it builds a proved
crate alone. So are further builds of it, named CRATE@BUILD: for x86-64-v3, for another processor, and its LLVM module.
"""

from __future__ import annotations

import fcntl
import hashlib
import json
import os
import re
import shlex
import shutil
import subprocess
import sys
import tempfile
import threading
import time
from collections.abc import Callable, Iterator
from contextlib import contextmanager
from pathlib import Path

import crates as crate_list

Say = Callable[[str], None]

TOP = Path(__file__).resolve().parent.parent
CRATES = TOP / "crates"
# The crate of the program, that of its like with the kinds of a gateway, and that with kinds that break the laws, which only tests run.
NAME = "dsp_console_main"
GATEWAY = "gateway_console"
MIXED = "mixed_console"
# Further builds of a crate, and what `rattle build` is given for each: dsp_library@x86-64-v3 is that library for x86-64-v3.
BUILDS = {"x86-64-v3": ("--cpu", "x86-64-v3"), "aarch64-linux-gnu": ("--target", "aarch64-unknown-linux-gnu"), "module": ()}
# That which is the LLVM module, as text, that the others are compiled from: ports/ compiles it for further processors.
MODULE = "module"
# What a crate is proved from.
SOURCES = ("src", "specs", "proofs")
# What else a program's folder has, for its stored run.
STORED_RUN = ("stdin", "stdout", "args", "status", "data")

# The exit statuses of a program that can't be run, as sysexits.h has them.
CANT_BUILD_HERE = 69
NOT_BUILT = 70

# What a build needs free, in a folder for temporary files: copies, proofs and the program.
DISK_OCTETS = 6_000_000_000
# From how many processors on, and with how many octets of memory free, the longest chain is proved by a run of its own.
AHEAD_PROCESSORS = 3
AHEAD_OCTETS = 12_000_000_000
# What rt leaves free on the disk of what it keeps, with room for what a build adds.
KEPT_DISK_OCTETS = 8_000_000_000
# How far the build's own run yields to it.
YIELDS = "10"
# How long the lines of a run that was ended are waited for.
READER_SECONDS = 5
# Seconds of one processor: for each crate, and for each line of it; and how long the sources are read before the first crate is proved.
# They only make the estimate of the minutes.
CRATE_SECONDS = 8.0
LINE_SECONDS = 0.025
READ_SECONDS = 90.0
# How many times as long the slowest machine took that was seen, before this one has built anything.
SLOW = 2.0
# A pace is only kept of a build of so many seconds.
LONG_BUILD_SECONDS = 300.0


class CantBuild(Exception):
    """Why there is no program, in one sentence, and the exit status that tells it."""

    def __init__(self, why: str, status: int) -> None:
        super().__init__(why)
        self.status = status


def listed() -> dict[str, crate_list.Crate]:
    """The crates of the repository."""
    return crate_list.listed(TOP)


def crate_of(name: str) -> str:
    """The crate of a program, a library, or a further build of one."""
    return name.partition("@")[0]


def build_of(name: str) -> str:
    """Which further build of its crate a name is, or nothing."""
    return name.partition("@")[2]


def is_archive(name: str) -> bool:
    """Whether crates.txt has the crate as a static library."""
    crate = crate_of(name)
    return crate in listed() and listed()[crate].is_archive


def is_by_rattle(name: str) -> bool:
    """Whether `rattle build` makes it, and not `rt ci`: the archive of a static library, and each further build."""
    return is_archive(name) or bool(build_of(name))


def path_of(name: str = NAME) -> Path:
    """Where a program, the archive of a static library, or a further build of one stands once it is built."""
    crate, build = crate_of(name), build_of(name)
    if build == MODULE:
        return CRATES / crate / "out" / f"{crate}.ll"
    of_build = f"-{build}" if build else ""
    return CRATES / crate / "out" / (f"lib{crate}{of_build}.a" if is_archive(crate) else f"{crate}{of_build}")


def built_from(name: str = NAME) -> Path:
    """The file with the checksum of the sources that a program was built from."""
    return CRATES / crate_of(name) / "out" / "-".join(filter(None, ("built_from", build_of(name))))


def uses() -> dict[str, list[str]]:
    """The crates of the repository, each with the libraries that crates.txt lists for it."""
    return {name: list(it.uses) for name, it in listed().items()}


def closure(*names: str) -> list[str]:
    """Crates and the crates of the repository that they are built over, lowest first: those of dsp_console where none is named."""
    return crate_list.closure(listed(), *dict.fromkeys(map(crate_of, names or (NAME,))))


def source_files(crate: str) -> list[str]:
    """The files that a crate is proved from, in the order of their names."""
    found = []
    for part in SOURCES:
        for folder, _, names in os.walk(f"{CRATES}/{crate}/{part}"):
            found += [f"{folder}/{name}" for name in names if name.endswith((".rt", ".antt"))]
    return sorted(found)


def octets_of(path: str) -> bytes:
    with open(path, "rb") as file:
        return file.read()


def checksum(name: str = NAME) -> str:
    """A checksum of all that a program is built from: the lines of crates.txt and each file of each crate of its closure."""
    libraries, total = uses(), hashlib.sha256()
    for crate in closure(name):
        total.update(f"{crate}: {' '.join(libraries[crate])}\n".encode())
        for path in source_files(crate):
            text = octets_of(path)
            total.update(f"{path[len(str(CRATES)):]} {len(text)}\n".encode() + text)
    return total.hexdigest()


def is_built(name: str = NAME) -> bool:
    """Whether a program is there and was built from the sources as they stand."""
    sources = built_from(name)
    return is_made(path_of(name), name) and sources.is_file() and sources.read_text() == checksum(name)


def is_made(made: Path, name: str) -> bool:
    """Whether there is a program that can be run, or an archive."""
    return os.access(made, os.R_OK if is_by_rattle(name) else os.X_OK)


def keep(name: str, sources: str) -> None:
    """Says of the program that `rt ci` has just made in its place that it was made from these sources, if they still stand."""
    if is_made(path_of(name), name) and sources == checksum(name):
        built_from(name).write_text(sources)


def take(made: Path, name: str, sources: str) -> None:
    """Puts a program that was made from these sources in its place, whole or not at all."""
    program = path_of(name)
    program.parent.mkdir(parents=True, exist_ok=True)
    parts = [path.with_name(f"{path.name}.{os.getpid()}") for path in (program, built_from(name))]
    shutil.copy2(made, parts[0])
    parts[1].write_text(sources)
    for part, path in zip(parts, (program, built_from(name))):
        os.replace(part, path)


def archives() -> list[str]:
    """The crates that are made into static libraries."""
    return [it for it in uses() if is_archive(it)]


def has_libraries() -> bool:
    """Whether an earlier run left the library of a crate in its place: `rt ci` puts such a one back when it ends."""
    return any((CRATES / it / "out" / "rlib").exists() for it in uses())


def keep_archive(name: str, sources: str) -> None:
    """Makes the archive of a static library over the libraries that `rt ci` has just left in their places, where the sources still
    stand as they were proved, or raises why it can't be made."""
    if sources != checksum(name):
        return
    with tempfile.TemporaryDirectory(prefix="dsp_console-build-") as folder:
        log = Path(tempfile.gettempdir()) / f"dsp_console-build-{os.getpid()}.log"
        made = Path(folder) / "made"
        make_by_rattle(made, TOP, name, log, Path(folder) / "checked")
        take(made, name, sources)
        log.unlink()


def kit_lines(text: str) -> list[str]:
    """The lines that name a kit: its name and the checksum of its logic."""
    return re.findall(r"rattle-kit-\w+ logic [0-9a-f]+", text)


def look_at_kit(say: Say) -> None:
    """Refuses a machine without the kit or with one of another logic, and tells of a kit that the sources weren't proved with."""
    if not shutil.which("rt"):
        raise CantBuild(
            "the program isn't built yet, and rt, the command of the Rattle kit that proves and builds it, isn't on PATH: "
            "README.md says what a build takes",
            CANT_BUILD_HERE,
        )
    here = kit_lines(subprocess.run(["rt", "version"], capture_output=True, text=True).stdout)
    known = kit_lines((TOP / "README.md").read_text(encoding="utf-8"))
    if not here or here[0].split()[-1] not in {line.split()[-1] for line in known}:
        raise CantBuild(
            f"the kit here is {here[0] if here else 'of no known version'}, and the sources are proved with {' or '.join(known)}: install one of these",
            CANT_BUILD_HERE,
        )
    if here[0] not in known:
        say(f"note: the kit here is {here[0]}; the sources were proved with {' or '.join(known)}, whose logic is the same")


def look_at_disk(room: Path) -> None:
    """Refuses a folder for temporary files that is too small for a build."""
    free = shutil.disk_usage(room).free
    if free < DISK_OCTETS:
        raise CantBuild(
            f"a build takes {DISK_OCTETS / 1e9:.0f} GB in {room}, where {free / 1e9:.1f} GB are free: make room, or name another folder by TMPDIR",
            CANT_BUILD_HERE,
        )


def pace_file() -> Path:
    """Where the pace of the last long build on this machine is kept."""
    return TOP / "out" / "pace.json"


def kept_pace() -> float | None:
    """How many times as long as on idle processors the last long build here took, None before the first."""
    try:
        pace = json.loads(pace_file().read_text(encoding="utf-8"))["pace"]
    except (OSError, ValueError, KeyError, TypeError):
        return None
    return float(pace) if isinstance(pace, (int, float)) and 0.1 <= pace <= 100 else None


class Progress:
    """How far a build is: of each crate its weight in seconds of one processor, and what stands above it.

    The minutes left are those of the model at a pace: first that of the last long build on this machine (or of the slowest machine that was
    seen), and the more is done, the more that of this build. They never grow: where a build falls behind, they are said to be more.
    """

    def __init__(self, crates: list[str], say: Say, tops: tuple[str, ...] = (), known: tuple[str, ...] = ()) -> None:
        libraries = uses()
        self.say, self.began, self.lanes = say, time.monotonic(), len(os.sched_getaffinity(0))
        self.tops = tops or (crates[-1],)
        self.what = "programs and libraries" if len(self.tops) > 1 else "library" if is_archive(self.tops[0]) else "program"
        self.weight = {it: CRATE_SECONDS + LINE_SECONDS * sum(octets_of(path).count(b"\n") for path in source_files(it)) for it in crates}
        self.below = {it: [dep for dep in libraries[it] if dep in self.weight] for it in crates}
        # What stands proved already, since a program over it is built, isn't waited for.
        self.left = [it for it in crates if it not in known]
        self.all = len(crates)
        self.pace = kept_pace()
        self.is_reading = True
        self.minutes: float | None = None
        self.whole = 1.0
        # Seconds that were spent, and those of the model that were done in them, the later ones weighing more.
        self.spent = self.done = 0.0
        self.at, self.left_before = self.began, 0.0
        self.lock = threading.Lock()

    def chains(self) -> dict[str, float]:
        """Of each crate that is left, the weight of the longest chain of such crates up to it."""
        chains: dict[str, float] = {}
        for crate in self.left:
            chains[crate] = self.weight[crate] + max((chains.get(it, 0.0) for it in self.below[crate]), default=0.0)
        return chains

    def chain_top(self) -> str:
        """Of the crates that end at least half of the longest chain, the one for which the chain is most of what it stands on."""
        chains = self.chains()
        chain = [max(self.left, key=lambda it: chains[it])]
        while below := [it for it in self.below[chain[-1]] if it in chains]:
            chain.append(max(below, key=lambda it: chains[it]))
        long = [it for it in chain if chains[it] >= 0.5 * chains[chain[0]]]
        return max(long, key=lambda it: chains[it] / sum(self.weight[below] for below in closure(it)))

    def seconds_left(self) -> float:
        """The most of what idle processors have left to do and of the longest chain of crates left, with what is left to read."""
        reading = READ_SECONDS if self.is_reading and self.left else 0.0
        return reading + max(sum(self.weight[it] for it in self.left) / self.lanes, max(self.chains().values(), default=0.0))

    def begin(self) -> None:
        """Tells what is coming."""
        self.whole = self.left_before = max(self.seconds_left(), 1.0)
        least, before = round(self.whole / 60), self.all - len(self.left)
        crates = f"{self.all} crates are proved" if not before else f"{before} of {self.all} crates are proved already, and {len(self.left)} are left"
        minutes = f"about {max(1, round(self.whole * self.pace / 60))} minutes" if self.pace else f"{max(1, least)} to {max(2, round(SLOW * self.whole / 60))} minutes, as the machine is"
        self.say(f"the {self.what} {'have' if len(self.tops) > 1 else 'has'} to be built: {crates}, up to {self.lanes} at a time, in {minutes}; all sources are read first, which takes a minute or two")

    def kept(self, crate: str) -> None:
        """Counts a crate that was proved by an earlier run on this machine: it takes no time."""
        with self.lock:
            if crate in self.left:
                self.left.remove(crate)
                self.whole = self.left_before = max(self.seconds_left(), 1.0)

    def proved(self, crate: str) -> None:
        """Tells that a crate is proved."""
        with self.lock:
            if crate not in self.left:
                return
            self.left.remove(crate)
            self.is_reading = False
            rest = f"{self.rest()} left" if self.left else f"the {self.what} {'are' if len(self.tops) > 1 else 'is'} next"
            self.say(f"proved {crate}, {self.all - len(self.left)} of {self.all}, {rest}")

    def rest(self) -> str:
        """The minutes left, in words."""
        model, now = self.seconds_left(), time.monotonic()
        step = max(self.left_before - model, 0.0)
        # What was done before weighs half as much once a fifth of the whole is done behind it.
        fade = 0.5 ** (step / (0.2 * self.whole))
        self.spent, self.done = fade * self.spent + now - self.at, fade * self.done + step
        self.at, self.left_before = now, model
        trust = min(1.0, 2 * max(0.0, 1 - model / self.whole))
        pace = trust * self.spent / max(self.done, 1.0) + (1 - trust) * (self.pace or SLOW)
        found = model * pace / 60
        said = found if self.minutes is None else min(found, self.minutes)
        self.minutes = said
        return f"{'about' if found <= 1.5 * said + 1 else 'more than'} {max(1, round(said))} minutes"

    def end(self) -> None:
        """Keeps the pace of a long build for the next one."""
        if self.whole >= LONG_BUILD_SECONDS:
            pace_file().parent.mkdir(exist_ok=True)
            pace_file().write_text(json.dumps({"pace": round((time.monotonic() - self.began) / self.whole, 2)}) + "\n")

    def read(self, line: str) -> None:
        """Counts the crate that a line of `rt ci` says to be proved, if it says so."""
        told = re.fullmatch(r"rt: (\w+) proved\n", line)
        if told:
            self.proved(told[1])


def memory_free() -> int:
    """How many octets of memory programs may take."""
    told = re.search(r"MemAvailable: +(\d+) kB", Path("/proc/meminfo").read_text())
    return int(told[1]) * 1024 if told else 0


def keeps_proofs() -> bool:
    """Whether rt can keep beside the kit what it proved, so that another run takes it from there: it keeps nothing on a disk that is nearly full."""
    beside = Path(shutil.which("rt") or "/").resolve().parents[2]
    store = beside / "rattle-kept"
    place = store if store.exists() else beside
    return os.access(place, os.W_OK) and shutil.disk_usage(place).free >= KEPT_DISK_OCTETS


class Ahead:
    """A run of `rt ci` beside a build's own, for the crates of the longest chain and what they stand on. A run gives a proof the
    processors that none of its other proofs waits for: in the build's own run there is always another, so the crates for which
    the rest has to wait would have one processor each. What is proved here is kept, and the build's run takes it from there."""

    def __init__(self, room: Path, crate: str, progress: Progress) -> None:
        self.ran = subprocess.Popen(
            ["rt", "ci", crate], cwd=room, stdin=subprocess.DEVNULL, stdout=subprocess.PIPE, stderr=subprocess.STDOUT, text=True, errors="replace"
        )
        self.reader = threading.Thread(target=self.follow, args=(progress,), daemon=True)
        self.reader.start()

    def follow(self, progress: Progress) -> None:
        """Counts what the run proves, to its end."""
        assert self.ran.stdout  # it is a pipe
        for line in self.ran.stdout:
            progress.read(line)

    @classmethod
    def of(cls, room: Path, progress: Progress) -> Ahead | None:
        """Such a run, where the build's own is of more than a chain and there are processors, memory and disk for both."""
        if not progress.left:
            return None
        top = progress.chain_top()
        is_room = progress.lanes >= AHEAD_PROCESSORS and memory_free() >= AHEAD_OCTETS and shutil.disk_usage(room).free >= 2 * DISK_OCTETS
        return cls(room, top, progress) if top not in progress.tops and is_room and keeps_proofs() else None

    def end(self) -> None:
        """Ends the run, if it hasn't ended."""
        self.ran.terminate()
        self.ran.wait()
        # what rt itself started may hold the pipe a little longer
        self.reader.join(READER_SECONDS)
        if not self.reader.is_alive() and self.ran.stdout:
            self.ran.stdout.close()


def copy_closure(room: Path, names: list[str]) -> None:
    """Copies crates, without their must-fail edits and kept work, into a repository of their own."""
    known = listed()
    (room / crate_list.LISTED).write_text("".join(known[it].line for it in names))
    shutil.copy(TOP / "HANDLES", room)
    for crate in names:
        for part in (*SOURCES, *STORED_RUN):
            path = CRATES / crate / part
            if path.is_dir():
                shutil.copytree(path, room / "crates" / crate / part)
            elif path.is_file():
                shutil.copy(path, room / "crates" / crate)


def kit() -> Path:
    """The folder of the kit."""
    return Path(shutil.which("rattle") or "/").resolve().parent.parent


def module_toolchain(folder: Path) -> Path:
    """A folder for `rattle build --toolchain` whose clang is the kit's, and beside its work keeps the module that it is given, as module.bc.
    What it makes of that is thrown away, so it spends no time on it."""
    own, of_kit = folder / "toolchain", kit() / "toolchain"
    (own / "bin").mkdir(parents=True, exist_ok=True)
    for part in ("lib", "bin/ld.lld", "bin/llvm-ar", "bin/rattle-x64"):
        if (of_kit / part).exists() and not (own / part).exists():
            (own / part).symlink_to(of_kit / part)
    clang = own / "bin" / "clang"
    clang.write_text(
        f'#!/bin/sh\nfor word; do case $word in *.bc) cp "$word" {shlex.quote(str(folder / "module.bc"))} ;; esac; done\n'
        f'exec {shlex.quote(str(of_kit / "bin" / "clang"))} "$@" -O0\n'
    )
    clang.chmod(0o755)
    return own


def call_of_rattle(made: Path, room: Path, name: str, toolchain: Path, checked: Path) -> list[str]:
    """The command that makes the archive of a static library, or a further build of a crate, over the libraries that `rt ci` left in the room."""
    crates, of_kit = closure(name), kit()
    own = {it: room / "crates" / it / "out" / "rlib" for it in crates[:-1]}
    words = ["rattle", "build", "--crate-name", crates[-1], *(("src/lib.rt", "--crate-type", "staticlib") if is_archive(name) else ("src/main.rt",))]
    for it in ("std", *uses()[crates[-1]]):
        words += ["--extern", f"{it}={own.get(it, of_kit / 'rlibs') / it}.rlib"]
    for folder in (of_kit / "rlibs", *own.values()):
        words += ["-L", f"dependency={folder}"]
    words += ["--antt-project", f"{of_kit}/rattle/logic/antt-project.json", "--logic-built", f"{of_kit}/logic_built", "--toolchain", str(toolchain)]
    further = ("--incremental", str(checked), *BUILDS[build_of(name)]) if build_of(name) else ()
    return [*words, *further, "-o", str(made)]


def make_by_rattle(made: Path, room: Path, name: str, log: Path, checked: Path) -> None:
    """Makes the archive of a static library, or a further build of a crate, over the libraries that `rt ci` left in the room. What a further
    build checks of the crate is kept in the folder `checked`, which the caller makes for its own builds alone, and the next begins with it."""
    made.parent.mkdir(exist_ok=True)
    checked.mkdir(exist_ok=True)
    is_module = build_of(name) == MODULE
    toolchain = module_toolchain(checked) if is_module else kit() / "toolchain"
    calls = [call_of_rattle(made, room, name, toolchain, checked)]
    if is_module:
        calls.append([str(kit() / "toolchain" / "bin" / "clang"), "-x", "ir", "-S", "-emit-llvm", "-O0", "-Xclang", "-disable-llvm-passes", str(checked / "module.bc"), "-o", str(made)])
    with open(log, "a", encoding="utf-8") as kept:
        for words in calls:
            status = subprocess.run(words, cwd=room / "crates" / crate_of(name), stdin=subprocess.DEVNULL, stdout=kept, stderr=subprocess.STDOUT).returncode
            if status:
                raise CantBuild(f"not built: {' '.join(words[:2])} ended with status {status}, and all that it said is in {log}", NOT_BUILT)


def run_rt(room: Path, progress: Progress, log: Path, yields: bool, say: Say) -> int:
    """Runs `rt ci` over the copy of a program's crates, and answers its status. All that it says is kept in the log. It may yield the
    processors to a run for the longest chain."""
    command = ["nice", "-n", YIELDS, "rt", "ci"] if yields else ["rt", "ci"]
    asked = subprocess.Popen(command, cwd=room, stdin=subprocess.DEVNULL, stdout=subprocess.PIPE, stderr=subprocess.STDOUT, text=True, errors="replace")
    with open(log, "w", encoding="utf-8") as kept, asked as ran:
        assert ran.stdout  # it is a pipe
        for line in ran.stdout:
            kept.write(line)
            progress.read(line)
            kept_before = re.match(r"rt: (\w+) is kept: ", line)
            if kept_before:
                progress.kept(kept_before[1])
            refused = re.fullmatch(r"rt: (\w+)(?:: its tests are)? NOT PROVED.*\n", line)
            if refused:
                say(f"{refused[1]} is refused")
        return ran.wait()


@contextmanager
def alone(say: Say) -> Iterator[None]:
    """Only one of several callers builds: the others wait here."""
    with open(TOP / "dsp_console", "rb") as held:
        try:
            fcntl.flock(held, fcntl.LOCK_EX | fcntl.LOCK_NB)
        except BlockingIOError:
            say("another dsp_console is building the program: waiting for it")
            fcntl.flock(held, fcntl.LOCK_EX)
        yield


def build(say: Say, *names: str) -> None:
    """Builds the programs and libraries of these crates that aren't built from the sources as they stand, in one go, or raises why they
    can't be. What `say` is given is for a person to read."""
    wanted = names or (NAME,)
    if all(map(is_built, wanted)):
        return  # whoever builds something else isn't waited for
    with alone(say):
        missing = tuple(it for it in wanted if not is_built(it))
        if missing:
            build_missing(say, missing)


def build_missing(say: Say, names: tuple[str, ...]) -> None:
    """Proves what these programs and libraries stand on, and builds them."""
    look_at_kit(say)
    folder = Path(tempfile.gettempdir())
    look_at_disk(folder)
    needed, sources = closure(*names), {it: checksum(it) for it in names}
    built = [it for it in (NAME, GATEWAY, MIXED, *archives()) if it in uses() and is_built(it)]
    progress = Progress(needed, say, names, tuple(closure(*built)) if built and keeps_proofs() else ())
    progress.begin()
    log = folder / f"dsp_console-build-{os.getpid()}.log"
    with tempfile.TemporaryDirectory(prefix="dsp_console-build-", dir=folder) as copy:
        room = Path(copy)
        copy_closure(room, needed)
        ahead = Ahead.of(room, progress)
        try:
            status = run_rt(room, progress, log, ahead is not None, say)
        finally:
            if ahead:
                ahead.end()
        for name in names:
            made = room / path_of(name).relative_to(TOP)
            if status or not (is_by_rattle(name) or is_made(made, name)):
                raise CantBuild(f"not built: rt ci ended with status {status}, and all that it said is in {log}", NOT_BUILT)
            if is_by_rattle(name):
                make_by_rattle(made, room, name, log, room / f"checked-{crate_of(name)}")
            take(made, name, sources[name])
    progress.end()
    log.unlink()
    say("built")


def run_unproved(arguments: list[str], name: str = NAME) -> int:
    """Runs what `rt try` makes of the sources, of which nothing is proved, and returns its exit status."""
    if not shutil.which("rt"):
        raise CantBuild("rt, the command of the Rattle kit, isn't on PATH: install the kit that README.md names (x86-64 Linux)", CANT_BUILD_HERE)
    called = GATEWAY if name == GATEWAY else "dsp_console"
    print(f"{called}: NOTHING OF THIS PROGRAM IS PROVED: it is made for this one run, in a minute or two", file=sys.stderr, flush=True)
    return subprocess.run(["rt", "try", "--", *absolute(arguments)], cwd=CRATES / name).returncode


# Options whose value is the next argument.
VALUED = ("--daram", "--saram", "--external", "--poison", "--in8", "--out8")


def absolute(arguments: list[str]) -> list[str]:
    """The arguments with each file's path made absolute, since `rt try` runs the program in another folder."""
    made: list[str] = []
    is_value = are_files = False
    for word in arguments:
        if is_value or (word.startswith("-") and word != "-" and not are_files):
            is_value = not is_value and word in VALUED
            are_files = are_files or word == "--"
            made.append(word)
        else:
            made.append(os.path.abspath(word) if word else word)
    return made
