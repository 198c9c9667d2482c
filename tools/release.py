#!/usr/bin/env python3
# SPDX-License-Identifier: Apache-2.0
"""Makes a release: the proved programs, the C library and the Python package, with man pages, completion, documents and examples, for
machines without the kit.

    tools/release.py                 makes out/rokdaum-VERSION-x86_64-linux.tar.gz, and beside it its checksum
    tools/release.py --to FOLDER     makes them in that folder
    tools/release.py --stage FOLDER  makes the folder that the archive holds, and no archive
    tools/release.py --changed ..    takes files that were changed and not committed, too; ORIGIN then says so

The same commit and the same programs give the same archive: it holds the files that git knows, by their names, with owner 0 and the
time of the commit, or that of SOURCE_DATE_EPOCH. Programs and the proved part of the library are taken only if they were built from the
sources as they stand; c/Makefile then makes the library.
"""

from __future__ import annotations

import argparse
import gzip
import hashlib
import io
import os
import re
import shutil
import subprocess
import sys
import tarfile
import time
from pathlib import Path
from typing import IO, cast

sys.path.insert(0, str(Path(__file__).resolve().parent))
sys.dont_write_bytecode = True

import program  # noqa: E402  (the folder of this file has to be on the path first)

TOP = program.TOP
PLATFORM = "x86_64-linux"
# The programs: where each stands in a release, and its crate.
PROGRAMS = {"dsp_console": program.NAME, "gateway_console": program.GATEWAY}
# The crates whose archives the C library is made of, and the build for processors of a higher level, which the loader finds in this folder
# beside the library. A release has it where it was built; ORIGIN says whether.
ARCHIVES = ("dsp_library",)
LEVEL, HWCAPS = "x86-64-v3", "glibc-hwcaps/x86-64-v3"
# The files at the top that a release has. Its README is made of a page of docs.
FILES = ("CHANGELOG.md", "LICENSE", "Makefile", "NOTICE", "SECURITY.md", "SONAME", "VERSION")
README = "docs/RELEASE.md"
# The folders whose files a release has, with the pages elsewhere that theirs link to; and those within them whose files it hasn't.
FOLDERS = ("docs/", "examples/", "python/", "c/examples/", "gst/", "rust/", "bench/NOTEBOOK.md", "tests/README.md", "tests/model/README.md")
LEFT_OUT = ("python/tests/", "gst/tests/", "rust/check", "rust/rokdaum/tests/")
HEADER = "c/rokdaum.h"
# What CMake finds the library by: c/Makefile makes them.
CMAKE = ("rokdaumConfig.cmake", "rokdaumConfigVersion.cmake")
# Where the toolchain says in a program which logic it was proved by, and the versions of the C library that it asks for.
LOGIC = re.compile(rb"rattle logic=([0-9a-f]{64})")
GLIBC = re.compile(rb"GLIBC_(\d+)\.(\d+)")
# A link of README to a page beside it, or to one above.
LINK = re.compile(r"\]\((\.\./)?(?=[\w.])(?!\w+:)")

Entry = tuple[bytes, bool]


class NoRelease(Exception):
    """Why there is no release, in one sentence, and the exit status that tells it."""

    def __init__(self, why: str, status: int = 1) -> None:
        super().__init__(why)
        self.status = status


def git(*words: str) -> str:
    """What git says of the repository."""
    try:
        ran = subprocess.run(("git", *words), cwd=TOP, capture_output=True, text=True, check=False)
    except OSError as missing:
        raise NoRelease(f"git is needed, which knows the files of a release: {missing}") from missing
    if ran.returncode:
        raise NoRelease(f"git {' '.join(words)}: {ran.stderr.strip()}")
    return ran.stdout


def version() -> str:
    return (TOP / "VERSION").read_text(encoding="utf-8").strip()


def name() -> str:
    """The name of a release, its folder and its archive."""
    return f"rokdaum-{version()}-{PLATFORM}"


def seconds() -> int:
    """The time that everything in a release has."""
    given = os.environ.get("SOURCE_DATE_EPOCH")
    if given and not given.isdecimal():
        raise NoRelease(f"SOURCE_DATE_EPOCH is no number of seconds: {given}")
    return int(given or git("log", "-1", "--format=%ct"))


def tracked() -> dict[str, bool]:
    """The files that git knows, each with whether it can be executed."""
    found = {}
    for line in git("ls-files", "--stage", "-z").split("\0"):
        if line:
            about, path = line.split("\t", 1)
            found[path] = about.startswith("100755")
    return found


def look_at_built(name: str) -> None:
    """Refuses a program or an archive that isn't built from the sources as they stand."""
    if not program.is_built(name):
        what, command = ("archive", f"tools/archive.py {name}") if program.is_archive(name) else ("program", f"./{name}" if name == program.GATEWAY else "./dsp_console")
        raise NoRelease(f"the {what} {name} isn't built from the sources as they stand: {command} proves and builds it, which takes the Rattle kit", program.CANT_BUILD_HERE)


def look_at_program(name: str) -> bytes:
    """A proved program, or why there is none."""
    look_at_built(name)
    text = program.path_of(name).read_bytes()
    logic = LOGIC.search(text)
    known = {line.split()[-1] for line in program.kit_lines((TOP / "README.md").read_text(encoding="utf-8"))}
    if not logic or not any(logic[1].decode().startswith(it) for it in known):
        said = f"logic {logic[1].decode()}" if logic else "no logic"
        raise NoRelease(f"the program {name} says that it was proved by {said}, and README.md names {' or '.join(sorted(known))}")
    return text


def library() -> dict[str, Entry]:
    """The C library, made of archives that are built already: for C, and beside the Python package."""
    for name in ARCHIVES:
        look_at_built(name)
    has_level = program.is_built(f"{ARCHIVES[0]}@{LEVEL}")
    made = subprocess.run(("make", "-s", "-C", "c", "v3" if has_level else "all"), cwd=TOP, stdin=subprocess.DEVNULL, capture_output=True, text=True, check=False)
    if made.returncode:
        raise NoRelease(f"make -C c ended with status {made.returncode}: {(made.stdout + made.stderr).strip()[-500:]}")
    out, shared = TOP / "out" / "c", f"librokdaum.so.{version()}"
    text = (out / shared).read_bytes()
    found = {"lib/librokdaum.a": ((out / "librokdaum.a").read_bytes(), False), f"lib/{shared}": (text, False), "python/rokdaum/librokdaum.so": (text, False)}
    if has_level:
        higher = ((out / HWCAPS / shared).read_bytes(), False)
        found |= {f"lib/{HWCAPS}/{shared}": higher, f"python/rokdaum/{HWCAPS}/librokdaum.so": higher}
    where = (TOP / "c" / "rokdaum.pc.in").read_text(encoding="utf-8").replace("@VERSION@", version())
    # Where it was unpacked the header stands in c.
    there = where.replace("@PREFIX@", "${pcfiledir}/../..").replace("${prefix}/include", "${prefix}/c")
    found |= {f"lib/cmake/rokdaum/{it}": ((out / it).read_bytes(), False) for it in CMAKE}
    return {**found, "lib/pkgconfig/rokdaum.pc": (there.encode(), False)}


def origin(binary: bytes, changed: bool) -> bytes:
    """What a release was made of: the text of its file ORIGIN."""
    logic, wanted = LOGIC.search(binary), max((tuple(map(int, it)) for it in GLIBC.findall(binary)), default=(0, 0))
    assert logic is not None
    lines = (
        f"version  {version()}",
        f"commit   {git('rev-parse', 'HEAD').strip()}{', with changes that were not committed' if changed else ''}",
        f"of       {time.strftime('%Y-%m-%d %H:%M:%S UTC', time.gmtime(seconds()))}",
        *(f"sources  {program.checksum(name)} of {name}" for name in (*PROGRAMS.values(), *ARCHIVES)),
        f"logic    {logic[1].decode()}",
        f"glibc    {wanted[0]}.{wanted[1]} or newer",
        f"levels   x86-64-v2{f', and the library for {LEVEL} too' if program.is_built(f'{ARCHIVES[0]}@{LEVEL}') else ''}",
    )
    return "".join(f"{line}\n" for line in lines).encode()


def readme(text: str) -> bytes:
    """The README of a release: a page of docs whose links start from the folder above."""
    return LINK.sub(lambda link: "](" if link[1] else "](docs/", text).encode()


def contents(with_changes: bool) -> dict[str, Entry]:
    """The files of a release: the bytes of each, and whether it can be executed."""
    changed = bool(git("status", "--porcelain", "--untracked-files=no"))
    if changed and not with_changes:
        raise NoRelease("files were changed and not committed: commit them, or take them as they stand with --changed")
    found: dict[str, Entry] = {}
    for there, name in PROGRAMS.items():
        found[there] = (look_at_program(name), True)
    found |= library()
    binaries = b"".join(text for text, _ in found.values())
    for path, executable in tracked().items():
        if not (TOP / path).is_file():
            continue
        if path == README:
            found["README.md"] = (readme((TOP / path).read_text(encoding="utf-8")), False)
        if path in (*FILES, HEADER) or path.startswith(FOLDERS) and not path.startswith(LEFT_OUT):
            found[path] = ((TOP / path).read_bytes(), executable)
    missing = [it for it in (*FILES, HEADER, "README.md") if it not in found]
    if missing:
        raise NoRelease(f"git knows no {', '.join(missing)}")
    found["ORIGIN"] = (origin(binaries, changed), False)
    sums = "".join(f"{hashlib.sha256(found[path][0]).hexdigest()}  {path}\n" for path in sorted(found))
    found["SHA256SUMS"] = (sums.encode(), False)
    return found


def folders_of(paths: list[str]) -> list[str]:
    """The folders that the files stand in, each after the one that it stands in."""
    return sorted({str(above) for path in paths for above in Path(path).parents if str(above) != "."})


def stage(folder: Path, found: dict[str, Entry]) -> None:
    """Puts the files into a folder, in place of what an earlier call put there."""
    if folder.exists() and not (folder / "SHA256SUMS").is_file():
        raise NoRelease(f"{folder} is there and is no folder of a release")
    shutil.rmtree(folder, ignore_errors=True)
    for path, (text, executable) in found.items():
        (folder / path).parent.mkdir(parents=True, exist_ok=True)
        (folder / path).write_bytes(text)
        (folder / path).chmod(0o755 if executable else 0o644)


def archive(found: dict[str, Entry]) -> bytes:
    """The archive, the same for the same files."""
    when, packed, top = seconds(), io.BytesIO(), name()

    def member(path: str, kind: bytes, mode: int, size: int) -> tarfile.TarInfo:
        made = tarfile.TarInfo(f"{top}/{path}" if path else top)
        made.type, made.mode, made.size, made.mtime = kind, mode, size, when
        return made

    with gzip.GzipFile(filename="", mode="wb", compresslevel=9, fileobj=packed, mtime=when) as pressed:
        with tarfile.open(mode="w", fileobj=cast(IO[bytes], pressed), format=tarfile.USTAR_FORMAT) as tar:
            for path in sorted(["", *folders_of(list(found)), *found]):
                if path in found:
                    text, executable = found[path]
                    tar.addfile(member(path, tarfile.REGTYPE, 0o755 if executable else 0o644, len(text)), io.BytesIO(text))
                else:
                    tar.addfile(member(path, tarfile.DIRTYPE, 0o755, 0))
    return packed.getvalue()


def write(folder: Path, found: dict[str, Entry]) -> Path:
    """Writes the archive and its checksum, each whole or not at all."""
    folder.mkdir(parents=True, exist_ok=True)
    packed, path = archive(found), folder / f"{name()}.tar.gz"
    for to, text in ((path, packed), (Path(f"{path}.sha256"), f"{hashlib.sha256(packed).hexdigest()}  {path.name}\n".encode())):
        part = to.with_name(f"{to.name}.{os.getpid()}")
        part.write_bytes(text)
        os.replace(part, to)
    return path


def main() -> int:
    asked = argparse.ArgumentParser(prog="tools/release.py", description=__doc__.split("\n")[0])
    where = asked.add_mutually_exclusive_group()
    where.add_argument("--to", metavar="FOLDER", type=Path, default=TOP / "out", help="where the archive goes: out/ if nothing is said")
    where.add_argument("--stage", metavar="FOLDER", type=Path, help="make this folder with what the archive holds, and no archive")
    asked.add_argument("--changed", action="store_true", help="take changes that aren't committed")
    words = asked.parse_args()
    try:
        found = contents(words.changed)
        if words.stage:
            stage(words.stage, found)
        else:
            print(write(words.to, found))
    except NoRelease as refusal:
        print(f"release: {refusal}", file=sys.stderr)
        return refusal.status
    return 0


if __name__ == "__main__":
    sys.exit(main())
