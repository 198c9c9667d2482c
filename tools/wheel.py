#!/usr/bin/env python3
# SPDX-License-Identifier: Apache-2.0
"""Makes a wheel: the Python package with the C library in it, which pip installs without a compiler and without the kit.

    tools/wheel.py                 makes out/rokdaum-VERSION-py3-none-manylinux_2_N_x86_64.whl, and beside it its checksum
    tools/wheel.py --to FOLDER     makes them in that folder
    tools/wheel.py --changed ..    takes files that were changed and not committed, too

Its tag has the oldest C library that has all symbols that the library asks for. The files are those of a release (tools/release.py) below
python/, which setuptools packs; the same commit and the same library give the same wheel. Debian's Python makes it, with python3-setuptools
and python3-wheel.
"""

from __future__ import annotations

import argparse
import hashlib
import os
import re
import subprocess
import sys
import tempfile
from pathlib import Path

sys.path.insert(0, str(Path(__file__).resolve().parent))
sys.dont_write_bytecode = True

import release  # noqa: E402  (the folder of this file has to be on the path first)

PYTHON = "/usr/bin/python3"
LIBRARY = "python/rokdaum/librokdaum.so"
TEXTS = ("LICENSE", "NOTICE")
NEEDED = re.compile(r"^\s+NEEDED\s+(\S+)$", re.M)
# The C library and its loader, of which a thread-local variable is asked for: both are of the version that the tag names.
PROMISED = {"libc.so.6", "ld-linux-x86-64.so.2"}
# The oldest C library that such a tag can name.
OLDEST = (2, 5)
# A wheel for one platform and any Python: the library is loaded by ctypes, so no ABI of Python's is in it.
SETUP = """from setuptools import setup
from setuptools.dist import Distribution
from wheel.bdist_wheel import bdist_wheel


class OfPlatform(Distribution):
    def has_ext_modules(self):
        return True


class Wheel(bdist_wheel):
    def get_tag(self):
        return "py3", "none", "{platform}"


setup(distclass=OfPlatform, cmdclass={{"bdist_wheel": Wheel}})
"""
BUILD = "import sys, setuptools.build_meta as made; print(made.build_wheel(sys.argv[1]))"


def platform_of(library: bytes) -> str:
    """The platform that a shared library runs on, as a wheel's tag names it. Refuses one that needs more than the C library."""
    with tempfile.NamedTemporaryFile(suffix=".so") as file:
        file.write(library)
        file.flush()
        try:
            shown = subprocess.run(("objdump", "-p", file.name), capture_output=True, text=True, check=True).stdout
        except (OSError, subprocess.CalledProcessError) as why:
            raise release.NoRelease(f"objdump, of Debian's binutils, can't read the library: {why}") from why
    more = sorted(set(NEEDED.findall(shown)) - PROMISED)
    if more:
        raise release.NoRelease(f"the library needs {', '.join(more)} beside the C library, and no such tag promises that")
    major, minor = max([OLDEST, *(tuple(map(int, it)) for it in release.GLIBC.findall(library))])
    return f"manylinux_{major}_{minor}_x86_64"


def sources(found: dict[str, release.Entry]) -> dict[str, release.Entry]:
    """The files that the wheel is made of, by their paths in the folder of the package: those of a release below python/, and the licence."""
    taken = {path.removeprefix("python/"): entry for path, entry in found.items() if path.startswith("python/") and not path.startswith(("python/bin/", f"python/rokdaum/{release.HWCAPS}/"))}
    platform = platform_of(found[LIBRARY][0])
    return {**taken, **{name: found[name] for name in TEXTS}, "setup.py": (SETUP.format(platform=platform).encode(), False)}


def pack(files: dict[str, release.Entry]) -> tuple[str, bytes]:
    """The wheel that setuptools makes of files in a folder of their own: its name and its bytes."""
    with tempfile.TemporaryDirectory(prefix="rokdaum-wheel-") as name:
        room, made = Path(name) / "package", Path(name) / "made"
        made.mkdir()
        for path, (text, executable) in files.items():
            (room / path).parent.mkdir(parents=True, exist_ok=True)
            (room / path).write_bytes(text)
            (room / path).chmod(0o755 if executable else 0o644)
        environment = {"PATH": os.environ.get("PATH", ""), "SOURCE_DATE_EPOCH": str(release.seconds()), "LC_ALL": "C", "TZ": "UTC", "HOME": name}
        ran = subprocess.run((PYTHON, "-I", "-c", BUILD, str(made)), cwd=room, env=environment, umask=0o022, stdin=subprocess.DEVNULL, capture_output=True, text=True, check=False)
        if ran.returncode:
            raise release.NoRelease(f"setuptools makes no wheel (Debian: apt-get install python3-setuptools python3-wheel): {ran.stderr.strip()[-500:]}")
        wheel, = made.iterdir()
        return wheel.name, wheel.read_bytes()


def write(folder: Path, name: str, text: bytes) -> Path:
    """Writes the wheel and its checksum, each whole or not at all."""
    folder.mkdir(parents=True, exist_ok=True)
    for to, content in ((folder / name, text), (folder / f"{name}.sha256", f"{hashlib.sha256(text).hexdigest()}  {name}\n".encode())):
        part = to.with_name(f"{to.name}.{os.getpid()}")
        part.write_bytes(content)
        os.replace(part, to)
    return folder / name


def main() -> int:
    """Makes the wheel; the exit status."""
    asked = argparse.ArgumentParser(prog="tools/wheel.py", description=(__doc__ or "").split("\n")[0])
    asked.add_argument("--to", metavar="FOLDER", type=Path, default=release.TOP / "out", help="where the wheel goes (default: out)")
    asked.add_argument("--changed", action="store_true", help="take changes that aren't committed")
    words = asked.parse_args()
    try:
        print(write(words.to, *pack(sources(release.contents(words.changed)))))
    except release.NoRelease as refusal:
        print(f"wheel: {refusal}", file=sys.stderr)
        return refusal.status
    return 0


if __name__ == "__main__":
    sys.exit(main())
