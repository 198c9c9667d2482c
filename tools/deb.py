#!/usr/bin/env python3
# SPDX-License-Identifier: Apache-2.0
"""Makes the Debian packages of a release: the release is their upstream archive, and nothing that was proved is built anew.

    tools/deb.py                   makes them in out/deb, by dpkg-buildpackage
    tools/deb.py --to FOLDER       makes them in that folder, which is made anew
    tools/deb.py --source FOLDER   makes their source there and builds nothing: for a machine of its own, as tests/deb does
    tools/deb.py --changed ..      takes files that were changed and not committed, too

Debian: apt-get install build-essential debhelper dh-python python3-all libgstreamer1.0-dev pkg-config. The folder debian has what each package is.
"""

from __future__ import annotations

import argparse
import io
import os
import shutil
import subprocess
import sys
import tarfile
import tempfile
from pathlib import Path

sys.path.insert(0, str(Path(__file__).resolve().parent))
sys.dont_write_bytecode = True

import release  # noqa: E402  (the folder of this file has to be on the path first)

# What dpkg-buildpackage leaves beside the source, by the ends of its names.
MADE = (".deb", ".dsc", ".changes", ".buildinfo", ".debian.tar.xz", ".orig.tar.gz")


def source(folder: Path, found: dict[str, release.Entry]) -> Path:
    """Makes the source of the packages in a folder: the release as the upstream archive, and beside it the release unpacked, with debian."""
    archive = release.archive(found)
    folder.mkdir(parents=True, exist_ok=True)
    (folder / f"rokdaum_{release.version()}.orig.tar.gz").write_bytes(archive)
    with tarfile.open(fileobj=io.BytesIO(archive)) as tar:
        tar.extractall(folder)
    top = folder / f"rokdaum-{release.version()}"
    (folder / release.name()).rename(top)
    for path, executable in release.tracked().items():
        if path.startswith("debian/"):
            (top / path).parent.mkdir(parents=True, exist_ok=True)
            (top / path).write_bytes((release.TOP / path).read_bytes())
            (top / path).chmod(0o755 if executable else 0o644)
    return top


def build(top: Path) -> list[Path]:
    """Builds the packages of a source; what was made beside it."""
    environment = {**os.environ, "SOURCE_DATE_EPOCH": str(release.seconds())}
    try:
        ran = subprocess.run(("dpkg-buildpackage", "-us", "-uc"), cwd=top, env=environment, umask=0o022, stdin=subprocess.DEVNULL, stdout=subprocess.PIPE, stderr=subprocess.STDOUT, text=True, errors="replace", check=False)
    except OSError as why:
        raise release.NoRelease(f"dpkg-buildpackage, of Debian's dpkg-dev, can't be run: {why}") from why
    if ran.returncode:
        raise release.NoRelease(f"dpkg-buildpackage ended with status {ran.returncode}:\n{ran.stdout[-3000:]}")
    return sorted(path for path in top.parent.iterdir() if path.name.endswith(MADE))


def make(to: Path, found: dict[str, release.Entry]) -> list[Path]:
    """Makes the packages in a folder, in place of what an earlier call made there; what is there then."""
    if to.exists() and not list(to.glob("rokdaum_*.dsc")):
        raise release.NoRelease(f"{to} is there and has no packages of an earlier call")
    with tempfile.TemporaryDirectory(prefix="rokdaum-deb-") as room:
        made = build(source(Path(room), found))
        shutil.rmtree(to, ignore_errors=True)
        to.mkdir(parents=True)
        return [Path(shutil.copy2(path, to)) for path in made]


def main() -> int:
    """Makes the packages, or their source; the exit status."""
    asked = argparse.ArgumentParser(prog="tools/deb.py", description=(__doc__ or "").split("\n")[0])
    where = asked.add_mutually_exclusive_group()
    where.add_argument("--to", metavar="FOLDER", type=Path, default=release.TOP / "out" / "deb", help="where the packages go (default: out/deb)")
    where.add_argument("--source", metavar="FOLDER", type=Path, help="make the source in this folder, and no packages")
    asked.add_argument("--changed", action="store_true", help="take changes that aren't committed")
    words = asked.parse_args()
    try:
        found = release.contents(words.changed)
        print("\n".join(map(str, [source(words.source, found)] if words.source else make(words.to, found))))
    except release.NoRelease as refusal:
        print(f"deb: {refusal}", file=sys.stderr)
        return refusal.status
    return 0


if __name__ == "__main__":
    sys.exit(main())
