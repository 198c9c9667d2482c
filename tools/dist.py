#!/usr/bin/env python3
# SPDX-License-Identifier: Apache-2.0
"""Makes every artefact of a release: the archive, the wheel, the Debian packages, and a bill of materials, with the checksums of all.

    tools/dist.py                  makes them in out/dist, which is made anew
    tools/dist.py --to FOLDER      makes them in that folder, which is made anew
    tools/dist.py --changed ..     takes files that were changed and not committed, too

    rokdaum-VERSION-x86_64-linux.tar.gz     the release (tools/release.py)
    rokdaum-VERSION-py3-none-..whl          the Python package with the library in it (tools/wheel.py)
    *.deb                                   the Debian packages (tools/deb.py)
    rokdaum-VERSION.spdx.json               what they are made of (tools/bom.py)
    SHA256SUMS                              the checksums of all of these

The same commit and the same programs give the same bytes, in any folder, and on any machine with the same Debian.
"""

from __future__ import annotations

import argparse
import hashlib
import shutil
import sys
import tempfile
from pathlib import Path

sys.path.insert(0, str(Path(__file__).resolve().parent))
sys.dont_write_bytecode = True

import bom  # noqa: E402  (the folder of this file has to be on the path first)
import deb  # noqa: E402
import release  # noqa: E402
import wheel  # noqa: E402

SUMS = "SHA256SUMS"


def artefacts(room: Path, found: dict[str, release.Entry]) -> list[Path]:
    """All artefacts, made in a folder, the archive first and the bill of materials last."""
    archive = release.write(room / "archive", found)
    others = [wheel.write(room / "wheel", *wheel.pack(wheel.sources(found)))]
    others += [path for path in deb.make(room / "deb", found) if path.suffix == ".deb"]
    bill = room / f"rokdaum-{release.version()}.spdx.json"
    bill.write_bytes(bom.bill(found, archive, others))
    return [archive, *others, bill]


def make(to: Path, found: dict[str, release.Entry]) -> list[Path]:
    """Makes the artefacts in a folder, in place of what an earlier call made there; what is there then."""
    if to.exists() and not ((to / SUMS).is_file() and list(to.glob("rokdaum-*.spdx.json"))):
        raise release.NoRelease(f"{to} is there and has no artefacts of an earlier call")
    with tempfile.TemporaryDirectory(prefix="rokdaum-dist-") as room:
        made = artefacts(Path(room), found)
        shutil.rmtree(to, ignore_errors=True)
        to.mkdir(parents=True)
        kept = sorted(Path(shutil.copy2(path, to)) for path in made)
    sums = "".join(f"{hashlib.sha256(path.read_bytes()).hexdigest()}  {path.name}\n" for path in kept)
    (to / SUMS).write_text(sums, encoding="utf-8")
    return [*kept, to / SUMS]


def main() -> int:
    """Makes the artefacts; the exit status."""
    asked = argparse.ArgumentParser(prog="tools/dist.py", description=(__doc__ or "").split("\n")[0])
    asked.add_argument("--to", metavar="FOLDER", type=Path, default=release.TOP / "out" / "dist", help="where they go (default: out/dist)")
    asked.add_argument("--changed", action="store_true", help="take changes that aren't committed")
    words = asked.parse_args()
    try:
        print("\n".join(map(str, make(words.to, release.contents(words.changed)))))
    except release.NoRelease as refusal:
        print(f"dist: {refusal}", file=sys.stderr)
        return refusal.status
    return 0


if __name__ == "__main__":
    sys.exit(main())
