#!/usr/bin/python3
# SPDX-License-Identifier: Apache-2.0
"""A live line over two named pipes: blocks of 20 ms go in at one, and come out filtered at the other.

    live_line.py serve IN OUT                   serves a line of the telephone band, until IN is closed
    live_line.py measure [SECONDS [PICTURE]]    serves one, writes it a block every 20 ms, prints how long each took to come back,
                                                and draws it, in a file that ends in .svg, .png or .pdf
"""

from __future__ import annotations

import os
import subprocess
import sys
import tempfile
import time
from pathlib import Path

sys.path.insert(0, str(Path(__file__).resolve().parents[2] / "python"))

import numpy as np  # noqa: E402  (the package's folder has to be on the path first)
import rokdaum  # noqa: E402

RATE, BLOCK = 8000, 160
PERIOD = BLOCK / RATE


def serve(source: str, target: str) -> int:
    """Reads blocks from one pipe and writes what the line gives to the other. What is left of a block at the end is fed too.

    The line is there before the pipes are opened, so that whoever opens them need not wait for it.
    """
    with rokdaum.Host() as host:
        line = host.chain(*host.create_all(rokdaum.design.band(300, 3400)))
        with open(source, "rb") as given, open(target, "wb", buffering=0) as taken:
            while octets := given.read(2 * BLOCK):
                taken.write(line.feed(np.frombuffer(octets[: len(octets) // 2 * 2], "<i2")).astype("<i2").tobytes())
    return 0


def exchange(blocks: np.ndarray, source: Path, target: Path) -> tuple[np.ndarray, np.ndarray]:
    """Writes a block every 20 ms and reads it back: what came back, of the same shape, and the milliseconds of each block."""
    heard, took = [], []
    with open(source, "wb", buffering=0) as given, open(target, "rb") as taken:
        begin = time.monotonic()
        for number, block in enumerate(blocks):
            time.sleep(max(0.0, begin + number * PERIOD - time.monotonic()))
            sent = time.monotonic()
            given.write(block.astype("<i2").tobytes())
            heard.append(np.frombuffer(taken.read(2 * BLOCK), "<i2"))
            took.append(1000 * (time.monotonic() - sent))
    return np.array(heard), np.array(took)


def draw(path: str, took: np.ndarray) -> None:
    """Draws how many blocks took how long, beside the time that a block lasts."""
    axes = rokdaum.plot.latency(took, 1000 * PERIOD)
    axes.set(title=f"from a block's writing to its last sample's reading: {len(took):,} blocks")
    rokdaum.plot.save(axes, path)


def measure(seconds: float, pictures: list[str]) -> int:
    """Serves a line in a process of its own; the status is 0 where it gave what a feed of all samples at once gives."""
    blocks = np.random.default_rng(1).integers(-8000, 8001, (max(1, round(seconds / PERIOD)), BLOCK)).astype(np.int16)
    with tempfile.TemporaryDirectory(prefix="live-line-") as room:
        source, target = Path(room, "in"), Path(room, "out")
        for pipe in (source, target):
            os.mkfifo(pipe)
        with subprocess.Popen((sys.executable, "-B", __file__, "serve", source, target)):
            heard, took = exchange(blocks, source, target)
    with rokdaum.Host() as host:
        at_once = host.chain(*host.create_all(rokdaum.design.band(300, 3400))).feed(blocks.ravel())
    same = np.array_equal(heard.ravel(), at_once)
    print(f"{len(took)} blocks of 20 ms came back after {np.median(took):.2f} ms (median), {np.percentile(took, 99):.2f} (99 of 100), {took.max():.2f} (longest)")
    print("the samples are those of one feed" if same else "the samples differ from those of one feed")
    for picture in pictures:
        draw(picture, took)
    return 0 if same else 1


def main(words: list[str]) -> int:
    """Serves or measures."""
    try:
        if len(words) == 3 and words[0] == "serve":
            return serve(*words[1:])
        if 1 <= len(words) <= 3 and words[0] == "measure":
            return measure(float(words[1]) if len(words) > 1 else 10.0, words[2:])
    except (rokdaum.RokdaumError, OSError, ValueError) as why:
        print(f"live_line.py: {why}", file=sys.stderr)
        return 1
    print(__doc__, file=sys.stderr)
    return 2


if __name__ == "__main__":
    sys.exit(main(sys.argv[1:]))
