#!/usr/bin/python3
# SPDX-License-Identifier: Apache-2.0
"""Processor time of `Line.feed`: ten minutes of audio through three biquads, and blocks of 20 ms through a FIR filter. The least of five rounds."""

from __future__ import annotations

import sys
import time
from collections.abc import Callable
from pathlib import Path

sys.path.insert(0, str(Path(__file__).resolve().parents[2] / "python"))

import numpy as np  # noqa: E402  (the package's folder has to be on the path first)
import rokdaum  # noqa: E402

ROUNDS, BLOCKS = 5, 2_000
TEN_MINUTES, BLOCK = 600 * 8000, 160


def least(work: Callable[[], object]) -> float:
    """The least processor time of five rounds, in seconds."""
    found = []
    for _ in range(ROUNDS):
        began = time.process_time()
        work()
        found.append(time.process_time() - began)
    return min(found)


def main() -> int:
    """Prints both."""
    samples = np.random.default_rng(1).integers(-8000, 8001, TEN_MINUTES).astype(np.int16)
    with rokdaum.Host() as host:
        band = host.chain(*host.create_all(rokdaum.design.band(300, 3400)))
        fir = host.chain(host.create("fir", 3, [16384]))
        print(f"ten minutes through three biquads: {least(lambda: band.feed(samples)):.2f} s")
        block = samples[:BLOCK]
        print(f"a block of {BLOCK} samples through a FIR filter of one coefficient: {least(lambda: [fir.feed(block) for _ in range(BLOCKS)]) / BLOCKS * 1e6:.0f} microseconds")
    return 0


if __name__ == "__main__":
    sys.exit(main())
