#!/usr/bin/python3
# SPDX-License-Identifier: Apache-2.0
"""The noise of a companded line: a tone is sent as G.711 codes of 8 bits and heard again, at levels from full scale down to 60 dB below.

    companding.py [PICTURE]     draws the ratio of tone to noise over the level, in a file that ends in .svg, .png or .pdf

Beside both laws stand 8 bits that are evenly spaced. A law's ratio hardly changes over 30 dB, which is what companding is for.
"""

from __future__ import annotations

import sys
from collections.abc import Callable
from pathlib import Path

sys.path.insert(0, str(Path(__file__).resolve().parents[2] / "python"))

import numpy as np  # noqa: E402  (the package's folder has to be on the path first)
import rokdaum  # noqa: E402

# A tone of a second, whose turns end with it, at a frequency that doesn't divide the rate.
RATE, FREQUENCY = 8000, 1020
LEVELS = np.arange(0, -61, -1)
SHOWN = (0, -10, -20, -30, -40, -50, -60)
ENCODE, DECODE = 0, 1


def tone(level: float) -> np.ndarray:
    """A second of a tone of a level in dB, of which 0 is full scale."""
    return rokdaum.samples.from_floats(10 ** (level / 20) * np.sin(2 * np.pi * FREQUENCY / RATE * np.arange(RATE)))


def evenly(samples: np.ndarray) -> np.ndarray:
    """The samples as 8 bits that are evenly spaced: the nearest multiple of 256."""
    return np.clip((samples.astype(int) + 128) // 256 * 256, -32768, 32512)


def ratio(sent: np.ndarray, heard: np.ndarray) -> float:
    """The power of the tone over that of what was added to it, in dB."""
    noise = heard.astype(float) - sent
    return float(10 * np.log10((sent.astype(float) ** 2).sum() / max((noise**2).sum(), 1e-9)))


def ratios() -> dict[str, np.ndarray]:
    """The ratio at each level, by the name of what the samples go through."""
    with rokdaum.Host() as host:
        through: dict[str, Callable[[np.ndarray], np.ndarray]] = {}
        for law, number in (("mu-law", rokdaum.library.LAWS["mu"]), ("A-law", rokdaum.library.LAWS["a"])):
            through[law] = host.chain(*(host.create("g711", params=[number, way]) for way in (ENCODE, DECODE))).feed
        through["8 even bits"] = evenly
        return {name: np.array([ratio(tone(level), go(tone(level))) for level in LEVELS]) for name, go in through.items()}


def draw(path: str, found: dict[str, np.ndarray]) -> None:
    """Draws the ratios over the level."""
    axes = rokdaum.plot.new_axes()
    for name, values in found.items():
        axes.plot(LEVELS, values, label=name, linestyle="--" if name not in ("mu-law", "A-law") else "-")
    axes.set(xlabel="level of the tone, dB: 0 is full scale", ylabel="tone over noise, dB", title=f"a tone of {FREQUENCY} Hz over a companded line", ylim=(0, 55))
    axes.grid(alpha=0.3)
    axes.legend()
    rokdaum.plot.save(axes, path)


def main(files: list[str]) -> int:
    """Prints the ratios, and draws them."""
    try:
        found = ratios()
        if files:
            draw(files[0], found)
    except rokdaum.RokdaumError as why:
        print(f"companding.py: {why}", file=sys.stderr)
        return 1
    print("level dB" + "".join(f"{name:>13}" for name in found))
    for level in SHOWN:
        print(f"{level:8}" + "".join(f"{values[-level]:13.1f}" for values in found.values()))
    return 0


if __name__ == "__main__":
    sys.exit(main(sys.argv[1:]))
