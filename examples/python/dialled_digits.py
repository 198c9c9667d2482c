#!/usr/bin/python3
# SPDX-License-Identifier: Apache-2.0
"""The digits that were dialled in files of 8,000 samples a second, one line for each file.

    dialled_digits.py [--picture PICTURE] [IN ..]   up to sixteen; without files it dials 0 to 9 itself, behind a dial tone

The picture shows the first file: its spectrogram, with the keypad's tones at the right and the digits that the detector heard above them.
It ends in .svg, .png or .pdf.
"""

from __future__ import annotations

import argparse
import sys
from pathlib import Path

sys.path.insert(0, str(Path(__file__).resolve().parents[2] / "python"))

import numpy as np  # noqa: E402  (the package's folder has to be on the path first)
import rokdaum  # noqa: E402

RATE, TONES = 8000, ((697, 770, 852, 941), (1209, 1336, 1477, 1633))


def sines(frequencies: tuple[float, ...], seconds: float, peak: float = 0.2) -> np.ndarray:
    """Tones together, each of a peak of full scale 1."""
    turns = 2 * np.pi * np.arange(round(seconds * RATE)) / RATE
    return sum((peak * np.sin(it * turns) for it in frequencies), np.zeros(len(turns)))


def dialled(keys: str) -> np.ndarray:
    """A second of a dial tone, and then keys of 70 ms."""
    parts = [sines((350, 440), 1.0)]
    for key in keys:
        low, high = divmod(rokdaum.design.KEYS.index(key), 4)
        parts += [sines((), 0.07), sines((TONES[0][low], TONES[1][high]), 0.07)]
    return rokdaum.samples.from_floats(np.concatenate([*parts, sines((), 0.1)]))


def draw(path: str, receiver: rokdaum.design.Digits, samples: np.ndarray, codes: np.ndarray, own: bool) -> None:
    """Draws the spectrogram, lines at the keypad's tones, and above them each digit where it is heard in frames one after the other."""
    axes = rokdaum.plot.spectrogram(samples, RATE)
    for row in TONES:
        for tone in row:
            axes.axhline(tone, color="white", linewidth=0.4, alpha=0.5)
    frame = len(samples) / max(len(codes), 1) / RATE
    begins = np.flatnonzero(np.diff(codes, prepend=-1))
    for begin, end in zip(begins, [*begins[1:], len(codes)]):
        if codes[begin] >= 0:
            axes.text((begin + end) / 2 * frame, 1800, rokdaum.design.KEYS[codes[begin]], ha="center", color="white", fontsize=14, fontweight="bold")
    if own:
        axes.text(0.5, 560, "dial tone, 350 and 440 Hz", ha="center", color="white")
    axes.set(ylim=(200, 2000), yticks=[*TONES[0], *TONES[1]], title=f"dialled: {receiver.dialled(codes)}")
    rokdaum.plot.save(axes, path)


def main(words: list[str]) -> int:
    """Hears each file in an instance of its own."""
    asked = argparse.ArgumentParser(description=__doc__, formatter_class=argparse.RawDescriptionHelpFormatter)
    asked.add_argument("--picture")
    asked.add_argument("files", nargs="*")
    given = asked.parse_args(words)
    receiver = rokdaum.design.dtmf()
    try:
        heard = [rokdaum.samples.read(it)[0] for it in given.files] or [dialled("0123456789")]
        with rokdaum.Host() as host:
            found = [host.chain(host.create("dtmf", params=receiver)).feed(samples) for samples in heard]
        if given.picture:
            draw(given.picture, receiver, heard[0], found[0], not given.files)
    except (rokdaum.RokdaumError, OSError) as why:
        print(f"dialled_digits.py: {why}", file=sys.stderr)
        return 1
    print(*map(receiver.dialled, found), sep="\n")
    return 0


if __name__ == "__main__":
    sys.exit(main(sys.argv[1:]))
