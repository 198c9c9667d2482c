#!/usr/bin/python3
# SPDX-License-Identifier: Apache-2.0
"""The telephone band, 300 to 3,400 Hz, of a WAV file of 8,000 samples a second, and the gain that was heard beside the designed one.

    telephone_band.py [IN.wav OUT.wav] [PICTURE]    without files the input is noise, and none is written; the picture shows both gains,
                                                    in a file that ends in .svg, .png or .pdf
"""

from __future__ import annotations

import sys
from pathlib import Path

sys.path.insert(0, str(Path(__file__).resolve().parents[2] / "python"))

import numpy as np  # noqa: E402  (the package's folder has to be on the path first)
import rokdaum  # noqa: E402

SEGMENT = 512
FREQUENCIES = (125, 500, 1000, 2000, 3000, 3750)


def power(samples: np.ndarray) -> np.ndarray:
    """The mean power spectrum over segments, of shape (SEGMENT / 2 + 1,)."""
    segments = samples[: len(samples) // SEGMENT * SEGMENT].reshape(-1, SEGMENT) * np.hanning(SEGMENT)
    return (np.abs(np.fft.rfft(segments)) ** 2).mean(axis=0)


def draw(path: str, rate: float, heard: np.ndarray, band: rokdaum.design.Biquads) -> None:
    """Draws the gain that was measured over the response of the words and the designed one, and below it by how much both are off."""
    axes = rokdaum.plot.design(band)
    frequencies = np.arange(len(heard))[4::4] * rate / SEGMENT
    axes.plot(frequencies, heard[4::4], label="measured", marker="o", markersize=3, linestyle="none", color="C2")
    axes.set(title="the telephone band, 300 to 3,400 Hz", ylim=(-60, 5))
    axes.legend()
    lower = axes.figure.axes[1]
    off = heard[4::4] - rokdaum.design.decibels(band.designed_response(frequencies))
    lower.plot(frequencies, off, marker="o", markersize=3, linestyle="none", color="C2")
    lower.set(ylabel="over designed, dB", ylim=(-1, 1))
    rokdaum.plot.save(axes, path)


def main(words: list[str]) -> int:
    """Filters, prints the gains, and draws them."""
    if len(words) > 3:
        print(__doc__, file=sys.stderr)
        return 2
    files, pictures = (words[:2], words[2:]) if len(words) > 1 else ([], words)
    try:
        given, rate = rokdaum.samples.read(files[0]) if files else (np.random.default_rng(1).integers(-8000, 8001, 80_000).astype(np.int16), 8000)
        band = rokdaum.design.band(300, 3400, rate=rate or 8000)
        with rokdaum.Host() as host:
            out = host.chain(*host.create_all(band)).feed(given)
        if files:
            rokdaum.samples.write(files[1], out, rate or 8000)
        if len(given) < SEGMENT:
            return 0
        heard = 10 * np.log10(np.maximum(power(out), 1) / np.maximum(power(given), 1))
        for picture in pictures:
            draw(picture, rate or 8000, heard, band)
    except (rokdaum.RokdaumError, OSError) as why:
        print(f"telephone_band.py: {why}", file=sys.stderr)
        return 1
    bins = np.round(np.array(FREQUENCIES) * SEGMENT / (rate or 8000)).astype(int)
    print("     Hz  heard dB  designed dB")
    for frequency, one, wanted in zip(FREQUENCIES, heard[bins], rokdaum.design.decibels(band.designed_response(FREQUENCIES))):
        print(f"{frequency:7} {one:9.1f} {wanted:12.1f}")
    return 0


if __name__ == "__main__":
    sys.exit(main(sys.argv[1:]))
