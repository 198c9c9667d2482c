# SPDX-License-Identifier: Apache-2.0
"""Arrays of 16-bit samples: from files, to files, and from floats.

A sample is a whole number from -32768 to 32767, and stands for that many 32768ths of full scale. Files have words of 16 bits, the low byte first,
without a header, or another form that their name says (`sounds`).
"""

from __future__ import annotations

import os
import tempfile
from pathlib import Path

import numpy as np

from .errors import FloatsRefused, OutOfRange
from .sounds import Named, from_raw, has_form, to_raw

FULL_SCALE = 32768


def as_words(values: object, octets: bool = False) -> np.ndarray:
    """Whole numbers as an array of shape (samples,) of little-endian int16, or of uint8 where `octets` is set.

    Raises FloatsRefused for floats, and OutOfRange for another shape or for a number that doesn't fit: nothing is rounded, cut or wrapped.
    """
    given = np.asarray(values)
    if given.dtype.kind == "f" and given.size:
        raise FloatsRefused(
            "samples are whole numbers from -32768 to 32767, and these are floats: "
            "rokdaum.samples.from_floats(x) makes them of floats from -1 to 1, np.round(x).astype(np.int16) of floats that are scaled already"
        )
    if given.dtype.kind not in "iuf":
        raise FloatsRefused(f"samples are whole numbers, and these are {given.dtype}")
    if given.ndim != 1:
        raise OutOfRange(f"samples have shape (samples,), and these have {given.shape}: a line takes an array of its own, x[:, 0] for the first of a stereo file, and host.feed(x) a column for each line")
    least, most = (0, 255) if octets else (-32768, 32767)
    if given.size and not (least <= int(given.min()) and int(given.max()) <= most):
        raise OutOfRange(f"{'a byte' if octets else 'a sample'} is {least} to {most}, and these are {int(given.min())} to {int(given.max())}")
    return given.astype(np.uint8 if octets else "<i2")


def from_floats(values: object) -> np.ndarray:
    """Floats from -1 to 1 as int16, rounded: 1 becomes 32767, -1 becomes -32768. Shape (samples,).

    Raises OutOfRange for what lies past full scale or is no number, rather than to clip it: divide by `np.abs(x).max()` first.
    """
    given = np.asarray(values, dtype=float)
    peak = float(np.abs(given).max()) if given.size else 0.0
    if not peak <= 1:
        raise OutOfRange(f"full scale is -1 to 1, and these go to {peak:g}: divide by {peak:g} first" if np.isfinite(peak) else "an infinite value or no number is among these")
    return as_words(np.minimum(np.round(given * FULL_SCALE), FULL_SCALE - 1).astype(np.int32)).astype(np.int16)


def to_floats(words: object) -> np.ndarray:
    """Words of 16 bits as floats from -1 to just below 1."""
    return as_words(words).astype(float) / FULL_SCALE


def read(path: str | os.PathLike[str]) -> tuple[np.ndarray, int | None]:
    """The samples of a file as int16 of shape (samples,), and its samples a second in Hz, None where it has no header.

    The name says the form, as for `dsp_run`: WAV, FLAC, AU or AIFF, `.ul` and `.al` codes of G.711, which are decoded, and words without a header for
    all others; `call.wav:1` is the second channel. Raises WrongWave where the file can't be read so, MissingPackage where libsndfile is needed and
    isn't there, and OSError where the file can't be read.
    """
    named = Named.of(Path(path))
    if not has_form(named.path):
        octets = named.path.read_bytes()
        return np.frombuffer(octets[: len(octets) // 2 * 2], "<i2").astype(np.int16), None
    with tempfile.TemporaryDirectory(prefix="rokdaum-") as folder:
        raw = Path(folder, "raw")
        held = to_raw(named, raw)
        return np.fromfile(raw, "<i2").astype(np.int16), held.rate


def write(path: str | os.PathLike[str], values: object, rate: float = 8000) -> None:
    """Writes samples, shape (samples,), to a file, in the form that its name says, of `rate` samples a second where that has a header.

    The file is replaced whole. Raises FloatsRefused and OutOfRange as `as_words` does, and then leaves the file as it was.
    """
    target, words = Path(path), as_words(values)
    with tempfile.TemporaryDirectory(prefix=".rokdaum-", dir=target.parent) as folder:
        raw, made = Path(folder, "raw"), Path(folder, "made")
        raw.write_bytes(words.tobytes())
        if has_form(target):
            from_raw(raw, made, target, rate)
        os.replace(made if has_form(target) else raw, target)
