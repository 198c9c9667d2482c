# SPDX-License-Identifier: Apache-2.0
"""G.711 over arrays, by the C library and without a host: 16-bit samples to codes of A-law or mu-law, and back.

    codes = rokdaum.g711.encode(samples, "mu")
    heard = rokdaum.g711.decode(codes, "mu")
"""

from __future__ import annotations

import numpy as np

from . import library
from .errors import OutOfRange
from .operators import at, done, words
from .samples import as_words


def law_of(name: str) -> int:
    """The number of a law, `a` or `mu`. Raises OutOfRange for another."""
    if name not in library.LAWS:
        raise OutOfRange(f"a law is {' or '.join(library.LAWS)}, and not {name}")
    return library.LAWS[name]


def encode(samples: object, law: str = "mu") -> np.ndarray:
    """The code of each sample, as uint8 of shape (samples,). `law` is `a` or `mu`.

    Raises FloatsRefused for floats, OutOfRange for another shape, law or for numbers that aren't 16 bits, and LibraryMissing.
    """
    number, given = law_of(law), words(samples)
    codes = np.empty(len(given), np.uint8)
    done(library.load().rokdaum_g711_encode(number, at(given), codes.ctypes.data_as(library.OCTETS), len(codes)), "encode")
    return codes


def decode(codes: object, law: str = "mu") -> np.ndarray:
    """The sample of each code, 0 to 255, as int16 of shape (codes,). `law` is `a` or `mu`. Raises what `encode` raises."""
    number, given = law_of(law), np.ascontiguousarray(as_words(codes, octets=True), np.uint8)
    samples = np.empty(len(given), np.int16)
    done(library.load().rokdaum_g711_decode(number, given.ctypes.data_as(library.OCTETS), at(samples), len(samples)), "decode")
    return samples
