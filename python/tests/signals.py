# SPDX-License-Identifier: Apache-2.0
"""Signals for tests: int16 of shape (count,)."""

from __future__ import annotations

import numpy as np


def noise(count: int, seed: int = 1, peak: int = 8000) -> np.ndarray:
    """Random samples."""
    return np.random.default_rng(seed).integers(-peak, peak + 1, count).astype(np.int16)


def tone(frequency: float, peak: float, count: int, rate: float = 8000.0) -> np.ndarray:
    """A tone in samples."""
    return np.round(peak * np.cos(2 * np.pi * frequency * np.arange(count) / rate)).astype(np.int16)


def keypad(keys: str, peak: float = 6000, count: int = 480) -> np.ndarray:
    """Keys of a telephone at 8,000 samples a second, each two tones of a peak, and silence as long behind it."""
    low, high, order = (697, 770, 852, 941), (1209, 1336, 1477, 1633), "123A456B789C*0#D"
    pairs = [divmod(order.index(key), 4) for key in keys]
    return np.concatenate([part for i, j in pairs for part in (tone(low[i], peak, count) + tone(high[j], peak, count), np.zeros(count, np.int16))])
