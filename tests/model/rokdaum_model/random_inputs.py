# SPDX-License-Identifier: Apache-2.0
"""Random samples, inputs and configurations."""

from __future__ import annotations

import math
import random
import struct
from dataclasses import replace

from .console import Config
from .memory import SPACE_WORDS_MAX

EXTREMES = (-32768, -32767, -1, 0, 1, 32766, 32767)
POISON_WORDS = EXTREMES + (21845,)
MASKS = (0, 1, 2, 3, 4, 0x5555, 0xAAAA, 65535)


def _steps(rng: random.Random, n: int) -> list[int]:
    """A level that jumps now and then."""
    level, found = 0, []
    for _ in range(n):
        if rng.random() < 0.1:
            level = rng.randint(-32768, 32767)
        found.append(level)
    return found


def random_samples(rng: random.Random, n: int) -> list[int]:
    """Samples of one of several manners."""
    manner = rng.choice(("noise", "small", "extremes", "sine", "impulse", "steps", "codes"))
    if manner == "noise":
        return list(struct.unpack("<%dh" % n, rng.randbytes(2 * n)))
    if manner == "small":
        return [rng.randint(-20, 20) for _ in range(n)]
    if manner == "extremes":
        return rng.choices(EXTREMES, k=n)
    if manner == "sine":
        turn, level = rng.uniform(0.01, 3.1), rng.choice((100, 8000, 32767))
        return [round(level * math.sin(turn * k)) for k in range(n)]
    if manner == "impulse":
        return [rng.choice(EXTREMES) if k % 37 == 0 else 0 for k in range(n)]
    if manner == "codes":
        return list(rng.randbytes(n))
    return _steps(rng, n)


def random_input(rng: random.Random) -> bytes:
    """The bytes of an input, now and then with an odd one at the end."""
    n = rng.choice((0, 2, 7, rng.randint(3, 60), rng.randint(20, 300), rng.randint(20, 300), rng.randint(100, 500),
                    rng.randint(200, 900)))
    if rng.random() < 0.02:
        n = rng.randint(1000, 2600)
    data = struct.pack("<%dh" % n, *random_samples(rng, n))
    return data + (b"\x7f" if rng.random() < 0.25 else b"")


def random_size(rng: random.Random, space: str) -> int:
    """A space that is ample, tight or nothing."""
    draw = rng.random()
    if draw < 0.4:
        return SPACE_WORDS_MAX
    if draw < 0.45:
        return 0
    least, most = {"daram": (260, 1400), "saram": (8, 160), "external": (8, 600)}[space]
    words = rng.randrange(least, most + 1, 4)
    return min(4 * words, SPACE_WORDS_MAX) if space == "daram" and rng.random() < 0.8 else words


def random_config(rng: random.Random, kinds: str) -> Config:
    """Sizes, a poison word and octet ports; once in a hundred a size that is refused."""
    config = Config(kinds=kinds, form="running")
    if rng.random() < 0.6:
        config = replace(config, **{space: random_size(rng, space) for space in ("daram", "saram", "external")})
    if rng.random() < 0.4:
        config = replace(config, poison=rng.choice(POISON_WORDS))
    if rng.random() < 0.7:
        config = replace(config, in8=rng.choice(MASKS), out8=rng.choice(MASKS))
    if rng.random() < 0.01:
        config = replace(config, saram=rng.choice((2, 65537, 65540, 70000)))
    return config
