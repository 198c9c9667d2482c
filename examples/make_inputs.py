#!/usr/bin/env python3
# SPDX-License-Identifier: Apache-2.0
"""Makes the inputs of the examples, and prints the coefficients that their scripts name.

Samples are words of 16 bits, the low octet first, at 8000 per second; codes of a companding law are octets.
"""

from __future__ import annotations

from collections.abc import Sequence
from math import cos, pi, sin
from pathlib import Path
from struct import pack

HERE = Path(__file__).parent
RATE = 8000


def write(name: str, samples: Sequence[int]) -> None:
    (HERE / name).write_bytes(pack(f"<{len(samples)}h", *samples))


def mu_law(sample: int) -> int:
    """The mu-law code of a sample (G.711, table 2), as it stands in a file of such codes."""
    magnitude = min(abs(sample) >> 2, 8158) + 33
    segment = magnitude.bit_length() - 6
    return ~((0x80 if sample < 0 else 0) | segment << 4 | (magnitude >> segment + 1) & 15) & 0xFF


def tone(frequency: float, level: float, count: int) -> list[int]:
    """A sine of this peak value."""
    return [round(level * sin(2 * pi * frequency * n / RATE)) for n in range(count)]


def mixed(*parts: Sequence[int]) -> list[int]:
    return [sum(samples) for samples in zip(*parts)]


def low_pass(taps: int, cutoff: float) -> list[int]:
    """A windowed sinc in Q15 with a gain of 1 at 0 Hz, its cutoff in Hz."""
    middle = (taps - 1) / 2
    x = [2 * pi * cutoff / RATE * (n - middle) for n in range(taps)]
    window = [0.54 - 0.46 * cos(2 * pi * n / (taps - 1)) for n in range(taps)]
    values = [w * (sin(v) / v if v else 1) for w, v in zip(window, x)]
    return [round(32768 * v / sum(values)) for v in values]


def goertzel(frequency: float, rate: float) -> int:
    """The k of a detector: the cosine in Q15."""
    return round(32768 * cos(2 * pi * frequency / rate))


write("shared_scratch/input0.raw", mixed(tone(300, 8000, 64), tone(3000, 8000, 64)))
write("shared_scratch/input1.raw", [0, 16000] * 32)
write("no_room/input.raw", [1000, 0, 0, 0, 0, 0, 0, 0])
write("compaction/input.raw", tone(400, 10000, 96))
write("companded_line/input.raw", mixed([0, -1, 32767, -32768] + [0] * 156, [0] * 4 + [x * n // 156 for n, x in enumerate(tone(440, 30000, 156))]))
write("dtmf_digit/input.raw", mixed(tone(770, 8000, 204), tone(1336, 8000, 204)) + [0] * 204)
write("chain_of_three/input.raw", mixed(tone(250, 9000, 160), tone(50, 9000, 160)))
(HERE / "between_laws/input.ul").write_bytes(bytes(mu_law(x) for x in mixed(tone(440, 9000, 1184), tone(50, 9000, 1184))))
for line in range(16):
    (HERE / f"sixteen_lines/input{line}.ul").write_bytes(bytes(mu_law(x) for x in tone(300 + 100 * line, 12000, 80)))

print("dtmf_digit, low pass:", *low_pass(24, 1900))
for pitch in (697, 770, 852, 941, 1209, 1336, 1477, 1633):
    print(f"dtmf_digit, {pitch} Hz at 4000 per second:", goertzel(pitch, RATE / 2))
