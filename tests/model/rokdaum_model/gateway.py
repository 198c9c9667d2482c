# SPDX-License-Identifier: Apache-2.0
"""The three kinds of `gateway_console` beside the hosted ones: a gain, a meter of energy, and a detector of dialled digits."""

from __future__ import annotations

import math
from typing import NamedTuple, Optional, Sequence

from .kinds import Kind, Parameters
from .memory import OBJECT, Attr, Record, Space
from .operators import (add, extract_h, l_mac, l_msu, l_mult, l_shl, mult, norm_l, round_, shl, shr, sub)
from .voices import Block, Control, History, Sample, Voice, determined

RATE = 8000
LOW_TONES, HIGH_TONES = (697, 770, 852, 941), (1209, 1336, 1477, 1633)
FACTORS = tuple(round(2 * math.cos(2 * math.pi * tone / RATE) * 16384) for tone in LOW_TONES + HIGH_TONES)
"""Twice the cosine of the angle by which each tone turns in a sample, in Q14."""

DIGITS = "123A456B789C*0#D"
"""The digits by their codes."""

NO_DIGIT = -1


class Gain(Kind):
    """Each sample times the factor in force, which is in Q12."""

    name = "gain"

    def table(self, p: Parameters) -> Optional[tuple[Record, ...]]:
        """The factor, and a scratch word, since a record has one at least."""
        return (OBJECT, Record(1, 4, Space.SARAM, Attr.PERSIST), Record(1, 4, Space.DARAM, Attr.SCRATCH)) if len(p) == 1 else None

    def accepts(self, p: Parameters, control: Control) -> bool:
        """`set` takes a factor."""
        return len(control.words) == 1 if control.verb == "set" else True

    def coefficients(self, p: Parameters) -> Parameters:
        """The factor."""
        return p

    def value(self, p: Parameters, h: History, n: int) -> Sample:
        """The product, rounded."""
        x = h.samples[n]
        return None if x is None else amplified(h.coefficients[n][0], x)

    def status(self, p: Parameters, h: History) -> tuple[int, ...]:
        """The factor."""
        return h.coefficients_now

    def running(self, p: Parameters) -> Voice:
        """A gain with its factor."""
        return RunningGain(p)


def amplified(factor: int, x: int) -> int:
    """A sample times a factor in Q12."""
    return round_(l_shl(l_mult(factor, x), 3))


class Framed(Kind):
    """A kind that tells of each frame of samples, at its end. Its first parameter is the length of a frame, its second a shift."""

    status_counts = True
    words, frame_max, shift_max, state_words = 0, 0, 0, 0

    def table(self, p: Parameters) -> Optional[tuple[Record, ...]]:
        """The parameters with the frame's state, and that state."""
        if len(p) != self.words or not 1 <= p[0] <= self.frame_max or not 0 <= p[1] <= self.shift_max:
            return None
        return (OBJECT, Record(self.words + self.state_words, 4, Space.SARAM, Attr.PERSIST),
                Record(self.state_words, 4, Space.DARAM, Attr.SCRATCH))

    def told(self, p: Parameters, samples: Sequence[int]) -> int:
        """What is told of a frame, the oldest sample first."""
        raise NotImplementedError

    def value(self, p: Parameters, h: History, n: int) -> Sample:
        """The sample: what is told goes over all samples of a frame."""
        return h.samples[n]

    def gives(self, p: Parameters, h: History, n: int) -> tuple[Sample, ...]:
        """What is told, at the frame's last sample."""
        if h.since[n] % p[0] != p[0] - 1:
            return ()
        frame = [x for x in h.samples[n - p[0] + 1:n + 1] if x is not None]
        return (None,) if len(frame) < p[0] else (self.told(p, frame),)

    def status(self, p: Parameters, h: History) -> tuple[int, ...]:
        """The samples that the frame has so far."""
        return (h.since_now % p[0],)

    def running(self, p: Parameters) -> Voice:
        """The form that goes on sample by sample."""
        return RunningFrame(self, p)


def energy(shift: int, samples: Sequence[int], start: int = 0) -> int:
    """The sum of the squares of shifted samples."""
    total = start
    for x in samples:
        y = shr(x, shift)
        total = l_mac(total, y, y)
    return total


class Level(Framed):
    """The energy of each frame."""

    name = "level"
    words, frame_max, shift_max, state_words = 2, 1024, 15, 3

    def told(self, p: Parameters, samples: Sequence[int]) -> int:
        """The upper word of the energy."""
        return extract_h(energy(p[1], samples))


class Limits(NamedTuple):
    """The parameters of a detector."""

    frame: int
    shift: int
    threshold: int
    down: int
    up: int
    dominance: int
    share: int


class Tone(NamedTuple):
    """A tone of a band: its place, its level, and its level after normalising."""

    place: int
    level: int
    normal: int


def turned(factor: int, v: int) -> int:
    """A value times a factor in Q14."""
    return round_(l_shl(l_mult(factor, v), 1))


def next_value(factor: int, shift: int, x: int, v1: int, v2: int) -> int:
    """The next value of a tone's resonator: the sum is in Q30, and rounded once."""
    total = l_mac(l_msu(l_mult(factor, v1), v2, 16384), x, shr(16384, shift))
    return round_(l_shl(total, 1))


def tone_level(factor: int, v1: int, v2: int) -> int:
    """A tone's level, in 32 bits."""
    return l_msu(l_mac(l_mult(v1, v1), v2, v2), turned(factor, v1), v2)


def strongest(levels: list[int], shift: int, dominance: int) -> Optional[Tone]:
    """The first tone of a band that stands out from the three others."""
    normal = [extract_h(l_shl(level, shift)) for level in levels]
    for place, level in enumerate(levels):
        most = mult(normal[place], dominance)
        if all(normal[other] <= most for other in range(4) if other != place):
            return Tone(place, level, normal[place])
    return None


def code(p: Limits, total: int, levels: list[int]) -> int:
    """The digit of a frame with this energy and the levels of its eight tones."""
    shift = norm_l(total)
    low, high = strongest(levels[:4], shift, p.dominance), strongest(levels[4:], shift, p.dominance)
    if low is None or high is None:
        return NO_DIGIT
    least = l_mult(p.threshold, p.threshold)
    whole = mult(shl(p.frame, 8), extract_h(l_shl(total, shift)))   # what two tones alone have of the energy
    if (low.level >= least and high.level >= least
            and high.normal >= mult(low.normal, p.down) and low.normal >= mult(high.normal, p.up)
            and add(low.normal, high.normal) >= mult(p.share, whole)):
        return add(shl(low.place, 2), high.place)
    return NO_DIGIT


def tone_levels(shift: int, samples: Sequence[int]) -> list[int]:
    """The levels of the eight tones over a frame."""
    found = []
    for factor in FACTORS:
        v1 = v2 = 0
        for x in samples:
            v1, v2 = next_value(factor, shift, x, v1, v2), v1
        found.append(tone_level(factor, v1, v2))
    return found


class Dtmf(Framed):
    """The digit of each frame, by Goertzel's recursion at eight tones."""

    name = "dtmf"
    words, frame_max, shift_max, state_words = 7, 127, 14, 19

    def told(self, p: Parameters, samples: Sequence[int]) -> int:
        """The code of the digit, or -1."""
        return code(Limits(*p), energy(sub(p[1], 3), samples), tone_levels(p[1], samples))


class RunningGain(Voice):
    """A gain with its factor."""

    def __init__(self, parameters: tuple[int, ...]):
        self.factor = parameters

    def process(self, block: Block) -> Block:
        """One output for each sample."""
        return [amplified(self.factor[0], x) for x in determined(block)]

    def control(self, control: Control) -> tuple[Sample, ...]:
        """Takes a factor, or gives it; a reset has no effect."""
        if control.verb == "get":
            return self.factor
        if control.verb == "set":
            self.factor = control.words
        return ()


class RunningFrame(Voice):
    """The samples of the frame so far."""

    def __init__(self, kind: Framed, parameters: tuple[int, ...]):
        self.kind, self.parameters = kind, parameters
        self.frame: list[int] = []

    def process(self, block: Block) -> Block:
        """What is told of each frame that ends in the block."""
        out = []
        for x in determined(block):
            self.frame.append(x)
            if len(self.frame) == self.parameters[0]:
                out.append(self.kind.told(self.parameters, self.frame))
                self.frame = []
        return out

    def control(self, control: Control) -> tuple[Sample, ...]:
        """Begins a new frame, or gives how many samples this one has."""
        if control.verb == "get":
            return (len(self.frame),)
        self.frame = []
        return ()


GATEWAY = {kind.name: kind for kind in (Gain(), Level(), Dtmf())}
"""The three kinds by their names."""
