# SPDX-License-Identifier: Apache-2.0
"""The same algorithms with delay lines in place of histories: the same outputs, sooner."""

from __future__ import annotations

from operator import mul
from typing import Iterable, Sequence

from .companding import decode, encode
from .equations import biquad_step, tone_level, tone_step
from .operators import WORD32_MAX, WORD32_MIN, l_mult, round_
from .voices import Block, Control, Sample, Voice, determined


def fir_sums(coefficients: Sequence[int], line: Sequence[int], wanted: Iterable[int]) -> list[int]:
    """The rounded sums at the wanted places of `line`, which begins with one past sample less than there are coefficients.

    Where the magnitudes of the coefficients sum to at most 32767, no partial sum can leave Word32, so nothing saturates and
    a plain sum serves.
    """
    taps = len(coefficients)
    if sum(abs(c) for c in coefficients) <= 32767:
        turned = coefficients[::-1]
        return [round_(2 * sum(map(mul, turned, line[n:n + taps]))) for n in wanted]
    out = []
    for n in wanted:
        total, k = 0, n + taps - 1
        for c in coefficients:
            total += l_mult(c, line[k])
            if total > WORD32_MAX:
                total = WORD32_MAX
            elif total < WORD32_MIN:
                total = WORD32_MIN
            k -= 1
        out.append(round_(total))
    return out


class RunningFir(Voice):
    """A filter with one past sample less than it has coefficients."""

    def __init__(self, parameters: tuple[int, ...]):
        self.coefficients = parameters
        self.past = [0] * (len(parameters) - 1)

    def process(self, block: Block) -> Block:
        """One output for each sample."""
        samples = determined(block)
        line = self.past + samples
        self.past = line[len(samples):]
        return fir_sums(self.coefficients, line, range(len(samples)))

    def control(self, control: Control) -> tuple[Sample, ...]:
        """Takes coefficients, clears the past, or gives the coefficients."""
        if control.verb == "get":
            return self.coefficients
        if control.verb == "set":
            self.coefficients = control.words
        else:
            self.past = [0] * len(self.past)
        return ()


class RunningDecim(Voice):
    """A decimator with its past samples and its phase."""

    def __init__(self, parameters: tuple[int, ...]):
        self.every, self.coefficients = parameters[0], parameters[1:]
        self.past, self.phase = [0] * (len(parameters) - 2), 0

    def process(self, block: Block) -> Block:
        """One output for every so many samples."""
        samples = determined(block)
        line = self.past + samples
        self.past = line[len(samples):]
        first = self.every - 1 - self.phase
        self.phase = (self.phase + len(samples)) % self.every
        return fir_sums(self.coefficients, line, range(first, len(samples), self.every))

    def control(self, control: Control) -> tuple[Sample, ...]:
        """Clears the past, or gives the phase."""
        if control.verb == "get":
            return (self.phase,)
        self.past, self.phase = [0] * len(self.past), 0
        return ()


class RunningBiquad(Voice):
    """A second-order section with two past samples and two past outputs."""

    def __init__(self, parameters: tuple[int, ...]):
        self.coefficients = parameters
        self.x, self.y = (0, 0), (0, 0)

    def process(self, block: Block) -> Block:
        """One output for each sample."""
        out = []
        for x in determined(block):
            y = biquad_step(self.coefficients, (x, *self.x), self.y)
            self.x, self.y = (x, self.x[0]), (y, self.y[0])
            out.append(y)
        return out

    def control(self, control: Control) -> tuple[Sample, ...]:
        """Takes coefficients, clears the past, or gives the coefficients."""
        if control.verb == "get":
            return self.coefficients
        if control.verb == "set":
            self.coefficients = control.words
        else:
            self.x, self.y = (0, 0), (0, 0)
        return ()


class RunningTone(Voice):
    """A tone detector with its count and the last two values of its frame."""

    def __init__(self, parameters: tuple[int, ...]):
        self.k, self.frame, self.shift = parameters
        self.count, self.v1, self.v2 = 0, 0, 0

    def process(self, block: Block) -> Block:
        """A level for each frame that ends in the block."""
        out = []
        for x in determined(block):
            v = tone_step(self.k, self.shift, x, self.v1, self.v2)
            self.v1, self.v2 = v, self.v1
            self.count += 1
            if self.count == self.frame:
                out.append(tone_level(self.k, self.v1, self.v2))
                self.count, self.v1, self.v2 = 0, 0, 0
        return out

    def control(self, control: Control) -> tuple[Sample, ...]:
        """Takes k, begins a new frame, or gives the samples in the frame."""
        if control.verb == "get":
            return (self.count,)
        if control.verb == "set":
            self.k = control.words[0]
        else:
            self.count, self.v1, self.v2 = 0, 0, 0
        return ()


class RunningG711(Voice):
    """Companding, which has no state."""

    def __init__(self, parameters: tuple[int, ...]):
        self.parameters = parameters

    def process(self, block: Block) -> Block:
        """One code or one sample for each word."""
        law, decodes = self.parameters
        if decodes:
            return [decode(law, x & 255) for x in determined(block)]
        return [encode(law, x) for x in determined(block)]

    def control(self, control: Control) -> tuple[Sample, ...]:
        """Gives the parameters; a reset has no effect."""
        return self.parameters if control.verb == "get" else ()
