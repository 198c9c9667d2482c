# SPDX-License-Identifier: Apache-2.0
"""What a living algorithm does, and the form of it that is the definition itself: a history of all that it was given."""

from __future__ import annotations

from typing import TYPE_CHECKING, NamedTuple, Sequence, Union

if TYPE_CHECKING:
    from .kinds import Kind

Sample = Union[int, None]   # None where a sample isn't determined


class Control(NamedTuple):
    """A control: `set` with words, `reset`, or `get`."""

    verb: str
    words: tuple[int, ...] = ()


class Unknown:
    """A block of which neither the samples nor their number are determined."""

    def __repr__(self) -> str:
        return "UNKNOWN"


UNKNOWN = Unknown()

Block = Union[Sequence[Sample], Unknown]


def determined(block: Block) -> list[int]:
    """The samples of a block, of which each is determined: so it is in every run without unlawful kinds."""
    assert not isinstance(block, Unknown)
    samples = [x for x in block if x is not None]
    assert len(samples) == len(block)
    return samples


class Voice:
    """A living algorithm: blocks in, blocks out, controls."""

    def process(self, block: Block) -> Block:
        """The output block of an input block."""
        raise NotImplementedError

    def control(self, control: Control) -> tuple[Sample, ...]:
        """The words of the control's status; none for a control that is only done."""
        raise NotImplementedError


class History:
    """The granted entries of an instance, as the definitions look back on them."""

    def __init__(self, coefficients: tuple[int, ...]):
        self.coefficients_now = coefficients    # in force for the next sample
        self.since_now = 0                      # samples since the start or the last reset
        self.samples: list[Sample] = []
        self.since: list[int] = []              # of each sample: how many lie between it and the last reset
        self.coefficients: list[tuple[int, ...]] = []     # of each sample: the coefficients in force
        self.values: list[Sample] = []          # of each sample: the value of the definition

    def sample(self, x: Sample) -> int:
        """Appends a sample; its number."""
        self.samples.append(x)
        self.since.append(self.since_now)
        self.coefficients.append(self.coefficients_now)
        self.since_now += 1
        return len(self.samples) - 1

    def past(self, n: int, k: int) -> Sample:
        """The sample k before sample n, or 0 before the start or the last reset."""
        return self.samples[n - k] if k <= self.since[n] else 0

    def past_value(self, n: int, k: int) -> Sample:
        """The value k before sample n, or 0 before the start or the last reset."""
        return self.values[n - k] if k <= self.since[n] else 0


class HistoryVoice(Voice):
    """A lawful instance as its history. After a block of unknown length nothing is known of its outputs until the next reset."""

    def __init__(self, kind: Kind, parameters: tuple[int, ...]):
        self.kind, self.parameters = kind, parameters
        self.history = History(kind.coefficients(parameters))
        self.adrift = False

    def process(self, block: Block) -> Block:
        """The values of the definition at the block's samples."""
        if isinstance(block, Unknown) or self.adrift:
            self.adrift = True
            return UNKNOWN
        kind, parameters, history = self.kind, self.parameters, self.history
        out: list[Sample] = []
        for x in block:
            n = history.sample(x)
            history.values.append(kind.value(parameters, history, n))
            out.extend(kind.gives(parameters, history, n))
        return out

    def control(self, control: Control) -> tuple[Sample, ...]:
        """Sets coefficients, clears the past, or gives the kind's status."""
        if control.verb == "set":
            self.history.coefficients_now = control.words
        elif control.verb == "reset":
            self.history.since_now = 0
            self.adrift = False
        else:
            words = self.kind.status(self.parameters, self.history)
            return (None,) * len(words) if self.adrift and self.kind.status_counts else words
        return ()
