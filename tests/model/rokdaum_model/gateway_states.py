# SPDX-License-Identifier: Apache-2.0
"""The kinds of `gateway_console` whose state lasts from sample to sample: an echo canceller, an ADPCM coder, a generator of tones, and a detector of
voice activity."""

from __future__ import annotations

from typing import Generic, NamedTuple, Optional, Sequence, TypeVar

from .g726 import BITS, Coder
from .kinds import Kind, Parameters
from .memory import OBJECT, Attr, Record, Space
from .operators import (abs_s, add, div_s, extract_h, l_add, l_deposit_h, l_mac, l_msu, l_mult, l_shl, l_shr, l_sub, mult, mult_r, negate, norm_l,
                        norm_s, round_, shl, sub)
from .voices import Block, Control, Sample, Voice, determined

TAPS_MAX = 256

State = TypeVar("State")


def records(parameters: int, running: int) -> tuple[Record, ...]:
    """The parameters with the state, and the state."""
    return (OBJECT, Record(parameters + running, 4, Space.SARAM, Attr.PERSIST), Record(running, 4, Space.DARAM, Attr.SCRATCH))


class Stateful(Kind, Generic[State]):
    """A kind whose state is all that lasts. `set` is refused."""

    def begin(self, p: Parameters) -> State:
        """The state before the first sample."""
        raise NotImplementedError

    def take(self, p: Parameters, x: int, state: State) -> tuple[State, tuple[int, ...]]:
        """The state behind a sample, and what is given for it."""
        raise NotImplementedError

    def words(self, p: Parameters, state: State) -> tuple[int, ...]:
        """The answer to `get`."""
        return p

    def start(self, p: Parameters, form: str) -> Voice:
        """A new instance, which has one form."""
        return RunningState(self, p)


class RunningState(Voice, Generic[State]):
    """The state so far."""

    def __init__(self, kind: Stateful[State], parameters: Parameters):
        self.kind, self.parameters = kind, parameters
        self.state = kind.begin(parameters)

    def process(self, block: Block) -> Block:
        """What each sample gives."""
        out: list[int] = []
        for x in determined(block):
            self.state, given = self.kind.take(self.parameters, x, self.state)
            out.extend(given)
        return out

    def control(self, control: Control) -> tuple[Sample, ...]:
        """Begins anew, or gives the words of `get`."""
        if control.verb == "get":
            return self.kind.words(self.parameters, self.state)
        self.state = self.kind.begin(self.parameters)
        return ()


class Line(NamedTuple):
    """What a canceller keeps of the pairs so far, and the far end's sample of a pair whose near end isn't there yet."""

    waiting: tuple[int, ...]
    far: tuple[int, ...]            # the newest first
    energy: int
    learning: tuple[int, ...]       # in Q31
    used: tuple[int, ...]           # in Q15
    left: int
    given: int
    heard: int
    hold: int


def echo_of(coefficients: Sequence[int], samples: Sequence[int]) -> int:
    """The echo that coefficients in Q15 make of the samples."""
    total = 0
    for c, x in zip(coefficients, samples):
        total = l_mac(total, c, x)
    return round_(total)


def followed(power: int, e: int) -> int:
    """A power with the square of one more value."""
    return l_add(power, l_shr(l_sub(l_mult(e, e), power), 8))


def squared(x: int) -> int:
    """2^-8 of the square."""
    return l_shr(l_mult(x, x), 8)


def learnt(step: int, e: int, energy: int, learning: tuple[int, ...], far: tuple[int, ...]) -> tuple[int, ...]:
    """Each coefficient a step down the gradient: step e / (energy + 1024), as a mantissa and a shift."""
    whole = l_add(energy, 1024)
    d = extract_h(l_shl(whole, norm_l(whole)))
    inverse = 0 if d < 16384 else div_s(16384, d)
    mantissa = mult_r(mult_r(shl(e, norm_s(e)), inverse), step)
    shift = sub(add(7, norm_s(e)), norm_l(whole))
    return tuple(l_add(w, l_shr(l_mult(mantissa, x), shift)) for w, x in zip(learning, far))


class Echo(Stateful[Line]):
    """The near end of each pair without the far end's echo. The parameters are N step share hold."""

    name = "echo"
    status_counts = True

    def table(self, p: Parameters) -> Optional[tuple[Record, ...]]:
        """Whether the state has begun, how many samples wait, these, nine words, and four lines of taps."""
        if len(p) != 4 or not 1 <= p[0] <= TAPS_MAX:
            return None
        return records(4, 2 + 2 + 9 + 4 * p[0])

    def begin(self, p: Parameters) -> Line:
        """Silence."""
        zeros = (0,) * p[0]
        return Line((), zeros, 0, zeros, zeros, 0, 0, 0, 0)

    def take(self, p: Parameters, x: int, state: Line) -> tuple[Line, tuple[int, ...]]:
        """The first sample of a pair waits."""
        if not state.waiting:
            return state._replace(waiting=(x,)), ()
        after, given = self.heard(p, state.waiting[0], x, state)
        return self.chosen(after._replace(waiting=())), (given,)

    def heard(self, p: Parameters, x: int, near: int, s: Line) -> tuple[Line, int]:
        """The line with one more pair, behind what it learns of it; and what is left of the near end by the coefficients in use."""
        far = (x,) + s.far[:-1]
        left, given = (sub(near, echo_of(c, far)) for c in ([extract_h(w) for w in s.learning], s.used))
        if mult(max(abs_s(v) for v in far), p[2]) < abs_s(near):
            hold = p[3]
        else:
            hold = sub(s.hold, 1) if s.hold > 0 else 0
        after = s._replace(far=far, energy=l_sub(l_add(s.energy, squared(x)), squared(s.far[-1])), left=followed(s.left, left),
                           given=followed(s.given, given), heard=followed(s.heard, near), hold=hold)
        if hold <= 0:
            after = after._replace(learning=learnt(p[1], left, after.energy, s.learning, far))
        return after, given

    def chosen(self, s: Line) -> Line:
        """Better coefficients are put to use, and far worse ones are given up."""
        better = s.left < l_sub(s.given, l_shr(s.given, 2)) and (s.left < l_shr(s.heard, 3) or s.heard < l_shr(s.given, 1))
        if s.hold <= 0 and better:
            return s._replace(used=tuple(extract_h(w) for w in s.learning), given=s.left)
        if s.given < l_shr(s.left, 1):
            return s._replace(learning=tuple(l_deposit_h(c) for c in s.used), left=s.given)
        return s

    def words(self, p: Parameters, state: Line) -> tuple[int, ...]:
        """How many samples wait."""
        return (len(state.waiting),)


class Adpcm(Stateful[Coder]):
    """G.726 by its sub-blocks, each with the Recommendation's widths. The parameters are the rate, and 0 to encode or 1 to decode."""

    name = "adpcm"

    def table(self, p: Parameters) -> Optional[tuple[Record, ...]]:
        """25 words of state."""
        return records(2, 25) if len(p) == 2 and p[0] in BITS and p[1] in (0, 1) else None

    def begin(self, p: Parameters) -> Coder:
        """The Recommendation's reset."""
        return Coder(p[0])

    def take(self, p: Parameters, x: int, state: Coder) -> tuple[Coder, tuple[int, ...]]:
        """The upper fourteen bits of a sample are coded; the lowest bits of a word are a code."""
        if p[1] == 0:
            return state, (state.encode(x >> 2),)
        return state, (state.decode(x & 2 ** BITS[p[0]] - 1) * 4,)


class Cadence(NamedTuple):
    """The two newest values of each tone, the place in the cycle, and how many cycles there were."""

    first: tuple[int, int]
    second: tuple[int, int]
    place: int
    done: int


def next_value(k: int, v: tuple[int, int]) -> tuple[int, int]:
    """k v(n-1) - v(n-2), and v(n-1)."""
    return round_(l_shl(l_msu(l_mult(k, v[0]), v[1], 16384), 1)), v[0]


class Signal(Stateful[Cadence]):
    """The sum of two tones while they sound, and each sample while they don't. The parameters are k1 s1 k2 s2 on off count."""

    name = "signal"

    def table(self, p: Parameters) -> Optional[tuple[Record, ...]]:
        """Six words of state."""
        return records(7, 6) if len(p) == 7 else None

    def begin(self, p: Parameters) -> Cadence:
        """Before the first cycle."""
        return Cadence((0, 0), (0, 0), 0, 0)

    def take(self, p: Parameters, x: int, state: Cadence) -> tuple[Cadence, tuple[int, ...]]:
        """Behind the last cycle each sample is given as it is."""
        k1, s1, k2, s2, on, off, count = p
        first, second, place, done = state
        if place <= 0:
            first, second = (0, negate(s1)), (0, negate(s2))
        if 0 < count <= done:
            return Cadence(first, second, place, done), (x,)
        given = add(first[0], second[0]) if place < on else x
        if add(place, 1) < add(on, off):
            return Cadence(next_value(k1, first), next_value(k2, second), add(place, 1), done), (given,)
        return Cadence((0, 0), (0, 0), 0, add(done, 1)), (given,)


class Talk(NamedTuple):
    """The samples of a frame so far, the floor, and for how many frames speech is told, with the newest."""

    frame: tuple[int, ...]
    floor: int
    left: int


FRAME_SAMPLES_MAX = 1024
WORD32_MAX = 2**31 - 1


class Activity(Stateful[Talk]):
    """Whether there is speech in each frame, by its energy over a tracked floor. The parameters are N s margin rise least hang."""

    name = "activity"

    def table(self, p: Parameters) -> Optional[tuple[Record, ...]]:
        """Whether the state has begun, how many samples wait, room for a frame, two words of the floor and one of the frames that are left."""
        fits = len(p) == 6 and 1 <= p[0] <= FRAME_SAMPLES_MAX and all(0 <= bits <= 15 for bits in p[1:4]) and p[4] >= 0 and p[5] >= 0
        return records(6, 2 + p[0] + 3) if fits else None

    def begin(self, p: Parameters) -> Talk:
        """The first frame is the floor."""
        return Talk((), WORD32_MAX, 0)

    def take(self, p: Parameters, x: int, state: Talk) -> tuple[Talk, tuple[int, ...]]:
        """The floor falls to a frame's energy at once, and rises by 2^-rise of itself, and 1."""
        samples, shift, margin, rise, least, hang = p
        frame = state.frame + (x,)
        if len(frame) < samples:
            return state._replace(frame=frame), ()
        energy = 0
        for sample in frame:
            energy = l_add(energy, l_shr(l_mult(sample, sample), shift))
        floor = max(least, min(energy, l_add(state.floor, l_add(l_shr(state.floor, rise), 1))))
        if energy > l_shl(floor, margin):
            left = add(hang, 1)
        else:
            left = max(state.left - 1, 0)
        return Talk((), floor, left), (int(left > 0),)

    def words(self, p: Parameters, state: Talk) -> tuple[int, ...]:
        """How many samples wait."""
        return (len(state.frame),)


KINDS: tuple[Kind, ...] = (Echo(), Adpcm(), Signal(), Activity())
STATEFUL = {kind.name: kind for kind in KINDS}
"""The four kinds by their names."""
