# SPDX-License-Identifier: Apache-2.0
"""The five kinds of algorithms: their parameters, their records, the controls that they take, and their difference equations
over a whole history."""

from __future__ import annotations

from typing import Optional

from .companding import decode, encode
from .delay_lines import RunningBiquad, RunningDecim, RunningFir, RunningG711, RunningTone
from .equations import biquad_step, tone_level, tone_step
from .memory import OBJECT, Attr, Record, Space
from .operators import l_mac, round_
from .voices import Control, History, HistoryVoice, Sample, Voice

FEED_MAX = 1024
"""The most samples of a feed, for which the scratch of the filters has room."""

TAPS_MAX = 64

Parameters = tuple[int, ...]


class Kind:
    """What the host must know of an algorithm, and its definition."""

    name = ""
    status_counts = False   # whether `get` gives a count of samples

    def table(self, p: Parameters) -> Optional[tuple[Record, ...]]:
        """The records, or None where the parameters are refused."""
        raise NotImplementedError

    def accepts(self, p: Parameters, control: Control) -> bool:
        """Whether an instance of these parameters takes the control."""
        return control.verb != "set"

    def coefficients(self, p: Parameters) -> Parameters:
        """The coefficients of the creation."""
        return ()

    def start(self, p: Parameters, form: str) -> Voice:
        """A new instance, by its history or with delay lines."""
        return HistoryVoice(self, p) if form == "history" else self.running(p)

    def running(self, p: Parameters) -> Voice:
        """The form with delay lines."""
        raise NotImplementedError

    def value(self, p: Parameters, h: History, n: int) -> Sample:
        """The value of the definition at sample n: a filter's output, or a recursion's state. None where it isn't determined."""
        raise NotImplementedError

    def gives(self, p: Parameters, h: History, n: int) -> tuple[Sample, ...]:
        """The outputs that sample n gives: none or one."""
        return (h.values[n],)

    def status(self, p: Parameters, h: History) -> tuple[int, ...]:
        """The words of `get` after the history."""
        raise NotImplementedError


class Fir(Kind):
    """y(n) is the rounded, saturating sum of c_k x(n-k), with k from 0 upwards."""

    name = "fir"

    def table(self, p: Parameters) -> Optional[tuple[Record, ...]]:
        """The coefficients with the past samples, and a ring of past samples."""
        if not 1 <= len(p) <= TAPS_MAX:
            return None
        return (OBJECT, Record(2 * len(p) - 1, 4, Space.SARAM, Attr.PERSIST),
                Record(len(p) - 1 + FEED_MAX, 16, Space.DARAM, Attr.SCRATCH))

    def accepts(self, p: Parameters, control: Control) -> bool:
        """`set` takes as many coefficients as there are."""
        return len(control.words) == len(p) if control.verb == "set" else True

    def coefficients(self, p: Parameters) -> Parameters:
        """All parameters."""
        return p

    def value(self, p: Parameters, h: History, n: int) -> Sample:
        """The sum in the order of its coefficients."""
        coefficients, total = h.coefficients[n], 0
        for k, c in enumerate(coefficients):
            x = h.past(n, k)
            if x is None:
                return None
            total = l_mac(total, c, x)
        return round_(total)

    def status(self, p: Parameters, h: History) -> tuple[int, ...]:
        """The coefficients."""
        return h.coefficients_now

    def running(self, p: Parameters) -> Voice:
        """A filter with a delay line."""
        return RunningFir(p)


class Decim(Kind):
    """The value of a filter at every M-th sample since the start or a reset."""

    name = "decim"
    status_counts = True

    def table(self, p: Parameters) -> Optional[tuple[Record, ...]]:
        """The past samples with the phase, the constants, and a ring of past samples."""
        taps = len(p) - 1
        if not 1 <= taps <= TAPS_MAX or not 1 <= p[0] <= 16:
            return None
        return (OBJECT, Record(taps, 4, Space.SARAM, Attr.PERSIST), Record(taps + 1, 8, Space.EXTERNAL, Attr.WRITE_ONCE),
                Record(taps - 1 + FEED_MAX, 16, Space.DARAM, Attr.SCRATCH))

    def coefficients(self, p: Parameters) -> Parameters:
        """The parameters without M."""
        return p[1:]

    def value(self, p: Parameters, h: History, n: int) -> Sample:
        """The filter's value where one is given."""
        return FIR.value(p[1:], h, n) if h.since[n] % p[0] == p[0] - 1 else 0

    def gives(self, p: Parameters, h: History, n: int) -> tuple[Sample, ...]:
        """One output at the last of M samples."""
        return (h.values[n],) if h.since[n] % p[0] == p[0] - 1 else ()

    def status(self, p: Parameters, h: History) -> tuple[int, ...]:
        """The phase."""
        return (h.since_now % p[0],)

    def running(self, p: Parameters) -> Voice:
        """A decimator with a delay line."""
        return RunningDecim(p)


class Biquad(Kind):
    """A second-order section with feedback, coefficients in Q14."""

    name = "biquad"

    def table(self, p: Parameters) -> Optional[tuple[Record, ...]]:
        """The coefficients with the past, and the last samples and outputs."""
        if len(p) != 5:
            return None
        return (OBJECT, Record(9, 4, Space.SARAM, Attr.PERSIST), Record(4, 4, Space.DARAM, Attr.SCRATCH))

    def accepts(self, p: Parameters, control: Control) -> bool:
        """`set` takes five coefficients."""
        return len(control.words) == 5 if control.verb == "set" else True

    def coefficients(self, p: Parameters) -> Parameters:
        """All parameters."""
        return p

    def value(self, p: Parameters, h: History, n: int) -> Sample:
        """The section's output."""
        x0, x1, x2 = h.past(n, 0), h.past(n, 1), h.past(n, 2)
        y1, y2 = h.past_value(n, 1), h.past_value(n, 2)
        if x0 is None or x1 is None or x2 is None or y1 is None or y2 is None:
            return None
        return biquad_step(h.coefficients[n], (x0, x1, x2), (y1, y2))

    def status(self, p: Parameters, h: History) -> tuple[int, ...]:
        """The coefficients."""
        return h.coefficients_now

    def running(self, p: Parameters) -> Voice:
        """A section with its past."""
        return RunningBiquad(p)


class Tone(Kind):
    """A detector of one tone: a resonator, and its level at each frame's end."""

    name = "tone"
    status_counts = True

    def table(self, p: Parameters) -> Optional[tuple[Record, ...]]:
        """The parameters with the frame's state, and the last values."""
        if len(p) != 3 or not 1 <= p[1] <= 1024 or not 0 <= p[2] <= 15:
            return None
        return (OBJECT, Record(6, 4, Space.SARAM, Attr.PERSIST), Record(3, 4, Space.DARAM, Attr.SCRATCH))

    def accepts(self, p: Parameters, control: Control) -> bool:
        """`set` takes k alone."""
        return len(control.words) == 1 if control.verb == "set" else True

    def coefficients(self, p: Parameters) -> Parameters:
        """k."""
        return p[:1]

    @staticmethod
    def back(p: Parameters, h: History, n: int, k: int) -> Sample:
        """The value k before sample n within its frame, else 0."""
        return h.values[n - k] if k <= h.since[n] % p[1] else 0

    def value(self, p: Parameters, h: History, n: int) -> Sample:
        """The resonator's value."""
        x, v1, v2 = h.samples[n], self.back(p, h, n, 1), self.back(p, h, n, 2)
        return None if x is None or v1 is None or v2 is None else tone_step(h.coefficients[n][0], p[2], x, v1, v2)

    def gives(self, p: Parameters, h: History, n: int) -> tuple[Sample, ...]:
        """The level at the frame's last sample."""
        if h.since[n] % p[1] != p[1] - 1:
            return ()
        v1, v2 = h.values[n], self.back(p, h, n, 1)
        return (None,) if v1 is None or v2 is None else (tone_level(h.coefficients[n][0], v1, v2),)

    def status(self, p: Parameters, h: History) -> tuple[int, ...]:
        """The samples in the frame."""
        return (h.since_now % p[1],)

    def running(self, p: Parameters) -> Voice:
        """A detector with the state of its frame."""
        return RunningTone(p)


class G711(Kind):
    """Companding, sample by sample."""

    name = "g711"

    def table(self, p: Parameters) -> Optional[tuple[Record, ...]]:
        """A decoder has the samples of all codes."""
        if len(p) != 2 or p[0] not in (0, 1) or p[1] not in (0, 1):
            return None
        return (OBJECT, Record(256, 8, Space.EXTERNAL, Attr.WRITE_ONCE)) if p[1] else (OBJECT,)

    def value(self, p: Parameters, h: History, n: int) -> Sample:
        """The code of a sample, or the sample of a code."""
        x = h.samples[n]
        if x is None:
            return None
        return decode(p[0], x & 255) if p[1] else encode(p[0], x)

    def status(self, p: Parameters, h: History) -> tuple[int, ...]:
        """The law and the direction."""
        return p

    def running(self, p: Parameters) -> Voice:
        """A coder without state."""
        return RunningG711(p)


FIR, DECIM, BIQUAD, TONE, G711_KIND = Fir(), Decim(), Biquad(), Tone(), G711()
LAWFUL = {kind.name: kind for kind in (FIR, BIQUAD, TONE, DECIM, G711_KIND)}
"""The five kinds by their names."""
