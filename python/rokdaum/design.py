# SPDX-License-Identifier: Apache-2.0
"""Filters, gains, detectors and generators of tones and of dialled digits, and echo cancellers in words, with the response that the rounded words of
filters have.

Frequencies are in Hz, `rate` is the samples a second. A word of Q14 is 16384 times its value, and goes from -2 to just below 2; one of Q15 is
32768 times its value, from -1 to just below 1. scipy designs, and this module scales, rounds and says what saturates.

What saturates: the sums within an algorithm, and its outputs, are limited without a word. The sum of a biquad saturates at twice full scale and
its output at full scale; the sum of a FIR or a decimator saturates at full scale behind each coefficient. `scale` says for which inputs that
must not happen:

- `"tones"`, which is meant where nothing is said: no tone up to full scale saturates any sum, at any frequency;
- `"any"`: no input at all does;
- `"words"`: the words fit, and nothing more. The gain stays as near to the designed one as words can have it.
"""

from __future__ import annotations

import itertools
import math
import sys
from collections.abc import Sequence
from dataclasses import dataclass
from functools import cached_property
from pathlib import Path
from types import ModuleType

import numpy as np

from .errors import CantRead, DesignError, MissingPackage, NotStable

Q12, Q14, Q15 = 4096, 16384, 32768
DEFAULT_RATE = 8000.0
MOST_TAPS = 64
MOST_MEMBERS, GROUPS, INSTANCES, CHANNELS = 8, 8, 64, 16
SCALES = ("tones", "any", "words")
# The kind of an instance and its words.
Creation = tuple[str, tuple[int, ...]]
# b0 b1 b2 a1 a2 of a second-order section in Q14.
Section = tuple[int, int, int, int, int]
# The keys of a telephone by their codes, and the code of a frame without one.
KEYS, NO_DIGIT = "123A456B789C*0#D", -1
# Words that are recommended for a detector of digits, and how many frames in a row have one until it counts.
DTMF_SETS = {"a": ((102, 7, 91, 2920, 7336, 5827, 22938), 2), "b": ((92, 7, 82, 2920, 7336, 9235, 20316), 3)}
FRAMES_OFF = 2
# The tones of the keys' rows and columns in Hz (ITU-T Q.23), and how long one sounds and pauses in seconds.
ROWS, COLUMNS, KEY_SECONDS = (697, 770, 852, 941), (1209, 1336, 1477, 1633), (0.1, 0.1)
# Call progress tones: the frequencies in Hz, and the seconds on and off, none of which are a tone without an end. Those of North America, of most of
# Europe, and of the United Kingdom, by ITU-T E.180 and its supplement 2.
PROGRESS_TONES = {
    "us-dial": ((350, 440), None),
    "us-busy": ((480, 620), (0.5, 0.5)),
    "us-congestion": ((480, 620), (0.25, 0.25)),
    "eu-dial": ((425,), None),
    "eu-busy": ((425,), (0.5, 0.5)),
    "eu-congestion": ((425,), (0.25, 0.25)),
    "uk-dial": ((350, 450), None),
    "uk-busy": ((400,), (0.375, 0.375)),
}
# A generator's cycle has at most so many samples, and a feed.
MOST_CYCLE, MOST_FEED = 32767, 1024
# The most coefficients of an echo canceller.
MOST_ECHO = 256
# Frequencies at which gains are looked at, from 0 to half of the rate.
GRID = np.linspace(0, np.pi, 2049)
# An impulse response is summed up until its poles have let it fall this far.
LONGEST_RESPONSE = 1 << 20
# The largest word of a numerator is at least this, so that rounding moves a section's gain by a thirtieth at most.
LEAST_WORD = 16


def scipy_signal() -> ModuleType:
    """`scipy.signal`. Raises MissingPackage where it isn't installed."""
    try:
        from scipy import signal
    except ImportError:
        raise MissingPackage("scipy") from None
    return signal


def decibels(gain: np.ndarray | float) -> np.ndarray:
    """Gains in dB, -200 where there is none."""
    return 20 * np.log10(np.maximum(np.abs(gain), 1e-10))


def turn(frequencies: Sequence[float] | np.ndarray, rate: float) -> np.ndarray:
    """Frequencies in Hz as radians a sample."""
    return 2 * np.pi * np.asarray(frequencies, dtype=float) / rate


def look_at_edges(edges: Sequence[float], rate: float) -> None:
    """Refuses frequencies that aren't between 0 and half of the rate, in rising order."""
    if not (rate > 0 and all(0 < edge < rate / 2 for edge in edges)):
        raise DesignError(f"an edge lies between 0 and {rate / 2:g} Hz, half of {rate:g} samples a second, and here are {', '.join(f'{it:g}' for it in edges)}: name the rate by rate=, --rate")
    if any(low >= high for low, high in zip(edges, edges[1:])):
        raise DesignError(f"the lower edge comes first: {', '.join(f'{it:g}' for it in edges)}")


def look_at_scale(scale: str) -> None:
    """Refuses an unknown scale."""
    if scale not in SCALES:
        raise DesignError(f"scale is one of {', '.join(SCALES)}, and not {scale}")


def look_at_places(first: int, group: int, channel: int, members: int) -> None:
    """Refuses numbers of instances, groups and channels that there aren't."""
    if not 0 <= first <= INSTANCES - members:
        raise DesignError(f"instances are 0 to {INSTANCES - 1}, and {members} from {first} on are asked for")
    if not 0 <= group < GROUPS:
        raise DesignError(f"a group is 0 to {GROUPS - 1}, and {group} is asked for")
    if not 0 <= channel < CHANNELS:
        raise DesignError(f"a channel is 0 to {CHANNELS - 1}, and {channel} is asked for")


@dataclass(frozen=True)
class Biquads:
    """A cascade of second-order sections. `words` has b0 b1 b2 a1 a2 of each in Q14; `designed` is scipy's, of shape (sections, 6)."""

    words: tuple[Section, ...]
    designed: np.ndarray
    rate: float = DEFAULT_RATE

    @property
    def creations(self) -> tuple[Creation, ...]:
        """The kind and the words of each instance, in the order of a chain."""
        return tuple(("biquad", one) for one in self.words)

    @cached_property
    def sections(self) -> np.ndarray:
        """The values of the words as scipy has them, shape (sections, 6)."""
        return np.array([[it / Q14 for it in (*one[:3], Q14, *one[3:])] for one in self.words])

    def response(self, frequencies: Sequence[float] | np.ndarray) -> np.ndarray:
        """The complex gain of the words at frequencies in Hz."""
        return scipy_signal().sosfreqz(self.sections, turn(frequencies, self.rate))[1]

    def designed_response(self, frequencies: Sequence[float] | np.ndarray) -> np.ndarray:
        """The complex gain that was designed."""
        return scipy_signal().sosfreqz(self.designed, turn(frequencies, self.rate))[1]

    @property
    def radius(self) -> float:
        """The greatest distance of a pole from 0: below 1 the filter is stable."""
        return max(float(np.abs(np.roots(one[3:])).max()) for one in self.sections)

    def overflow(self, any_input: bool = False) -> float:
        """How far past its limit a sum goes: for a full-scale tone of the worst frequency, or for the worst of all inputs. Up to 1 none saturates."""
        worst = 0.0
        for at, one in enumerate(self.sections):
            before = self.sections[:at]
            worst = max(worst, max(sums_of_any(before, one) if any_input else sums_of_tones(before, one)))
        return worst

    def deviation(self) -> float:
        """How many dB the shape of the words' response is off at most, where the designed gain is within 20 dB of its peak."""
        signal = scipy_signal()
        exact, words = decibels(signal.sosfreqz(self.designed, GRID)[1]), decibels(signal.sosfreqz(self.sections, GRID)[1])
        off = (words - exact)[exact > exact.max() - 20]
        return float(np.ptp(off)) / 2

    def warnings(self) -> list[str]:
        """What saturates, for which inputs, and where rounding changed the response."""
        found = told_overflow(self.overflow(), self.overflow(any_input=True))
        if self.deviation() > 0.5:
            found.append(f"rounded to Q14 the response is up to {self.deviation():.1f} dB off: take a lower order, a higher edge, or a lower rate by a decimator before it")
        return found

    def lines(self, first: int = 0, group: int = 0, channel: int = 0, share: bool = False) -> list[str]:
        """The lines of a script: a creation for each section, in groups of their own or all in one (`share`), and the chain."""
        count = len(self.words)
        if count > MOST_MEMBERS:
            raise DesignError(f"a channel has at most {MOST_MEMBERS} members, and these are {count} sections: take a lower order")
        look_at_places(first, group, channel, count)
        if not share and group + count > GROUPS:
            raise DesignError(f"there are groups 0 to {GROUPS - 1}, and {count} sections from group {group} on don't fit: share=True, --share, puts them into one")
        made = [create(first + at, group if share else group + at, *one) for at, one in enumerate(self.creations)]
        return [*made, chain(channel, range(first, first + count))]


@dataclass(frozen=True)
class Fir:
    """A FIR filter, or a decimator where `factor` isn't None. `words` are its coefficients in Q15, `designed` the values that scipy gave."""

    words: tuple[int, ...]
    designed: np.ndarray
    rate: float = DEFAULT_RATE
    factor: int | None = None

    @property
    def creations(self) -> tuple[Creation, ...]:
        """The kind and the words of each instance, in the order of a chain."""
        return (("fir", self.words) if self.factor is None else ("decim", (self.factor, *self.words)),)

    def response(self, frequencies: Sequence[float] | np.ndarray) -> np.ndarray:
        """The complex gain of the words at frequencies in Hz, before the rate is divided."""
        return polynomial(np.array(self.words) / Q15, turn(frequencies, self.rate))

    def designed_response(self, frequencies: Sequence[float] | np.ndarray) -> np.ndarray:
        """The complex gain that was designed."""
        return polynomial(self.designed, turn(frequencies, self.rate))

    def overflow(self, any_input: bool = False) -> float:
        """How far past full scale a sum goes: for a full-scale tone of the worst frequency, or for the worst of all inputs. Up to 1 none saturates."""
        values = np.array(self.words) / Q15
        return float(np.abs(values).sum()) if any_input else partial_peak(values)

    def warnings(self) -> list[str]:
        """What saturates and for which inputs, and what a decimator lets through that is heard at another frequency."""
        found = told_overflow(self.overflow(), self.overflow(any_input=True))
        if self.factor and self.factor > 1:
            half = self.rate / self.factor / 2
            through = decibels(self.response(np.linspace(half, self.rate / 2, 512))).max() - float(decibels(self.response([0]))[0])
            if through > -40:
                found.append(f"from {half:g} Hz on, half of the new rate, tones are heard at other frequencies at up to {through:.0f} dB: take more coefficients (at most {MOST_TAPS}), a lower edge, or two decimators")
        return found

    def lines(self, first: int = 0, group: int = 0, channel: int = 0, share: bool = False) -> list[str]:
        """The lines of a script: the creation and the chain."""
        look_at_places(first, group, channel, 1)
        return [create(first, group, *self.creations[0]), chain(channel, [first])]


@dataclass(frozen=True)
class Tone:
    """A detector of one tone: k in Q15, frames of `frame` samples, samples divided by 2 to the `shift`."""

    asked: float
    k: int
    frame: int
    shift: int
    rate: float = DEFAULT_RATE

    @property
    def creations(self) -> tuple[Creation, ...]:
        """The kind and the words of each instance, in the order of a chain."""
        return (("tone", (self.k, self.frame, self.shift)),)

    @property
    def frequency(self) -> float:
        """The frequency in Hz that k stands for."""
        return math.acos(self.k / Q15) * self.rate / (2 * math.pi)

    @property
    def width(self) -> float:
        """About how many Hz from the frequency a tone is heard no more: the rate divided by the frame."""
        return self.rate / self.frame

    def level(self, peak: float, frequency: float | None = None) -> float:
        """The level of a tone of so high a peak (a sample), about, at its own or another frequency in Hz, where nothing saturates."""
        off = 2 * math.pi * ((self.frequency if frequency is None else frequency) - self.frequency) / self.rate
        lobe = 1.0 if abs(off) < 1e-12 else abs(math.sin(self.frame * off / 2) / (self.frame * math.sin(off / 2)))
        return (peak * self.frame * lobe / 2 ** (self.shift + 1)) ** 2 / Q15

    def overflow(self) -> float:
        """How far past 16 bits a value goes for a full-scale tone of the frequency: up to 1 none saturates."""
        w = math.acos(self.k / Q15)
        steps = np.arange(self.frame)
        response = np.sin((steps + 1) * w) / math.sin(w) if 0 < w < math.pi else (steps + 1.0)
        driven = [np.convolve(np.cos(w * steps + phase), response)[: self.frame] for phase in np.linspace(0, np.pi, 8, endpoint=False)]
        inner = max(max(float(np.abs(v).max()), float(np.abs(2 * math.cos(w) * v).max()), float(np.abs(v[2:] + v[:-2]).max(initial=0))) for v in driven)
        return max(inner, self.frame / 2) / 2**self.shift

    def warnings(self) -> list[str]:
        """What saturates, and how far k is from the tone."""
        found, over = [], self.overflow()
        if over > 1:
            found.append(f"{self.asked:g} Hz: a tone of a peak past {int(32767 / over)} saturates: a shift of {self.shift + math.ceil(math.log2(over))} is for all")
        if abs(self.frequency - self.asked) > self.width / 10:
            found.append(f"{self.asked:g} Hz: the nearest k is that of {self.frequency:.1f} Hz: take a lower rate, by a decimator before it")
        heard = next((peak for peak in range(1, 32768) if self.level(peak) >= 1), 32768)
        if heard > 1000:
            found.append(f"{self.asked:g} Hz: a tone of a peak below {heard} has level 0: a longer frame or a lesser shift hears it")
        return found


@dataclass(frozen=True)
class Tones:
    """Detectors of several tones, a channel each: the n-th pair of files has the same input for all."""

    detectors: tuple[Tone, ...]

    @property
    def creations(self) -> tuple[Creation, ...]:
        """The kind and the words of each instance, a channel each."""
        return tuple(it for one in self.detectors for it in one.creations)

    def warnings(self) -> list[str]:
        """What the detectors warn of, and whether their levels can be compared."""
        found = [text for one in self.detectors for text in one.warnings()]
        shifts = [one.shift for one in self.detectors]
        if len(set(shifts)) > 1:
            found.append(f"the shifts differ, and a level falls to a quarter for each bit: to compare these levels take one shift for all, {max(shifts)}")
        return found

    def lines(self, first: int = 0, group: int = 0, channel: int = 0, share: bool = True) -> list[str]:
        """The lines of a script: a creation and a chain for each tone. All are in one group, since they hear their frames by turns."""
        count = len(self.detectors)
        look_at_places(first, group, channel, count)
        if channel + count > CHANNELS:
            raise DesignError(f"a tone takes a channel, there are {CHANNELS}, and {count} from channel {channel} on are asked for")
        made = [create(first + at, group, *one) for at, one in enumerate(self.creations)]
        return made + [chain(channel + at, [first + at]) for at in range(count)]


class OneInstance:
    """What is one instance in a channel of its own."""

    @property
    def creations(self) -> tuple[Creation, ...]:
        """The kind and the words of the instance."""
        raise NotImplementedError

    def warnings(self) -> list[str]:
        """What is odd about it."""
        return []

    def lines(self, first: int = 0, group: int = 0, channel: int = 0, share: bool = False) -> list[str]:
        """The lines of a script: the creation and the chain."""
        look_at_places(first, group, channel, 1)
        return [create(first, group, *self.creations[0]), chain(channel, [first])]


@dataclass(frozen=True)
class Gain(OneInstance):
    """A gain: its factor in Q12. `asked` is the gain in dB that was asked for."""

    asked: float
    word: int

    @property
    def creations(self) -> tuple[Creation, ...]:
        """The kind and the word of the instance."""
        return (("gain", (self.word,)),)

    @property
    def decibels(self) -> float:
        """The gain in dB that the word has."""
        return float(decibels(self.word / Q12))


@dataclass(frozen=True)
class Level(OneInstance):
    """A meter of energy: frames of `frame` samples, each shifted to the right by `shift` bits."""

    frame: int
    shift: int

    @property
    def creations(self) -> tuple[Creation, ...]:
        """The kind and the words of the instance."""
        return (("level", (self.frame, self.shift)),)

    def rms(self, values: object) -> np.ndarray:
        """The root of the mean square of each frame, as floats in samples, by what the meter gave, about; of 32767, which saturates, at least that."""
        return np.sqrt(np.asarray(values, float) * Q15 / self.frame) * 2.0**self.shift


@dataclass(frozen=True)
class Digits(OneInstance):
    """A detector of dialled digits at 8,000 samples a second, with the rule by which frames are digits."""

    words: tuple[int, ...]
    frames_on: int
    frames_off: int

    @property
    def creations(self) -> tuple[Creation, ...]:
        """The kind and the words of the instance."""
        return (("dtmf", self.words),)

    def dialled(self, codes: Sequence[int] | np.ndarray) -> str:
        """The digits of a line, by all that the detector gave for it: a code for each frame, or -1.

        A digit counts once `frames_on` frames in a row have it, and may count again once `frames_off` haven't.
        """
        found: list[str] = []
        last, run, held, away = NO_DIGIT, 0, NO_DIGIT, 0
        for code in map(int, codes):
            run, last = (run + 1 if code == last else 1), code
            away = 0 if code == held else away + 1
            if away >= self.frames_off:
                held = NO_DIGIT
            if code not in (NO_DIGIT, held) and run >= self.frames_on:
                found.append(KEYS[code])
                held, away = code, 0
        return "".join(found)


@dataclass(frozen=True)
class Signal:
    """A tone or two with a cadence: `words` are k1 s1 k2 s2 on off count of a `signal`."""

    name: str
    words: tuple[int, ...]
    rate: float

    @property
    def frequencies(self) -> tuple[float, ...]:
        """The frequencies in Hz that the words have."""
        return tuple(math.acos(k / Q15) * self.rate / (2 * math.pi) for k, s in (self.words[0:2], self.words[2:4]) if s)

    @property
    def cycle(self) -> int:
        """The samples of a cycle, those that sound and those that don't."""
        return self.words[4] + self.words[5]


@dataclass(frozen=True)
class Signals:
    """Generators of named tones. One is an instance in a channel; several sound one after the other, each by the feeds of its cycle."""

    parts: tuple[Signal, ...]

    @property
    def creations(self) -> tuple[Creation, ...]:
        """The kind and the words of each instance: one for each name that is another."""
        return tuple(("signal", one.words) for one in dict.fromkeys(self.parts))

    def warnings(self) -> list[str]:
        """What saturates."""
        return [f"{one.name}: two tones of a peak past half of full scale saturate together" for one in dict.fromkeys(self.parts) if peak_of(one) > Q15]

    def lines(self, first: int = 0, group: int = 0, channel: int = 0, share: bool = True) -> list[str]:
        """The lines of a script. Of several tones the feeds are among them, so that the input, the clock, has to have so many samples: `samples`."""
        look_at_places(first, group, channel, len(self.creations))
        made = [create(first + at, group, *one) for at, one in enumerate(self.creations)]
        if len(self.parts) == 1:
            return [*made, chain(channel, [first])]
        places = {one: first + at for at, one in enumerate(dict.fromkeys(self.parts))}
        return made + [line for one in self.parts for line in sounded(one, places[one], channel)]

    @property
    def samples(self) -> int:
        """How many samples one cycle of each takes."""
        return sum(one.cycle for one in self.parts)


@dataclass(frozen=True)
class Echo(OneInstance):
    """A line echo canceller: `words` are N step share hold."""

    words: tuple[int, ...]
    rate: float

    @property
    def creations(self) -> tuple[Creation, ...]:
        """The kind and the words of the instance."""
        return (("echo", self.words),)

    @property
    def milliseconds(self) -> float:
        """How long an echo may come behind its sound."""
        return 1000 * self.words[0] / self.rate


@dataclass(frozen=True)
class Activity(OneInstance):
    """A detector of voice activity: `words` are N s margin rise least hang."""

    words: tuple[int, ...]
    rate: float

    @property
    def creations(self) -> tuple[Creation, ...]:
        """The kind and the words of the instance."""
        return (("activity", self.words),)

    @property
    def margin(self) -> float:
        """By how many dB a frame with speech exceeds the floor."""
        return 10 * math.log10(2.0 ** self.words[2])

    @property
    def rise(self) -> float:
        """By how many dB the floor rises in a second."""
        return rise_of(self.words[3]) * self.rate / self.words[0]

    @property
    def least(self) -> float:
        """The level of the least floor in dB of full scale, that of a square wave."""
        energy = max(self.words[4], 1) * 2.0 ** self.words[1] / (2 * self.words[0])
        return 10 * math.log10(energy / Q15**2)


def rise_of(bits: int) -> float:
    """By how many dB a floor rises in a frame that rises by 2^-bits of itself."""
    return 10 * math.log10(1 + 2.0**-bits)


def sounded(one: Signal, instance: int, channel: int) -> list[str]:
    """The lines that let a generator sound once, from its beginning."""
    whole, rest = divmod(one.cycle, MOST_FEED)
    feeds = [f"feed {channel} {MOST_FEED}"] * whole + ([f"feed {channel} {rest}"] if rest else [])
    return [f"control {instance} reset", chain(channel, [instance]), *feeds, f"unchain {channel}"]


def peak_of(one: Signal) -> float:
    """The peaks of a generator's tones together, in samples."""
    turns = [math.acos(k / Q15) for k in (one.words[0], one.words[2])]
    return sum(abs(s) / math.sin(turn) for s, turn in zip((one.words[1], one.words[3]), turns) if s)


def create(instance: int, group: int, kind: str, words: Sequence[int]) -> str:
    """The line that creates an instance."""
    return f"create {instance} {kind} {group} {' '.join(map(str, words))}"


def chain(channel: int, members: Sequence[int]) -> str:
    """The line that makes a channel of instances."""
    return f"chain {channel} {' '.join(map(str, members))}"


def told_overflow(tones: float, any_input: float) -> list[str]:
    """Sentences on what saturates."""
    found = []
    if tones > 1.0005:
        found.append(f"a tone of full scale saturates at its worst frequency: keep peaks below {int(32767 / tones)} ({-decibels(tones):.1f} dB), or scale for tones")
    if any_input > 1.0005:
        found.append(f"no input saturates whose peaks stay below {int(32767 / any_input)} ({-decibels(any_input):.1f} dB); louder ones of the worst shape do")
    return found


def polynomial(values: np.ndarray, w: np.ndarray) -> np.ndarray:
    """The sum of values[k] e^(-i w k)."""
    return np.polynomial.polynomial.polyval(np.exp(-1j * w), values)


def partial_peak(values: np.ndarray) -> float:
    """The greatest gain of a full-scale tone in a sum of the first coefficients, over all frequencies and all ends of the sum."""
    terms = values[:, None] * np.exp(-1j * np.outer(np.arange(len(values)), GRID))
    return float(np.abs(np.cumsum(terms, axis=0)).max())


def sums_of_tones(before: np.ndarray, section: np.ndarray) -> list[float]:
    """For each sum its gain for a full-scale tone of the worst frequency, over its limit. `before` are the sections that come first."""
    signal = scipy_signal()
    ahead = np.abs(signal.sosfreqz(before, GRID)[1]) if len(before) else np.ones(len(GRID))
    return [float((ahead * np.abs(signal.freqz(top, bottom, GRID)[1])).max()) / limit for top, bottom, limit in partial_sums(section)]


def sums_of_any(before: np.ndarray, section: np.ndarray) -> list[float]:
    """For each sum the sum of the magnitudes of its impulse response, over its limit: what the worst of all inputs makes of it."""
    signal = scipy_signal()
    poles = [abs(it) for one in (*before, section) for it in np.roots(one[3:])]
    slowest = min(max(poles, default=0.0), 1 - 1e-9)
    length = min(LONGEST_RESPONSE, 64 + int(-40 / math.log(slowest)) if slowest > 0 else 64)
    pulse = np.zeros(length)
    pulse[0] = 1.0
    come = signal.sosfilt(before, pulse) if len(before) else pulse
    return [float(np.abs(signal.lfilter(top, bottom, come)).sum()) / limit for top, bottom, limit in partial_sums(section)]


def partial_sums(section: np.ndarray) -> list[tuple[np.ndarray, np.ndarray, float]]:
    """The sums within a section as numerator, denominator and limit: behind b0, b1, b2 and a1, and the output."""
    b, a = section[:3], section[3:]
    # Behind a1 the sum is (b(z) a(z) - a1 z^-1 b(z)) / a(z): all but the last term, a2 y2.
    behind_a1 = np.convolve(b, a) - np.convolve(np.array([0.0, a[1], 0.0]), b)
    return [(b[:1], np.array([1.0]), 2.0), (b[:2], np.array([1.0]), 2.0), (b, np.array([1.0]), 2.0), (behind_a1, a, 2.0), (b, a, 1.0)]


def round_section(section: np.ndarray, gain: float) -> Section:
    """A section's five words with its numerator times a gain. Raises DesignError where one doesn't fit, NotStable where its poles leave the circle."""
    words: list[int] = [round(float(it) * gain * Q14) for it in section[:3]] + [round(float(it) * Q14) for it in section[4:]]
    if not all(-32768 <= it <= 32767 for it in words):
        raise DesignError(f"the words {words} don't fit Q14, -32768 to 32767: take a lower order or another edge")
    if max(abs(it) for it in words[:3]) < LEAST_WORD:
        raise DesignError(
            f"the words {words[:3]} of a numerator are too small to be rounded: the edge is too low for this rate: take a lower order, or a decimator first"
        )
    if float(np.abs(np.roots([Q14, *words[3:]])).max()) >= 1:
        raise NotStable(f"a section isn't stable once it is rounded to Q14 (a1 = {words[3]}, a2 = {words[4]}): take a lower order, a wider band or a lower rate")
    b0, b1, b2, a1, a2 = words
    return b0, b1, b2, a1, a2


def value_of(words: Sequence[int]) -> np.ndarray:
    """A section's values, of shape (6,), from its five words."""
    return np.array([it / Q14 for it in (*words[:3], Q14, *words[3:])])


def scaled(section: np.ndarray, before: np.ndarray, scale: str, wanted: float = 1.0) -> Section:
    """A section's words with the greatest gain, at most `wanted`, for which they fit and nothing saturates that `scale` names."""
    gain = wanted * min(1.0, 32767 / Q14 / max(np.abs(section[:3]).max() * wanted, 1e-12))
    for _ in range(100):
        words = round_section(section, gain)
        if scale == "words":
            return words
        over = max((sums_of_any if scale == "any" else sums_of_tones)(before, value_of(words)))
        if over <= 1:
            return words
        gain *= min(1 / over, 0.9999)
    raise DesignError("no scale of a section was found for which nothing saturates: take a lower order")


def in_order(sections: np.ndarray, order: Sequence[int], scale: str) -> list[Section]:
    """The words of sections in an order, each scaled behind those before it. The gain that one gives up, a later one may make good."""
    words: list[Section] = []
    owed = 1.0
    for at in order:
        section = sections[at]
        before = np.array([value_of(it) for it in words]).reshape(-1, 6)
        peak = np.abs(scipy_signal().sosfreqz(section[None], GRID)[1]).max()
        wanted = owed * (1.0 if scale == "words" else max(1.0, 1 / peak))
        words.append(scaled(section, before, scale, wanted))
        largest = int(np.argmax(np.abs(section[:3])))
        owed *= section[largest] / (words[-1][largest] / Q14)
    return words


def biquads(sos: np.ndarray, rate: float = DEFAULT_RATE, scale: str = "tones") -> Biquads:
    """Sections of scipy, shape (sections, 6), as words of Q14. Up to four sections are put into the order that keeps the most gain.

    Raises DesignError where no words fit, and NotStable where a rounded section isn't stable.
    """
    look_at_scale(scale)
    sections = np.atleast_2d(np.asarray(sos, dtype=float))
    if sections.ndim != 2 or sections.shape[1] != 6 or not np.isfinite(sections).all() or (sections[:, 3] == 0).any():
        raise DesignError(f"sections have shape (sections, 6), as scipy's output='sos' gives them, and these have {sections.shape}")
    sections = sections / sections[:, 3:4]
    orders = list(itertools.permutations(range(len(sections)))) if 1 < len(sections) <= 4 else [tuple(range(len(sections)))]
    made = [Biquads(tuple(in_order(sections, order, scale)), sections, rate) for order in orders]
    # Of equal gains the first order is kept, scipy's own.
    return max(made, key=lambda it: round(float(np.abs(scipy_signal().sosfreqz(it.sections, GRID)[1]).max()), 3))


def band_of(kind: str, edges: Sequence[float], order: int, rate: float, ripple: float | None, scale: str) -> Biquads:
    """A Butterworth filter, or a Chebyshev one with so many dB of ripple."""
    look_at_edges(edges, rate)
    if order < 1:
        raise DesignError(f"an order is 1 or more, and {order} is asked for")
    if ripple is not None and not 0 < ripple <= 20:
        raise DesignError(f"a ripple is between 0 and 20 dB, and {ripple:g} is asked for")
    signal, where = scipy_signal(), list(edges) if len(edges) > 1 else edges[0]
    if ripple is None:
        return biquads(signal.butter(order, where, kind, fs=rate, output="sos"), rate, scale)
    return biquads(signal.cheby1(order, ripple, where, kind, fs=rate, output="sos"), rate, scale)


def low(edge: float, order: int = 4, rate: float = DEFAULT_RATE, ripple: float | None = None, scale: str = "tones") -> Biquads:
    """A low pass up to `edge` Hz: Butterworth, or Chebyshev of type I with `ripple` dB."""
    return band_of("lowpass", [edge], order, rate, ripple, scale)


def high(edge: float, order: int = 4, rate: float = DEFAULT_RATE, ripple: float | None = None, scale: str = "tones") -> Biquads:
    """A high pass from `edge` Hz on."""
    return band_of("highpass", [edge], order, rate, ripple, scale)


def band(lowest: float, highest: float, order: int = 3, rate: float = DEFAULT_RATE, ripple: float | None = None, scale: str = "tones") -> Biquads:
    """A band pass from `lowest` to `highest` Hz, of `order` sections."""
    return band_of("bandpass", [lowest, highest], order, rate, ripple, scale)


def bandpass(lowest: float, highest: float, order: int = 1, rate: float = DEFAULT_RATE, ripple: float | None = None, scale: str = "tones") -> Biquads:
    """A band pass as `band` gives it, of one section where nothing is said, which one biquad takes: 6 dB an octave at each edge."""
    return band(lowest, highest, order, rate, ripple, scale)


def notch(frequency: float, width: float = 10.0, rate: float = DEFAULT_RATE, scale: str = "tones") -> Biquads:
    """One section that takes out a frequency: at half of `width` Hz beside it the gain is 3 dB less.

    A rounded b1 moves the zeros, so of the numerators within 1 dB the one is taken whose zeros lie nearest to the frequency.
    """
    look_at_edges([frequency], rate)
    look_at_scale(scale)
    if not 0 < width < rate / 2:
        raise DesignError(f"a width lies between 0 and {rate / 2:g} Hz, and {width:g} is asked for")
    b, a = scipy_signal().iirnotch(frequency, frequency / width, fs=rate)
    section = np.concatenate([b, a])
    most = abs(scaled(section, np.empty((0, 6)), scale)[0])
    cosine = 2 * math.cos(2 * math.pi * frequency / rate)
    a1, a2 = (round(float(it) * Q14) for it in a[1:])
    found: list[tuple[float, int, Section]] = []
    for first in range(max(1, int(most * 0.891)), most + 1):
        middle = round(cosine * first)
        if abs(middle) <= 32767:
            found.append((abs(middle / first - cosine), -first, (first, -middle, first, a1, a2)))
    if not found:
        raise DesignError(f"no words of Q14 have their zeros at {frequency:g} Hz")
    for _, _, words in sorted(found):
        over = 0.0 if scale == "words" else max((sums_of_any if scale == "any" else sums_of_tones)(np.empty((0, 6)), value_of(words)))
        if over <= 1:
            return Biquads((words,), section[None], rate)
    raise DesignError(f"no notch at {frequency:g} Hz was found for which nothing saturates")


def rounded_taps(values: np.ndarray, scale: str) -> tuple[int, ...]:
    """Coefficients as words of Q15, scaled so that they fit and nothing saturates that `scale` names."""
    look_at_scale(scale)
    if not 1 <= len(values) <= MOST_TAPS:
        raise DesignError(f"there are 1 to {MOST_TAPS} coefficients, and {len(values)} are asked for")
    gain = min(1.0, 32767 / Q15 / max(float(np.abs(values).max()), 1e-12))
    for _ in range(100):
        words = np.round(values * gain * Q15)
        exact = words / Q15
        over = 0.0 if scale == "words" else float(np.abs(exact).sum()) if scale == "any" else partial_peak(exact)
        if over <= 1 and np.abs(words).max() <= 32767:
            return tuple(int(it) for it in words)
        gain *= min(1 / max(over, 1.0), 0.9999)
    raise DesignError("no scale of the coefficients was found for which nothing saturates")


def fir(kind: str, edges: Sequence[float], taps: int = 63, rate: float = DEFAULT_RATE, scale: str = "tones") -> Fir:
    """A FIR of linear phase by a Hamming window: `kind` is `low`, `high` or `band`, `edges` are one or two frequencies in Hz where the gain is 6 dB less."""
    kinds = {"low": ("lowpass", 1), "high": ("highpass", 1), "band": ("bandpass", 2)}
    if kind not in kinds or len(edges) != kinds[kind][1]:
        raise DesignError("a FIR is low EDGE, high EDGE or band LOW HIGH")
    look_at_edges(edges, rate)
    if not 1 <= taps <= MOST_TAPS:
        raise DesignError(f"there are 1 to {MOST_TAPS} coefficients, and {taps} are asked for")
    if kind == "high" and taps % 2 == 0:
        raise DesignError(f"a high pass has an odd number of coefficients: take {taps - 1}")
    values = scipy_signal().firwin(taps, list(edges), pass_zero=kinds[kind][0], fs=rate)
    return Fir(rounded_taps(values, scale), values, rate)


def taps(values: Sequence[float] | np.ndarray, rate: float = DEFAULT_RATE, scale: str = "tones") -> Fir:
    """Coefficients of your own, as scipy.signal.remez, firls or firwin give them, that of the newest sample first, as words of Q15."""
    given = np.asarray(values, dtype=float)
    if given.ndim != 1 or not np.isfinite(given).all():
        raise DesignError(f"coefficients have shape (coefficients,), and these have {given.shape}")
    return Fir(rounded_taps(given, scale), given, rate)


def numbers_of(path: str, columns: int) -> np.ndarray:
    """The numbers of a file, shape (rows, columns): `.npy` as numpy.save writes it, else text, a row a line, with spaces or commas between; - is the
    standard input. With one column the numbers of one row are taken too. Raises CantRead."""
    try:
        if path.endswith(".npy"):
            given = np.load(path, allow_pickle=False)
        else:
            text = sys.stdin.read() if path == "-" else Path(path).read_text(encoding="utf-8", errors="replace")
            rows = [line.partition("#")[0].replace(",", " ").split() for line in text.splitlines()]
            given = np.array([[float(word) for word in row] for row in rows if row])
    except OSError as why:
        raise CantRead(f"{path}: {why.strerror}") from None
    except ValueError as why:
        raise CantRead(f"{path}: {why}: a row is numbers with spaces or commas between them, as many in each") from None
    given = np.atleast_1d(np.squeeze(np.asarray(given, dtype=float))) if columns == 1 else np.atleast_2d(given)
    if given.size == 0 or (given.ndim != 1 if columns == 1 else given.ndim != 2 or given.shape[1] != columns):
        raise CantRead(f"{path} has numbers of shape {given.shape}, and {'a row or a column of them' if columns == 1 else f'rows of {columns}'} is needed")
    return given


def decim(factor: int, taps: int = 64, edge: float | None = None, rate: float = DEFAULT_RATE, scale: str = "tones") -> Fir:
    """A decimator by `factor` with its low pass. `edge`, in Hz, is 0.4 of the new rate where nothing is said."""
    if not 1 <= factor <= 16:
        raise DesignError(f"a decimator is by 1 to 16, and {factor} is asked for")
    where = 0.4 * rate / factor if edge is None else edge
    made = fir("low", [where], taps, rate, scale)
    return Fir(made.words, made.designed, rate, factor)


def tones(frequencies: Sequence[float], frame: int = 205, shift: int | None = None, rate: float = DEFAULT_RATE) -> Tones:
    """Detectors of tones at frequencies in Hz, by frames of `frame` samples, 1 to 1,024.

    All have one shift, so that their levels can be compared: the least, where none is named, for which no tone of full scale at any of these
    frequencies saturates.
    """
    for frequency in frequencies:
        look_at_edges([frequency], rate)
    if not frequencies:
        raise DesignError("no frequency is named")
    if not 1 <= frame <= 1024 or shift is not None and not 0 <= shift <= 15:
        raise DesignError(f"a frame has 1 to 1024 samples and a shift is 0 to 15, and {frame} and {shift} are asked for")
    words = [(frequency, min(32767, round(Q15 * math.cos(2 * math.pi * frequency / rate)))) for frequency in frequencies]
    for tried in [shift] if shift is not None else range(16):
        made = Tones(tuple(Tone(frequency, k, frame, tried, rate) for frequency, k in words))
        if shift is not None or all(one.overflow() <= 1 for one in made.detectors):
            break
    return made


def gain(asked: float) -> Gain:
    """A gain of so many dB, up to 18.06, which is just below 8. Raises DesignError beyond that, and where the factor is rounded to 0."""
    value = 10 ** (asked / 20) * Q12
    if not 0.5 <= value < 32767.5:
        raise DesignError(f"a factor in Q12 is up to just below 8, 18.06 dB, and at least 1 / 4096, -72 dB: {asked:g} dB isn't")
    return Gain(asked, round(value))


def level(frame: int = 160, shift: int | None = None) -> Level:
    """A meter of the energy of frames of 1 to 1,024 samples. Where no `shift` is named it has the least for which no frame saturates."""
    # A frame of -32768 alone has an energy of 2 N 4^(15 - shift), which stays below 2^31 where N is below 4^shift.
    chosen = (frame.bit_length() + 1) // 2 if shift is None else shift
    if not 1 <= frame <= 1024 or not 0 <= chosen <= 15:
        raise DesignError(f"a frame has 1 to 1024 samples and a shift is 0 to 15, and {frame} and {chosen} are asked for")
    return Level(frame, chosen)


def dtmf(recommended: str = "a") -> Digits:
    """A detector of dialled digits by one of two sets of words, for 8,000 samples a second: `host.create("dtmf", params=design.dtmf())`.

    `a`, frames of 102 samples of which two in a row have a digit, finds tokens of 40 ms; `b`, frames of 92 of which three have, lets none of 23 ms be one.
    """
    if recommended not in DTMF_SETS:
        raise DesignError(f"the words of a detector of digits are {' or '.join(DTMF_SETS)}, and not {recommended}")
    words, frames_on = DTMF_SETS[recommended]
    return Digits(words, frames_on, FRAMES_OFF)


def signal(names: str | Sequence[str], level: float = -10.0, rate: float = DEFAULT_RATE, on: float | None = None, off: float | None = None) -> Signals:
    """Generators of tones by their names: keys of a telephone (`"5"`, or several as `"0123"`), or one of PROGRESS_TONES (`"us-busy"`).

    Each tone has a peak of `level` dB of full scale. `on` and `off`, in seconds, are those of the name unless given. A key sounds once, a call progress tone
    without an end: `host.create("signal", params=design.signal("us-dial"))`. Raises DesignError.
    """
    given = [names] if isinstance(names, str) and names.lower() in PROGRESS_TONES else list(names)
    if not given:
        raise DesignError("no tone is named")
    return Signals(tuple(one_signal(name, level, rate, on, off) for name in given))


def one_signal(name: str, level: float, rate: float, on: float | None, off: float | None) -> Signal:
    """The tone of one name."""
    key = KEYS.find(name.upper()) if len(name) == 1 else -1
    if key < 0 and name.lower() not in PROGRESS_TONES:
        raise DesignError(f"a tone is a key of {KEYS}, or {', '.join(PROGRESS_TONES)}, and not {name}")
    where, times = ((ROWS[key // 4], COLUMNS[key % 4]), KEY_SECONDS) if key >= 0 else PROGRESS_TONES[name.lower()]
    peak = 10 ** (level / 20) * Q15
    if not 1 <= peak <= 32767:
        raise DesignError(f"a tone has a peak of -90 to 0 dB of full scale, and {level:g} is asked for")
    words = [word for frequency in (*where, *(None,) * (2 - len(where))) for word in tone_words(frequency, peak, rate)]
    if times is None and on is None and off is None:
        return Signal(name, (*words, seamless(words, rate), 0, 0), rate)
    return Signal(name, (*words, *cadence(name, times or (1.0, 0.0), rate, on, off), 1 if key >= 0 else 0), rate)


def tone_words(frequency: float | None, peak: float, rate: float) -> tuple[int, int]:
    """Twice the cosine of the angle by which a tone turns in a sample, in Q14, and its second sample; 0 0 for no tone."""
    if frequency is None:
        return 0, 0
    look_at_edges([frequency], rate)
    k = min(32767, round(Q15 * math.cos(2 * math.pi * frequency / rate)))
    return k, round(peak * math.sin(math.acos(k / Q15)))


def seamless(words: Sequence[int], rate: float) -> int:
    """The samples of a cycle that is nearest to whole turns of its tones, so that the next one goes on where it ends."""
    counts = np.arange(MOST_CYCLE // 2, MOST_CYCLE + 1)
    turns = [math.acos(k / Q15) / (2 * math.pi) * counts for k, s in (words[0:2], words[2:4]) if s]
    return int(counts[np.argmin(sum(np.abs(it - np.round(it)) for it in turns))])


def cadence(name: str, times: tuple[float, float], rate: float, on: float | None, off: float | None) -> tuple[int, int]:
    """The samples on and off."""
    seconds = [own if asked is None else asked for asked, own in zip((on, off), times)]
    samples = [round(rate * it) for it in seconds]
    if min(samples) < 0 or samples[0] < 1 or sum(samples) > MOST_CYCLE:
        raise DesignError(f"{name}: a cycle has 1 to {MOST_CYCLE} samples, {MOST_CYCLE / rate:.2f} s, of which one sounds, and {seconds[0]:g} s on and {seconds[1]:g} s off are asked for")
    return samples[0], samples[1]


def echo(milliseconds: float = 16.0, step: float = 0.25, share: float = 0.5, hold: float = 30.0, rate: float = DEFAULT_RATE) -> Echo:
    """A line echo canceller for echoes that come up to so many milliseconds behind their sound: 32 at 8,000 samples a second.

    It learns by steps of `step`, and not while the near end is louder than `share` of what the far end was of late, nor for `hold` milliseconds after that.
    Raises DesignError.
    """
    taps, held = round(milliseconds * rate / 1000), round(hold * rate / 1000)
    if not 1 <= taps <= MOST_ECHO:
        raise DesignError(f"an echo canceller has 1 to {MOST_ECHO} coefficients, {1000 * MOST_ECHO / rate:g} ms, and {milliseconds:g} ms are {taps}")
    if not (0 <= step < 1 and 0 <= share < 1 and 0 <= held <= 32767):
        raise DesignError(f"a step and a share are 0 to just below 1, a hold is 0 to {32767000 / rate:g} ms, and {step:g}, {share:g} and {hold:g} are asked for")
    return Echo((taps, min(32767, round(step * Q15)), min(32767, round(share * Q15)), held), rate)


def activity(frame: float = 10.0, margin: float = 9.0, rise: float = 3.0, least: float = -70.0, hang: float = 150.0, rate: float = DEFAULT_RATE) -> Activity:
    """A detector of voice activity over frames of so many milliseconds.

    A frame has speech where its level is `margin` dB above the floor, or more, and so have the frames of `hang` milliseconds behind it. The floor follows the
    quietest frames: it rises by about `rise` dB a second, and is at least `least` dB of full scale. Margin and rise are rounded to powers of two. No frame
    saturates. Raises DesignError.
    """
    samples = round(frame * rate / 1000)
    if not 1 <= samples <= 1024:
        raise DesignError(f"a frame has 1 to 1024 samples, {1024000 / rate:g} ms, and {frame:g} ms are {samples}")
    bits, shift, held = round(margin / (10 * math.log10(2))), (samples - 1).bit_length(), round(hang / frame)
    floor = round(2 * samples * 10 ** (least / 10) * Q15**2 / 2**shift)
    if not (0 <= bits <= 15 and 0 < rise and 0 <= floor <= 32767 and 0 <= held <= 32767):
        raise DesignError(f"a margin is 0 to 46 dB, a rise above 0, a least floor up to -48 dB, and {margin:g}, {rise:g}, {least:g} and a hangover of {hang:g} ms are asked for")
    rises = min(range(16), key=lambda it: abs(rise_of(it) * rate / samples - rise))
    return Activity((samples, shift, bits, rises, floor, held), rate)
