# SPDX-License-Identifier: Apache-2.0
"""A host of signal algorithms in the process: instances of twelve algorithms in three memory spaces, fed with arrays of int16.

    with rokdaum.Host(daram=4096) as host:
        half = host.create("fir", params=[16384])
        line = host.chain(half)
        out = line.feed(samples)

The C library does the work, and what is proved is said in docs/C.md: this module turns arrays into its pointers, and its codes into exceptions.
"""

from __future__ import annotations

import ctypes
import operator
import threading
import weakref
from collections.abc import Iterable, Iterator, Mapping
from contextlib import contextmanager
from ctypes import c_int, c_int16, c_int32, c_size_t, c_uint8, c_uint32, c_uint64
from dataclasses import dataclass, field
from typing import TYPE_CHECKING, Any, BinaryIO, NamedTuple, Protocol

import numpy as np

from . import library
from .errors import REFUSALS, BadKind, BadSize, BadSpace, FloatsRefused, Missing, NotOpen, OutOfRange, Params, Range, Refused, Room, Taken, WrongThread
from .explain import DIVISOR_AT, PAIRS, PARAMETERS, SET_TAKES
from .library import CHANNELS, GROUPS, INSTANCES, KINDS, MAP_BLOCKS, PARAMETER_WORDS, SPACE_WORDS, SPACES
from .maps import Block, History, Map, Moment
from .samples import as_words

if TYPE_CHECKING:
    from matplotlib.axes import Axes

# The samples of a block of a stream, where nothing is said.
BLOCK = 1024
Q_OF_KIND = {
    "fir": "a coefficient of Q15 is round(32768 * value)",
    "decim": "a coefficient of Q15 is round(32768 * value)",
    "biquad": "a word of Q14 is round(16384 * value)",
    "tone": "k is round(32768 * cos(2 * pi * frequency / rate)), at most 32767",
    "g711": "the law is 0 (A) or 1 (mu), the direction 0 (encodes) or 1 (decodes)",
    "gain": "a factor of Q12 is round(4096 * value)",
    "level": "a frame is 1 to 1,024 samples, a shift 0 to 15 bits",
    "dtmf": "rokdaum.design.dtmf() has the recommended words",
    "echo": "the step and the share are words of Q15: round(32768 * value)",
    "adpcm": "the kbit/s are 16, 24, 32 or 40, the direction 0 (encodes) or 1 (decodes)",
    "signal": "k is round(32768 * cos(a)) and s round(32768 * amplitude * sin(a)), a = 2 * pi * frequency / rate",
    "activity": "a frame is 1 to 1,024 samples, the shift, the margin and the rise are 0 to 15 bits",
}


class Design(Protocol):
    """What `rokdaum.design` makes: the kind and the words of each instance that it takes."""

    @property
    def creations(self) -> tuple[tuple[str, tuple[int, ...]], ...]:
        """The kind and the words of each instance, in the order of a chain."""
        ...


class Stat(NamedTuple):
    """A scratch group: the number of its active instance, None where there is none, and how often one was activated."""

    active: int | None
    activations: int


@dataclass(frozen=True)
class SpaceMap(Map):
    """The blocks of a memory space, as they stood when it was asked for.

    `words` is the size of the space, `blocks` are named tuples of owner, place and size in the order of places, and `active` has the number of the
    active instance of each group that has a block here, None where there is none. Places and sizes are in words of 16 bits.
    """

    space: str
    active: Mapping[int, int | None]

    def plot(self, axes: Axes | None = None) -> Axes:
        """Draws the blocks on `axes`, or on axes of its own: words upwards, white is free, scratch memory is hatched. Needs matplotlib."""
        from . import plot

        history = History({self.space: self.words}, [Moment(0, "", {self.space: self}, self.active)])
        drawn = plot.memory(history, self.space, axes)
        drawn.set(xlabel="", xticks=[])
        return drawn


@dataclass(frozen=True, eq=False)
class Instance:
    """An instance of an algorithm, which `Host.create` makes. It lives until it is deleted or its host is closed.

    `number` is 0 to 63, `kind` the name of the algorithm, and `group` its scratch group, 0 to 7. Once it doesn't live, each call raises Missing,
    also where another instance has its number.
    """

    host: Host = field(repr=False)
    number: int
    kind: str
    group: int

    def set(self, words: Iterable[int] | Design) -> None:
        """Puts parameters into force: the coefficients of a FIR, as many as there are, the five words of a biquad, k of a tone, or the factor of a gain.

        Past samples, past outputs and frames stay. Raises Command where the algorithm doesn't take them, Range where a word isn't 16 bits,
        BadLength for more than 72 words, FloatsRefused for floats, and Missing.
        """
        given = words_of(self.kind, words)
        self.host._own(self)
        hint = f"a {self.kind} takes {SET_TAKES.get(self.kind, 'no set')}"
        self.host._do(f"set {len(given)} words of instance {self.number}", "set", self.number, given, len(given), hint=hint)

    def reset(self) -> None:
        """Makes it forget its past samples and outputs; a frame, or the count of a decimator, begins anew. Raises Missing."""
        self.host._own(self)
        self.host._do(f"reset instance {self.number}", "reset", self.number)

    def get(self) -> np.ndarray:
        """What it tells of itself, as int16 of shape (words,). Raises Missing.

        The coefficients of a FIR or a biquad, the factor of a gain; the samples since a decimator's last output; the samples in the frame of a tone, a
        meter, a detector of digits or of voice activity; the law and the direction of G.711; the samples of an echo canceller's pair; the parameters of G.726 or a generator.
        """
        words, count = (c_int16 * PARAMETER_WORDS)(), c_uint32()
        self.host._own(self)
        self.host._do(f"get of instance {self.number}", "get", self.number, words, PARAMETER_WORDS, count)
        return np.array(words[: count.value], np.int16)

    def delete(self) -> None:
        """Ends it and frees its memory, but for tables that others share. Raises Busy while it is a member of a channel, and Missing."""
        self.host._own(self)
        self.host._do(f"delete instance {self.number}", "delete", self.number, hint="unchain its line first")
        del self.host._living[self.number]


@dataclass(frozen=True, eq=False)
class Line:
    """A channel with its members, which `Host.chain` makes: samples go through the members in order.

    It lasts until it is unchained or its host is closed; then each call raises Missing.
    """

    host: Host = field(repr=False)
    channel: int
    members: tuple[Instance, ...]

    def feed(self, samples: object) -> np.ndarray:
        """Passes samples through the members, and returns what the last one gives.

        `samples` has shape (samples,) and any length; whole numbers of any type, -32768 to 32767, each 1 / 32768 of full scale. The answer is int16 of
        shape (given,): one for each sample, behind a decimator by M one for M, behind an echo one for two, behind a tone, a level, a dtmf or an activity one for each frame. G.711 takes and gives codes,
        0 to 255, as numbers. What a member has heard stays, so the cut of a signal into calls doesn't show in what is given.

        Raises FloatsRefused for floats, OutOfRange for another shape or for numbers that don't fit, and Missing; nothing was fed then.
        """
        given = np.ascontiguousarray(as_words(samples), np.int16)
        out, count = np.empty(len(given), np.int16), c_size_t()
        self.host._own(self)
        where = (given.ctypes.data_as(library.WORDS), len(given), out.ctypes.data_as(library.WORDS), len(out))
        self.host._do(f"feed {len(given)} samples to channel {self.channel}", "feed_all", self.channel, *where, count)
        return out if count.value == len(out) else out[: count.value].copy()

    def stream(self, source: Iterable[object] | BinaryIO, block: int = BLOCK) -> Iterator[np.ndarray]:
        """Passes a stream through the members, block by block: what each block gives, as `feed` has it, as soon as it is there.

        `source` is blocks of samples, or an open file of 16-bit words, low byte first, of which so many samples are read at a time till its end; an odd
        last byte is no sample. Raises what `feed` raises, and OutOfRange for a block of less than a sample.
        """
        if block < 1:
            raise OutOfRange(f"a block has a sample or more, and {block} are asked for")
        for given in words_of_file(source, block) if hasattr(source, "read") else source:
            yield self.feed(given)

    def unchain(self) -> None:
        """Takes the members from the channel. They live on, with all that they have heard. Raises Missing."""
        self.host._own(self)
        self.host._do(f"unchain channel {self.channel}", "unchain", self.channel)
        del self.host._lines[self.channel]


class Host:
    """A host without instances, until it is closed: `with Host() as host`, or `close()`.

    `daram`, `saram` and `external` are the sizes of its memory spaces in words of 16 bits, 0 to 65,536, a multiple of 4. `channels` is how many
    lines there may be, 1 to 16. Where `poison` is a word (-32768 to 32767, or 0 to 65,535), it fills each new block, and a group's scratch memory
    whenever an instance was deactivated; no output depends on it.

    Each call is refused by an exception of `rokdaum.errors`, and the host is then as it was. A host takes one call at a time, from any thread, and
    a call that comes while another thread's is under way gets WrongThread: threads that share a host order their calls, by a lock for instance.
    Different hosts run at the same time.

    Raises BadSize, Range for a poison that is no word, NoMemory, and LibraryMissing where there is no C library.
    """

    def __init__(self, daram: int = SPACE_WORDS, saram: int = SPACE_WORDS, external: int = SPACE_WORDS, channels: int = CHANNELS, poison: int | None = None) -> None:
        options = options_of(dict(zip(SPACES, (daram, saram, external))), channels, poison)
        self.sizes: Mapping[str, int] = {space: getattr(options, space) for space in SPACES}
        self.channels: int = options.channels
        self._living: dict[int, Instance] = {}
        self._lines: dict[int, Line] = {}
        self._call = threading.Lock()  # held while a call is under way
        self._library, self._handle = library.load(), library.Handle()
        self._do("open a host", "open", options)
        # A host that nobody holds any more is closed by whoever finds that: no call of it can be under way then.
        self._close = weakref.finalize(self, self._library.rokdaum_close, self._handle)

    def __enter__(self) -> Host:
        return self

    def __exit__(self, *_: object) -> None:
        self.close()

    def close(self) -> None:
        """Deletes every instance and frees all memory. Each later call but this one raises NotOpen. Raises WrongThread."""
        with self._alone():
            self._close()
        self._living.clear()
        self._lines.clear()

    # ---- Instances ----

    def create(self, kind: str, group: int = 0, params: Iterable[int] | Design = (), number: int | None = None) -> Instance:
        """Creates an instance of an algorithm in a scratch group, under `number`, 0 to 63, or under the least that is free.

        `kind` and what its `params` are, as words of 16 bits, or a design of `rokdaum.design` that is of one instance:

        - `fir`: 1 to 64 coefficients in Q15, that of the newest sample first
        - `decim`: the factor, 1 to 16, then 1 to 64 coefficients in Q15
        - `biquad`: b0 b1 b2 a1 a2 in Q14
        - `tone`: k in Q15, the frame in samples, 1 to 1,024, and the shift, 0 to 15
        - `g711`: the law (0 A, 1 mu), then 0 to encode or 1 to decode
        - `gain`: the factor in Q12
        - `level`: the frame in samples, 1 to 1,024, and the shift, 0 to 15
        - `dtmf`: seven words, of which `rokdaum.design.dtmf()` has two sets
        - `echo`: 1 to 256 coefficients, the step and the share in Q15, and for how many pairs it then doesn't learn; it takes pairs, the far end's sample first
        - `adpcm`: 16, 24, 32 or 40 kbit/s, then 0 to encode or 1 to decode
        - `signal`: k1 s1 k2 s2 of two tones, the samples on and off, and the number of cycles, 0 without end
        - `activity`: the frame in samples, 1 to 1,024, the shift, the margin and the rise, 0 to 15 each, the least floor, and the frames of the hangover

        Raises Room, with the space that is full, Params, Taken where the number lives or none is free, Range for a number, a group or a word that
        is too large, BadLength for more than 72 words, BadKind, and FloatsRefused for floats.
        """
        if kind not in KINDS:
            raise BadKind(f"a kind is one of {', '.join(KINDS)}, and not {kind}")
        words, full = words_of(kind, params), c_int()
        chosen = least_free(self._living, INSTANCES, "instances") if number is None else octet(number, "an instance", INSTANCES)
        lot = octet(group, "a group", GROUPS)
        what = f"create {chosen}, a {kind} in group {lot}"
        code = self._code("create", chosen, KINDS.index(kind), lot, words, len(words), full)
        if code == Room.code:
            space = SPACES[full.value]
            shown = self.map(space)
            raise Room(f"{what}: {space} has no room: {shown.used} of {shown.words} words are used, the largest free range has {shown.largest_hole}", space)
        self._refuse(code, what, f"a {kind} takes {PARAMETERS[kind]}" if code == Params.code else "")
        made = self._living[chosen] = Instance(self, chosen, kind, lot)
        return made

    def create_all(self, design: Design, group: int = 0, share: bool = False) -> tuple[Instance, ...]:
        """Creates the instances of a design, such as the sections of a band, in the order of a chain: `host.chain(*host.create_all(band))`.

        They are in groups from `group` on, one each, or all in `group` where `share` is set: less memory, and a copy of state at each turn. Raises what
        `create` raises, and none of them lives then.
        """
        made: list[Instance] = []
        try:
            for at, (kind, words) in enumerate(design.creations):
                made.append(self.create(kind, group if share else group + at, words))
        except BaseException:
            for one in made:
                one.delete()
            raise
        return tuple(made)

    def instance(self, number: int) -> Instance:
        """The instance that lives under a number. Raises Range from 64 on, and Missing."""
        self._look_open()
        if octet(number, "an instance", INSTANCES) not in self._living:
            raise Missing(f"instance {number} doesn't live")
        return self._living[number]

    @property
    def instances(self) -> tuple[Instance, ...]:
        """The instances that live, in ascending number."""
        return tuple(self._living[number] for number in sorted(self._living))

    # ---- Channels ----

    def chain(self, *members: Instance | int, channel: int | None = None) -> Line:
        """Lets `channel`, or the least that is free, go through 1 to 8 instances in this order. The number of an instance may stand for it.

        Raises Taken where the channel has members or none is free, Missing for an instance that doesn't live, Busy for one that is in a channel or
        named twice, Range for a channel or a number that is too large, and BadLength for none or more than 8.
        """
        chosen = least_free(self._lines, self.channels, "channels") if channel is None else octet(channel, "a channel", self.channels)
        for one in members:
            if isinstance(one, Instance):
                self._own(one)
        numbers = [one.number if isinstance(one, Instance) else octet(one, "an instance", INSTANCES) for one in members]
        self._do(f"chain {len(numbers)} instances to channel {chosen}", "chain", chosen, (c_uint8 * len(numbers))(*numbers), len(numbers), hint="a channel has 1 to 8 members, each in no other channel")
        made = self._lines[chosen] = Line(self, chosen, tuple(self._living[number] for number in numbers))
        return made

    def line(self, channel: int) -> Line:
        """The line of a channel that has members. Raises Range for a channel that there isn't, and Missing."""
        self._look_open()
        if octet(channel, "a channel", self.channels) not in self._lines:
            raise Missing(f"channel {channel} has no members")
        return self._lines[channel]

    @property
    def lines(self) -> tuple[Line, ...]:
        """The channels that have members, in ascending number."""
        return tuple(self._lines[channel] for channel in sorted(self._lines))

    # ---- Memory and scratch groups ----

    def feed(self, samples: object, *lines: Line) -> np.ndarray:
        """Passes a column of an array through each line: `samples` has shape (samples, lines), as soundfile and sounddevice have it, and so has the
        answer, of int16. Without `lines` they are all lines of the host, in the order of their channels.

        A line that gives fewer samples than it takes is refused, since columns have one length: feed it by itself. Raises OutOfRange, FloatsRefused and
        Missing as `Line.feed` does; nothing was fed then.
        """
        through = lines or self.lines
        given = np.asarray(samples)
        if given.ndim != 2 or given.shape[1] != len(through):
            raise OutOfRange(f"samples have shape (samples, {len(through)}), a column for each line, and these have {given.shape}")
        for line in through:
            self._own(line)
            if slow := [it.kind for it in line.members if it.kind in DIVISOR_AT or it.kind in PAIRS]:
                raise OutOfRange(f"a {slow[0]} gives fewer samples than it takes, and columns have one length: feed channel {line.channel} by itself")
        columns = [as_words(given[:, at]) for at in range(len(through))]
        return np.stack([line.feed(column) for line, column in zip(through, columns)], axis=1) if columns else np.empty(given.shape, np.int16)

    def step(self, space: str) -> bool:
        """Moves the first block of a space that can be moved down, and tells whether one was. Outputs don't depend on it. Raises BadSpace."""
        moved = c_uint32()
        self._do(f"step {space}", "step", index_of(space), moved)
        return bool(moved.value)

    def compact(self, space: str) -> int:
        """Moves blocks of a space down until none can be moved, and tells how many were. Outputs don't depend on it. Raises BadSpace."""
        moved = c_uint32()
        self._do(f"compact {space}", "compact", index_of(space), moved)
        return moved.value

    def copied(self) -> int:
        """How many words all moves of this host have copied."""
        words = c_uint64()
        self._do("copied", "copied", words)
        return words.value

    def release(self, group: int) -> bool:
        """Deactivates the active instance of a group, and tells whether there was one. Raises Range from group 8 on."""
        released = c_uint32()
        self._do(f"release {group}", "release", octet(group, "a group", GROUPS), released)
        return bool(released.value)

    def stat(self, group: int) -> Stat:
        """The active instance of a group, and how often one was activated. Raises Range from group 8 on."""
        active, activations = c_int32(), c_uint32()
        self._do(f"stat {group}", "stat", octet(group, "a group", GROUPS), active, activations)
        return Stat(None if active.value < 0 else active.value, activations.value)

    def map(self, space: str) -> SpaceMap:
        """The blocks of a space: `iI.rK` is record K of instance I, `gG` the scratch memory of group G. Raises BadSpace."""
        blocks, count = (library.BlockRecord * MAP_BLOCKS)(), c_uint32()
        self._do(f"map {space}", "map", index_of(space), blocks, MAP_BLOCKS, count)
        shown = tuple(Block(f"g{it.number}" if it.scratch else f"i{it.number}.r{it.record}", it.place, it.size) for it in blocks[: count.value])
        active = {block.number: self.stat(block.number).active for block in shown if block.is_scratch}
        return SpaceMap(self.sizes[space], shown, space, active)

    def moment(self, line: int, text: str = "") -> Moment:
        """The maps of all spaces as they stand, for a `maps.History` of your own: `line` is its place there, `text` says what was done."""
        shown = {space: self.map(space) for space in SPACES}
        return Moment(line, text, shown, {group: member for one in shown.values() for group, member in one.active.items()})

    # ---- Calls ----

    @contextmanager
    def _alone(self) -> Iterator[None]:
        """Keeps other calls away for as long as one is under way. Raises WrongThread where another one is."""
        if not self._call.acquire(blocking=False):
            raise WrongThread("another call of this host is under way: threads that share a host order their calls, by a lock for instance")
        try:
            yield
        finally:
            self._call.release()

    def _look_open(self) -> None:
        if not self._close.alive:
            raise NotOpen("the host was closed, and all that lived in it is gone")

    def _own(self, one: Instance | Line) -> None:
        """Refuses what isn't of this host, or doesn't live any more."""
        self._look_open()
        known = self._living.get(one.number) if isinstance(one, Instance) else self._lines.get(one.channel)
        if known is not one:
            what = f"instance {one.number} doesn't live" if isinstance(one, Instance) else f"channel {one.channel} has no members"
            raise Missing(f"{what} any more, or is of another host")

    def _code(self, call: str, *arguments: object) -> int:
        """What a call of the library answers. Raises WrongThread."""
        with self._alone():
            return getattr(self._library, f"rokdaum_{call}")(self._handle, *arguments)

    def _refuse(self, code: int, what: str, hint: str = "") -> None:
        """Raises what a code stands for, but for that of success."""
        if code:
            why = f"{what}: {self._library.rokdaum_error_text(code).decode()}{': ' if hint else ''}{hint}"
            raise REFUSALS.get(code, Refused)(why)

    def _do(self, what: str, call: str, *arguments: object, hint: str = "") -> None:
        """Makes a call that is answered by a code alone."""
        self._refuse(self._code(call, *arguments), what, hint)


def words_of_file(file: Any, block: int) -> Iterator[np.ndarray]:
    """The words of an open file, so many at a time, till its end."""
    while octets := file.read(2 * block):
        # A raw file, and a pipe, give what there is.
        while len(octets) < 2 * block and (more := file.read(2 * block - len(octets))):
            octets += more
        yield np.frombuffer(octets[: len(octets) // 2 * 2], "<i2")


def options_of(sizes: Mapping[str, int], channels: int, poison: int | None) -> library.Options:
    """What a host is opened with. Raises BadSize and Range."""
    for space, words in sizes.items():
        if not 0 <= operator.index(words) <= SPACE_WORDS or words % 4:
            raise BadSize(f"{space} has 0 to {SPACE_WORDS} words, a multiple of 4, and {words} is asked for")
    if not 1 <= operator.index(channels) <= CHANNELS:
        raise BadSize(f"there are 1 to {CHANNELS} channels, and {channels} is asked for")
    if poison is not None and not -32768 <= operator.index(poison) <= 65535:
        raise Range(f"a poison is a word of 16 bits, and {poison} isn't")
    return library.Options(*sizes.values(), channels, poison is not None, poison or 0)


def octet(number: int, what: str, end: int) -> int:
    """A number from 0 up to `end`, as C has it. Raises Range, and TypeError for what is no whole number."""
    value = operator.index(number)
    if not 0 <= value < end:
        raise Range(f"{what} is 0 to {end - 1}, and {value} is asked for")
    return value


def index_of(space: str) -> int:
    """The number of a memory space. Raises BadSpace."""
    if space not in SPACES:
        raise BadSpace(f"a space is one of {', '.join(SPACES)}, and not {space}")
    return SPACES.index(space)


def least_free(taken: Mapping[int, object], end: int, what: str) -> int:
    """The least number below `end` that isn't taken. Raises Taken where all are."""
    for number in range(end):
        if number not in taken:
            return number
    raise Taken(f"all {end} {what} are taken: name a number, or free one first")


def words_of(kind: str, given: Iterable[int] | Design) -> ctypes.Array[c_int16]:
    """The words of parameters, or of the one instance of a design. Raises Range, FloatsRefused, and Params for a design of another kind."""
    if hasattr(given, "creations"):
        made = given.creations
        if len(made) != 1 or made[0][0] != kind:
            shown = ", ".join(name for name, _ in made)
            raise Params(f"this design is of {len(made)} instances ({shown}), and not of one {kind}: host.create_all(design) creates them all")
        given = made[0][1]
    listed = list(given)
    try:
        words = [operator.index(it) for it in listed]
    except TypeError:
        raise FloatsRefused(f"parameters are whole numbers from -32768 to 32767, and these aren't: {Q_OF_KIND[kind]}; rokdaum.design makes them of what is wanted in Hz") from None
    for it in words:
        if not -32768 <= it <= 32767:
            raise Range(f"a word is -32768 to 32767, and {it} isn't: {Q_OF_KIND[kind]}, and what doesn't fit has to be scaled")
    return (c_int16 * len(words))(*words)
