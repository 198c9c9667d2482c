# SPDX-License-Identifier: Apache-2.0
"""The files of a run: what can be read, where outputs are kept until a run has ended well, and streams.

`dsp_console` reads and writes files without a header and empties its outputs first. Here an output is written beside its file and takes
its place once it is whole; a name says which form a file has (`sounds`), and a stream is passed on block by block.
"""

from __future__ import annotations

import os
import shutil
import stat
import tempfile
from collections.abc import Sequence
from contextlib import suppress
from dataclasses import dataclass
from pathlib import Path

from .errors import CantRead, CantWrite, OutOfRange, SameFile, WrongWave
from .sounds import BEGINNINGS, Held, Named, from_raw, has_form, is_sound, law_of, to_raw

MOST_PAIRS = 16
# The standard input and output, by the names that a system has for them. On a command line both are `-`.
STANDARD_IN = ("/dev/stdin", "/dev/fd/0", "/proc/self/fd/0")
STANDARD_OUT = ("/dev/stdout", "/dev/fd/1", "/proc/self/fd/1")


@dataclass(frozen=True)
class Pair:
    """What a channel reads and what it writes. Names of files are taken too."""

    source: Path
    target: Path

    def __post_init__(self) -> None:
        object.__setattr__(self, "source", Path(self.source))
        object.__setattr__(self, "target", Path(self.target))


@dataclass(frozen=True)
class Settings:
    """The options of `dsp_console`: sizes of spaces in words, a poison word, masks of channels with ports of bytes. None is its default."""

    daram: int | None = None
    saram: int | None = None
    external: int | None = None
    poison: int | None = None
    in8: int = 0
    out8: int = 0

    def arguments(self) -> list[str]:
        """The words of the command line."""
        spoken = {name: value for name, value in vars(self).items() if value is not None and not (name in ("in8", "out8") and value == 0)}
        return [f"--{name}={value}" for name, value in spoken.items()]

    def size_of(self, space: str) -> int:
        """The words of a space, `daram`, `saram` or `external`."""
        size = getattr(self, space)
        return 65536 if size is None else size


def is_plain(path: Path) -> bool:
    """Whether a path is a regular file, or nothing yet. Devices and pipes are neither sized nor replaced."""
    try:
        return stat.S_ISREG(path.stat().st_mode)
    except FileNotFoundError:
        return True


def is_stream(path: Path) -> bool:
    """Whether a path is the standard input, a named pipe or a socket: what is read there comes as it comes, and has no length."""
    if str(path) in STANDARD_IN:
        return True
    try:
        mode = path.stat().st_mode
    except OSError:
        return False
    return stat.S_ISFIFO(mode) or stat.S_ISSOCK(mode)


def is_standard_output(path: Path) -> bool:
    """Whether a path is the standard output."""
    return str(path) in STANDARD_OUT


def pairs_of(paths: Sequence[str | os.PathLike[str]]) -> list[Pair]:
    """The pairs IN OUT of a command line, where - is the standard input or output. Raises OutOfRange where they aren't 1 to 16 pairs."""
    if len(paths) % 2 or not 2 <= len(paths) <= 2 * MOST_PAIRS:
        raise OutOfRange(f"ports come in pairs IN OUT, 1 to {MOST_PAIRS}, and {len(paths)} files are named")
    return [
        Pair(Path(STANDARD_IN[0] if str(source) == "-" else source), Path(STANDARD_OUT[0] if str(target) == "-" else target))
        for source, target in zip(paths[::2], paths[1::2])
    ]


def look_at_files(script: Path | None, pairs: Sequence[Pair]) -> None:
    """Refuses inputs that can't be read, by name, and outputs that are read too or named twice. Opens and changes nothing that is there."""
    read = [Named.of(pair.source).path for pair in pairs] + ([script] if script else [])
    if sum(str(path) in STANDARD_IN for path in read) > 1:
        raise OutOfRange("the standard input is SCRIPT or one IN, and not more of them")
    for path in read:
        if not path.exists():
            raise CantRead(f"{path}: there is no such file")
        if path.is_dir() or not os.access(path, os.R_OK):
            raise CantRead(f"{path}: {'a folder' if path.is_dir() else 'it may not be read'}")
    for at, pair in enumerate(pairs):
        look_at_target(pair.target, read, [other.target for other in pairs[:at]])


def look_at_target(target: Path, read: Sequence[Path], others: Sequence[Path]) -> None:
    """Refuses an output that can't be made, that is read too, or that is an output already."""
    if is_standard_output(target):
        if any(map(is_standard_output, others)):
            raise SameFile("the standard output is the OUT of two channels: name a file for each")
        return
    if target.is_dir() or not target.parent.is_dir():
        raise CantWrite(f"{target}: {'a folder' if target.is_dir() else f'there is no folder {target.parent}'}")
    for path in read:
        if is_plain(target) and target.exists() and target.samefile(path):
            raise SameFile(f"{target} is read and written in one run, and would be emptied before it is read: name another OUT")
    for other in others:
        if is_plain(target) and os.path.realpath(target) == os.path.realpath(other):
            raise SameFile(f"{target} is the OUT of two channels: name a file for each")


class Relay:
    """A stream on its way to the program: what a feed takes is put into a named pipe before it, so that no feed waits for samples there.

    `width` is the octets of a sample. The pipe holds what refused feeds left.
    """

    def __init__(self, stream: int, begun: bytes, path: Path, width: int) -> None:
        self.stream, self.begun, self.path, self.width = stream, begun, path, width
        self.held = 0
        self.is_ended = False
        os.mkfifo(path)
        # Opened for both, it doesn't wait for the program, nor the program for it.
        self.pipe: int | None = os.open(path, os.O_RDWR)

    def ahead(self, count: int) -> int:
        """Puts as many samples into the pipe as a feed wants, or as there are till the stream ends: how many are there then."""
        while self.held < count * self.width and not self.is_ended:
            octets = self.begun or os.read(self.stream, count * self.width - self.held)
            now, self.begun = octets[: count * self.width - self.held], octets[count * self.width - self.held :]
            self.is_ended = not octets
            while now and self.pipe is not None:
                written = os.write(self.pipe, now)
                self.held, now = self.held + written, now[written:]
        return self.held // self.width

    def took(self, count: int) -> None:
        """Says that a feed has taken so many samples."""
        self.held = max(0, self.held - count * self.width)

    def end(self) -> None:
        """Lets the program see the end of the stream, behind what is in the pipe."""
        if self.pipe is not None:
            os.close(self.pipe)
            self.pipe = None

    def close(self) -> None:
        """Gives the stream and the pipe back."""
        self.end()
        with suppress(OSError):
            os.close(self.stream)


class Staged:
    """The files that a run is given in place of those that were named, in folders of their own, and removed at the end.

    `sources` and `targets` are what `dsp_console` opens. `counts` has the samples of each input, None where it has no length, `rates` the samples
    a second that a header names, None for others, and `relays` the stream of each channel that has one. `kept` are the descriptors that the
    program needs.
    """

    def __init__(self, pairs: Sequence[Pair], settings: Settings) -> None:
        self.pairs, self.settings = pairs, settings
        self.room = tempfile.TemporaryDirectory(prefix="rokdaum-")
        self.sources: list[Path] = []
        self.targets: list[Path] = []
        self.counts: list[int | None] = []
        self.rates: list[int | None] = []
        self.relays: dict[int, Relay] = {}
        self.kept: list[int] = []

    def __enter__(self) -> Staged:
        try:
            for channel, pair in enumerate(self.pairs):
                self._take_source(channel, pair.source)
                self._take_target(channel, pair.target)
        except BaseException:
            self.__exit__()
            raise
        return self

    def names(self) -> list[str]:
        """The files as the command line of `dsp_console` names them, in pairs."""
        return [str(path) for both in zip(self.sources, self.targets) for path in both]

    def _take_source(self, channel: int, source: Path) -> None:
        named, held, stands_for = Named.of(source), None, source
        width = 1 if self.settings.in8 >> channel & 1 else 2
        if is_stream(source):
            stands_for, held = self._take_stream(channel, source, width)
        elif is_sound(named.path) or law_of(named.path) and width == 2:
            stands_for = Path(self.room.name, f"in{channel}")
            held = self._to_raw(channel, named, stands_for, width)
        elif is_plain(source):
            held = Held(source.stat().st_size // width)
        self.sources.append(stands_for)
        self.counts.append(held.count if held else None)
        self.rates.append(held.rate if held else None)

    def _to_raw(self, channel: int, named: Named, target: Path, width: int) -> Held:
        """Writes the words of a file of sound or of codes."""
        if width == 1:
            raise WrongWave(f"{named.path} is read as 16-bit samples, and bit {channel} of --in8 says that channel {channel} reads bytes")
        return to_raw(named, target)

    def _take_stream(self, channel: int, source: Path, width: int) -> tuple[Path, Held | None]:
        """What stands for a stream: a pipe for words without a header, and a file where it begins as one of sound, which is read to its end."""
        stream = os.dup(0) if str(source) in STANDARD_IN else os.open(source, os.O_RDONLY)
        path = Path(self.room.name, f"in{channel}")
        try:
            begun = b""
            while len(begun) < 4 and (octets := os.read(stream, 4 - len(begun))):
                begun += octets
            if begun not in BEGINNINGS:
                self.relays[channel] = Relay(stream, begun, path, width)
                return path, None
            spooled = path.with_suffix(BEGINNINGS[begun])
            with open(spooled, "wb") as file:
                file.write(begun)
                while octets := os.read(stream, 1 << 20):
                    file.write(octets)
            return path, self._to_raw(channel, Named(spooled), path, width)
        finally:
            if channel not in self.relays:
                os.close(stream)

    def _take_target(self, channel: int, target: Path) -> None:
        if is_standard_output(target):
            self._take_standard_output(channel)
            return
        if not is_plain(target):
            self.targets.append(target)
            return
        if is_sound(target) and self.settings.out8 >> channel & 1:
            raise WrongWave(f"{target}: codes of a byte make no WAV file of PCM: write out.ul or out.al, and then sox -t ul -r 8000 -c 1 out.ul out.wav")
        try:
            handle, beside = tempfile.mkstemp(prefix=f".{target.name}.", suffix=".part", dir=Path(os.path.realpath(target)).parent)
        except OSError as why:
            raise CantWrite(f"{target}: {why.strerror}") from None
        os.close(handle)
        self.targets.append(Path(beside))

    def _take_standard_output(self, channel: int) -> None:
        """A pipe or a device is written as it comes. A regular file gets the output behind the end of the run, at the place where it is."""
        if stat.S_ISREG(os.fstat(1).st_mode):
            self.targets.append(Path(self.room.name, f"out{channel}"))
            return
        self.kept.append(os.dup(1))
        self.targets.append(Path(f"/dev/fd/{self.kept[-1]}"))

    def commit(self, rates: Sequence[float]) -> None:
        """Puts each output in its place, whole, in the form that its name says, at so many samples a second."""
        for channel, (staged, pair, rate) in enumerate(zip(list(self.targets), self.pairs, rates)):
            if staged == pair.target or str(staged).startswith("/dev/fd/"):
                continue
            try:
                if is_standard_output(pair.target):
                    pass_on(staged)
                else:
                    as_bytes = bool(self.settings.out8 >> channel & 1)
                    self._put(staged, Path(os.path.realpath(pair.target)), None if as_bytes or not has_form(pair.target) else pair.target, rate)
            except OSError as why:
                raise CantWrite(f"{pair.target}: {why.strerror}") from None

    @staticmethod
    def _put(staged: Path, target: Path, like: Path | None, rate: float) -> None:
        if like is not None:
            made = staged.with_suffix(".form")
            try:
                from_raw(staged, made, like, rate)
                os.replace(made, staged)
            finally:
                made.unlink(missing_ok=True)
        if target.exists():
            shutil.copymode(target, staged)
        else:
            mask = os.umask(0)
            os.umask(mask)
            staged.chmod(0o666 & ~mask)
        os.replace(staged, target)

    def __exit__(self, *_: object) -> None:
        for relay in self.relays.values():
            relay.close()
        for descriptor in self.kept:
            with suppress(OSError):
                os.close(descriptor)
        for staged, pair in zip(self.targets, self.pairs):
            if staged != pair.target and not str(staged).startswith("/dev/fd/"):
                staged.unlink(missing_ok=True)
        self.room.cleanup()


def pass_on(path: Path) -> None:
    """Writes a file to the standard output."""
    with open(path, "rb") as file:
        while octets := file.read(1 << 20):
            while octets:
                octets = octets[os.write(1, octets) :]
