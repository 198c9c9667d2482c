# SPDX-License-Identifier: Apache-2.0
"""Files of sound: which form a name has, and what a file holds as words of 16 bits without a header, which is what `dsp_console` reads.

WAV files of 16-bit PCM need Python alone. Debian's `python3-soundfile` (libsndfile) reads the others: A-law and mu-law in WAV and AU, the
extensible form, FLAC, AIFF, 8-bit PCM. What 16 bits can't hold exactly is refused rather than rounded.
"""

from __future__ import annotations

import importlib.util
import struct
import sys
import wave
from array import array
from collections.abc import Iterator, Sequence
from contextlib import contextmanager
from dataclasses import dataclass
from functools import cache
from pathlib import Path
from typing import Any

from .errors import CantRead, CantWrite, MissingPackage, WrongWave

FRAMES_AT_ONCE = 65536
WAVES = (".wav", ".wave")
# What libsndfile takes beside them, by the endings of names.
OTHERS = {".flac": "FLAC", ".au": "AU", ".snd": "AU", ".aif": "AIFF", ".aiff": "AIFF"}
# Files of codes of G.711, a byte each, without a header.
LAWS = {".ul": "mu", ".ulaw": "mu", ".al": "a", ".alaw": "a"}
# What the first four bytes of a file of sound are, and the ending by which it is read.
BEGINNINGS = {b"RIFF": ".wav", b"fLaC": ".flac", b".snd": ".au", b"FORM": ".aiff"}
# What libsndfile calls the forms whose samples are words of 16 bits.
EXACT = ("PCM_16", "PCM_U8", "PCM_S8", "ULAW", "ALAW")


@dataclass(frozen=True)
class Named:
    """A name of a file: its path, and the channel of it that is meant, None where none was named (`call.wav:1` names the second)."""

    path: Path
    channel: int | None = None

    @classmethod
    def of(cls, name: Path) -> Named:
        """A name as it is given. A file whose own name ends so is that file."""
        stem, colon, number = str(name).rpartition(":")
        if colon and number.isascii() and number.isdigit() and len(number) < 4 and not name.exists() and is_sound(Path(stem)):
            return cls(Path(stem), int(number))
        return cls(name)


@dataclass(frozen=True)
class Held:
    """What a file holds: so many samples, and samples a second, None where it has no header."""

    count: int
    rate: int | None = None


def is_sound(path: Path) -> bool:
    """Whether a name is that of a file with a header: of WAV, FLAC, AU or AIFF."""
    return path.suffix.lower() in (*WAVES, *OTHERS)


def law_of(path: Path) -> str | None:
    """The law, `mu` or `a`, of a file of codes by its name, None for other files."""
    return LAWS.get(path.suffix.lower())


def needs_soundfile(name: Path) -> bool:
    """Whether an input of this name can't be read by Python alone. A file that can't be read at all can't either."""
    path = Named.of(name).path
    if path.suffix.lower() in OTHERS:
        return True
    if path.suffix.lower() not in WAVES or not path.is_file():
        return False
    try:
        with wave.open(str(path), "rb") as file:
            return file.getsampwidth() != 2
    except (wave.Error, EOFError, OSError, struct.error):
        return True


def swapped(octets: bytes) -> bytes:
    """Words as this machine has them with the low byte first, or the other way."""
    if sys.byteorder == "little":
        return octets
    words = array("h", octets)
    words.byteswap()
    return words.tobytes()


def one_of(octets: bytes, channels: int, channel: int) -> bytes:
    """One channel of interleaved words, as this machine has them."""
    return octets if channels == 1 else array("h", octets)[channel::channels].tobytes()


def look_at_channel(path: Path, channels: int, channel: int | None) -> int:
    """The channel that is meant, or why there is none."""
    if channel is None and channels != 1:
        raise WrongWave(f"{path} has {channels} channels, and a pair takes one: {path}:0 is the first (in most recordings of calls the caller), {path}:1 the second")
    if channel is not None and channel >= channels:
        raise WrongWave(f"{path} has {channels} channel{'s' * (channels > 1)}, and {channel} is asked for: they are counted from 0")
    return channel or 0


@contextmanager
def opened_by_libsndfile(path: Path) -> Iterator[Any]:
    """A file of sound as libsndfile reads it. Raises WrongWave where it can't, or where 16 bits don't hold what it has."""
    if importlib.util.find_spec("soundfile") is None:
        raise MissingPackage("soundfile")
    import soundfile

    try:
        with soundfile.SoundFile(str(path)) as file:
            if file.subtype not in EXACT:
                raise WrongWave(f"{path} has samples of the form {file.subtype}, which 16 bits don't hold exactly: sox {path} -b 16 -e signed-integer 16.wav makes a file whose samples they do")
            yield file
    # Its own assertions fail where a file has fewer samples than its header says.
    except (soundfile.LibsndfileError, AssertionError) as why:
        told = str(why).split(": ", 1)[-1] or "it ends before its header says"
        raise WrongWave(f"{path} is no file of sound that libsndfile reads ({told}): sox {path} -b 16 -e signed-integer 16.wav makes one of what sox can read") from None


def words_of(path: Path, channel: int | None) -> tuple[Iterator[bytes], int]:
    """The words of one channel of a file of sound, low byte first, in pieces, and the samples a second."""
    if path.suffix.lower() in WAVES and not needs_soundfile(path):
        with wave.open(str(path), "rb") as file:
            channels, rate = file.getnchannels(), file.getframerate()
        return pieces_of_wave(path, channels, look_at_channel(path, channels, channel)), rate
    with opened_by_libsndfile(path) as file:
        channels, rate = file.channels, file.samplerate
    return pieces_of_sound(path, channels, look_at_channel(path, channels, channel)), rate


def pieces_of_wave(path: Path, channels: int, channel: int) -> Iterator[bytes]:
    """The words of one channel of a WAV file of 16-bit PCM."""
    with wave.open(str(path), "rb") as file:
        while octets := file.readframes(FRAMES_AT_ONCE):
            whole = octets[: len(octets) // (2 * channels) * 2 * channels]
            yield swapped(one_of(whole, channels, channel))


def pieces_of_sound(path: Path, channels: int, channel: int) -> Iterator[bytes]:
    """The words of one channel of a file that libsndfile reads."""
    with opened_by_libsndfile(path) as file:
        while octets := bytes(file.buffer_read(FRAMES_AT_ONCE, dtype="int16")):
            yield swapped(one_of(octets, channels, channel))


@cache
def decoded(law: str) -> tuple[bytes, ...]:
    """The sample of each code of a law as two octets, low byte first (G.711, tables 1 and 2)."""
    found = []
    for code in range(256):
        if law == "mu":
            rest = code ^ 0xFF
            size = ((((rest & 15) << 3) + 132) << (rest >> 4 & 7)) - 132
            value = -size if rest & 128 else size
        else:
            rest = code ^ 0x55
            exponent, step = rest >> 4 & 7, (rest & 15) << 4
            size = step + 8 if exponent == 0 else (step + 264) << (exponent - 1)
            value = size if rest & 128 else -size
        found.append(struct.pack("<h", value))
    return tuple(found)


def code_of(law: str, sample: int) -> int:
    """The code of a sample, as ITU-T's own program encodes it (G.191): the sample is cut to 13 or 14 bits, its magnitude is that of its
    one's complement where it is negative, and it falls into the segment and the step that hold it."""
    size = sample if sample >= 0 else ~sample
    if law == "mu":
        size = min((size >> 2) + 33, 0x1FFF)
        segment = max(0, size.bit_length() - 6)
        code = (segment << 4 | (size >> (segment + 1) & 15)) ^ 0x7F
        return code | (0x80 if sample >= 0 else 0)
    size >>= 4
    if size > 15:
        exponent = size.bit_length() - 4
        size = (exponent << 4) + (size >> (exponent - 1) & 15)
    return (size | (0x80 if sample >= 0 else 0)) ^ 0x55


@cache
def encoded(law: str) -> bytes:
    """The code of each sample, at its word as an unsigned one."""
    return bytes(code_of(law, word - 65536 if word > 32767 else word) for word in range(65536))


def to_raw(named: Named, target: Path) -> Held:
    """Writes what a file with a header, or one of codes, holds as words without a header. Raises WrongWave, CantRead, MissingPackage."""
    law, rate, count = law_of(named.path), None, 0
    if law:
        pieces: Iterator[bytes] = (b"".join(map(decoded(law).__getitem__, octets)) for octets in octets_of(named.path))
    else:
        pieces, rate = words_of(named.path, named.channel)
    try:
        with open(target, "wb") as raw:
            for piece in pieces:
                raw.write(piece)
                count += len(piece) // 2
    except (wave.Error, EOFError) as why:
        raise WrongWave(f"{named.path} can't be read to its end: {why}") from None
    return Held(count, rate)


def octets_of(path: Path) -> Iterator[bytes]:
    """The octets of a file in pieces. Raises CantRead."""
    try:
        with open(path, "rb") as file:
            while octets := file.read(FRAMES_AT_ONCE):
                yield octets
    except OSError as why:
        raise CantRead(f"{path}: {why.strerror}") from None


def from_raw(source: Path, target: Path, like: Path, rate: float) -> None:
    """Writes words without a header as a file of the form that the name `like` has, at `rate` samples a second. An odd last byte is no sample."""
    law, hertz = law_of(like), max(1, round(rate))
    if law:
        table = encoded(law)
        with open(target, "wb") as codes:
            for octets in octets_of(source):
                codes.write(bytes(table[word & 0xFFFF] for word in array("h", swapped(octets[: len(octets) // 2 * 2]))))
    elif like.suffix.lower() in WAVES:
        with wave.open(str(target), "wb") as file:
            file.setnchannels(1)
            file.setsampwidth(2)
            file.setframerate(hertz)
            for octets in octets_of(source):
                file.writeframes(swapped(octets[: len(octets) // 2 * 2]))
    else:
        if importlib.util.find_spec("soundfile") is None:
            raise MissingPackage("soundfile")
        import soundfile

        try:
            with soundfile.SoundFile(str(target), "w", samplerate=hertz, channels=1, format=OTHERS[like.suffix.lower()], subtype="PCM_16") as made:
                for octets in octets_of(source):
                    made.buffer_write(swapped(octets[: len(octets) // 2 * 2]), dtype="int16")
        except soundfile.LibsndfileError as why:
            raise CantWrite(f"{like}: {str(why).split(': ', 1)[-1]}") from None


def has_form(path: Path) -> bool:
    """Whether a name says that a file isn't words without a header: a file of sound, or one of codes."""
    return is_sound(path) or law_of(path) is not None


def form_of(names: Sequence[Path]) -> list[str]:
    """The packages that inputs and outputs of these names need beside Python."""
    return ["soundfile"] if any(needs_soundfile(name) for name in names) else []
