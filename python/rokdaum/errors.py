# SPDX-License-Identifier: Apache-2.0
"""What this package refuses. The text of each error says what is wrong and what to do; nothing was changed when one is raised."""

from __future__ import annotations


class RokdaumError(Exception):
    """What all errors of this package are. `status` is the exit status of a command that ends with it."""

    status = 2


class MissingPackage(RokdaumError):
    """A Python package that a call needs isn't installed."""

    def __init__(self, name: str) -> None:
        super().__init__(f"the Python package {name} isn't there: apt-get install python3-{name} (for /usr/bin/python3), or pip install {name}")


class FloatsRefused(RokdaumError, TypeError):
    """Floats stand where words of 16 bits are needed."""


class OutOfRange(RokdaumError, ValueError):
    """A number isn't in the range that it has to be in."""


class DesignError(RokdaumError, ValueError):
    """A filter can't be designed as asked: its edges, its order, or its words that don't fit."""


class NotStable(DesignError):
    """The rounded words make a filter whose outputs grow."""


class ScriptError(RokdaumError):
    """A line of a script can't be sent: `FILE:LINE: TEXT: WHY`."""

    def __init__(self, file: str, number: int, text: str, why: str) -> None:
        super().__init__(f"{file}:{number}: {text.strip()}: {why}")
        self.file, self.number, self.text, self.why = file, number, text, why


class CantRead(RokdaumError):
    """A script, an input or a file of replies can't be read."""

    status = 3


class CantWrite(RokdaumError):
    """An output can't be written."""

    status = 4


class SameFile(RokdaumError):
    """An output is also read, or is named twice: a run would lose it."""


class WrongWave(RokdaumError):
    """A WAV file that isn't of one channel of 16-bit samples, or an output that can't be one."""

    status = 3


class ProgramMissing(RokdaumError):
    """There is no `dsp_console` to run."""

    status = 69


class ProgramFailed(RokdaumError):
    """`dsp_console` ended before the script did. `status` is its exit status; what it said is on the standard error."""

    def __init__(self, status: int, why: str) -> None:
        super().__init__(why)
        self.status = status


class NotAMap(RokdaumError, ValueError):
    """A text isn't the reply to `map`."""

    status = 3


class LibraryMissing(RokdaumError):
    """There is no `librokdaum` to load, or one of another version."""

    status = 69


class WrongThread(RokdaumError):
    """A host is called while a call of another thread is under way. That call goes on."""


class Refused(RokdaumError):
    """What a host refuses. The host is as it was before the call.

    `code` is the number that C and the replies of `dsp_console` have for it; a code that this package gives no cause for is of this class itself.
    """

    code = 0


class Range(Refused, OutOfRange):
    """The number of an instance, a group or a channel is too large, or a word isn't -32768 to 32767."""

    code = 3


class Taken(Refused):
    """The instance lives already, the channel has members already, or none is free."""

    code = 4


class Missing(Refused):
    """The instance doesn't live, or the channel has no members."""

    code = 5


class Params(Refused, ValueError):
    """The algorithm doesn't take these parameters."""

    code = 6


class Room(Refused):
    """A memory space has no free place for a block. `space` is its name: `daram`, `saram` or `external`."""

    code = 7

    def __init__(self, why: str, space: str) -> None:
        super().__init__(why, space)
        self.why, self.space = why, space

    def __str__(self) -> str:
        return self.why


class Busy(Refused):
    """The instance is a member of a channel, or is named twice."""

    code = 8


class Command(Refused):
    """The algorithm doesn't take this control command."""

    code = 9


class BadSize(Refused, ValueError):
    """A space isn't 0 to 65,536 words, a multiple of 4, or the channels aren't 1 to 16."""

    code = 16


class NoMemory(Refused, MemoryError):
    """There is no memory for a host."""

    code = 17


class NotOpen(Refused):
    """The host was closed."""

    code = 18


class BadLength(Refused, ValueError):
    """Too few or too many words or members."""

    code = 20


class BadKind(Refused, ValueError):
    """No algorithm has this name."""

    code = 21


class BadSpace(Refused, ValueError):
    """No memory space has this name."""

    code = 22


OF_HOSTS: tuple[type[Refused], ...] = (Range, Taken, Missing, Params, Room, Busy, Command, BadSize, NoMemory, NotOpen, BadLength, BadKind, BadSpace)
REFUSALS = {it.code: it for it in OF_HOSTS}
