# SPDX-License-Identifier: Apache-2.0
"""The grammar of a script's lines."""

from __future__ import annotations

import re
from typing import Any, NamedTuple, Optional, Sequence

from .kinds import FEED_MAX, Kind
from .machine import MEMBERS_MAX
from .memory import Space
from .operators import WORD16_MAX, WORD16_MIN
from .refusals import Refusal, Refused
from .sets import HOSTED, kinds_by_name
from .voices import Control

LINE_MAX, PARAMETERS_MAX = 1024, 72
NUMBER = re.compile(rb"-?[0-9]+")
SPACES = {space.name.lower().encode(): space for space in Space}
VERBS = ("create", "control", "delete", "chain", "unchain", "feed", "compact", "step", "release", "map", "stat")


class Command(NamedTuple):
    """A line that fits the grammar."""

    verb: str
    arguments: tuple[Any, ...]   # their types go by the verb


def words_of(line: bytes) -> list[bytes]:
    """The words of a line: what stands between spaces and tabs, one CR at the end left out."""
    return [w for w in line.removesuffix(b"\r").replace(b"\t", b" ").split(b" ") if w]


def is_answered(line: bytes) -> bool:
    """Whether a line gets a reply: a blank one gets none, unless it is too long."""
    return len(line) > LINE_MAX or bool(words_of(line))


def _shape(fits: bool) -> None:
    if not fits:
        raise Refused(Refusal.SYNTAX)


def _numbers(words: Sequence[bytes]) -> tuple[int, ...]:
    _shape(all(NUMBER.fullmatch(word) for word in words))
    return tuple(map(int, words))


def _within(low: int, high: int, *values: int) -> None:
    if any(not low <= v <= high for v in values):
        raise Refused(Refusal.RANGE)


def _check_parameters(words: Sequence[int]) -> None:
    if len(words) > PARAMETERS_MAX:
        raise Refused(Refusal.RANGE)
    _within(WORD16_MIN, WORD16_MAX, *words)


class Grammar:
    """The lines of a script, with the kinds that it may name."""

    def __init__(self, kinds: str = HOSTED):
        self.kinds = {name.encode(): kind for name, kind in kinds_by_name(kinds).items()}

    def parse(self, line: bytes) -> Optional[Command]:
        """The command of a line, None for a blank one."""
        if len(line) > LINE_MAX:
            raise Refused(Refusal.LONG)
        words = words_of(line)
        if not words:
            return None
        verb = words[0].decode("latin-1")
        _shape(verb in VERBS)
        return Command(verb, getattr(self, "_" + verb)(words[1:]))

    def _create(self, words: Sequence[bytes]) -> tuple[int, Kind, int, tuple[int, ...]]:
        _shape(len(words) >= 3 and words[1] in self.kinds)
        i, group, *parameters = _numbers([words[0], *words[2:]])
        _within(0, 255, i, group)
        _check_parameters(parameters)
        return i, self.kinds[words[1]], group, tuple(parameters)

    @staticmethod
    def _control(words: Sequence[bytes]) -> tuple[int, Control]:
        _shape(len(words) >= 2 and words[1] in (b"set", b"reset", b"get"))
        _shape(words[1] == b"set" or len(words) == 2)
        i, *parameters = _numbers([words[0], *words[2:]])
        _within(0, 255, i)
        _check_parameters(parameters)
        return i, Control(words[1].decode(), tuple(parameters))

    @staticmethod
    def _chain(words: Sequence[bytes]) -> tuple[int, tuple[int, ...]]:
        _shape(len(words) >= 2)
        c, *members = _numbers(words)
        _within(0, 255, c, *members)
        if len(members) > MEMBERS_MAX:
            raise Refused(Refusal.RANGE)
        return c, tuple(members)

    @staticmethod
    def _feed(words: Sequence[bytes]) -> tuple[int, int]:
        _shape(len(words) == 2)
        c, n = _numbers(words)
        _within(0, 255, c)
        _within(1, FEED_MAX, n)
        return c, n

    @staticmethod
    def _one_number(words: Sequence[bytes]) -> tuple[int]:
        _shape(len(words) == 1)
        number, = _numbers(words)
        _within(0, 255, number)
        return (number,)

    _delete = _unchain = _release = _stat = _one_number

    @staticmethod
    def _one_space(words: Sequence[bytes]) -> tuple[Space]:
        _shape(len(words) == 1 and words[0] in SPACES)
        return (SPACES[words[0]],)

    _compact = _step = _map = _one_space
