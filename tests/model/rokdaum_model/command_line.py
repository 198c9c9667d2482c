# SPDX-License-Identifier: Apache-2.0
"""The command line of the program."""

from __future__ import annotations

import re
from dataclasses import dataclass
from typing import Optional, Sequence

from .console import Config
from .machine import PORTS_MAX
from .memory import SPACE_WORDS_MAX, Space
from .operators import extract_l

UNSIGNED = re.compile(r"\+?[0-9]+")
LIMITS = {"daram": (1 << 32) - 1, "saram": (1 << 32) - 1, "external": (1 << 32) - 1, "poison": 65535, "in8": 65535, "out8": 65535}


class UsageError(Exception):
    """The parser refuses the command line; its text isn't determined."""


class PortsError(Exception):
    """The words behind SCRIPT aren't 1 to 16 pairs."""


@dataclass
class Arguments:
    """A command line that was taken apart."""

    script: str
    sizes: tuple[int, int, int]
    poison: Optional[int]
    ports: list[tuple[str, str]]
    in8: int = 0
    out8: int = 0


def _option(word: str, rest: list[str], given: dict[str, int]) -> None:
    """Takes an option, and its value off the rest where it stands there."""
    name, equals, value = word[2:].partition("=")
    if not word.startswith("--") or name not in LIMITS or name in given:
        raise UsageError(word)
    if not equals:
        if not rest or rest[0].startswith("-"):
            raise UsageError(word)
        value = rest.pop(0)
    if not UNSIGNED.fullmatch(value) or int(value) > LIMITS[name]:
        raise UsageError(word)
    given[name] = int(value)


def arguments(words: Sequence[str]) -> Arguments:
    """The command line without the program's name. Raises `UsageError` or `PortsError`."""
    given: dict[str, int] = {}
    plain: list[str] = []
    rest = list(words)
    while rest:
        word = rest.pop(0)
        if word == "--":
            plain += rest
            break
        if not word.startswith("-") or word == "-":
            plain.append(word)
        else:
            _option(word, rest, given)
    if not plain:
        raise UsageError("SCRIPT is missing")
    script, *ports = plain
    if not ports or len(ports) % 2 or len(ports) // 2 > PORTS_MAX:
        raise PortsError
    def words_of(space: Space) -> int:
        return given.get(space.name.lower(), SPACE_WORDS_MAX)

    poison = given.get("poison")
    return Arguments(
        script, (words_of(Space.DARAM), words_of(Space.SARAM), words_of(Space.EXTERNAL)),
        None if poison is None else extract_l(poison), list(zip(ports[::2], ports[1::2])),
        given.get("in8", 0), given.get("out8", 0))


def config_of(asked: Arguments) -> Config:
    """The configuration that a command line asks for."""
    return Config(*asked.sizes, asked.poison, asked.in8, asked.out8)


def option_words(config: Config) -> list[str]:
    """The options of a configuration; those by default are left out."""
    words = []
    for space in ("daram", "saram", "external"):
        if getattr(config, space) != SPACE_WORDS_MAX:
            words += [f"--{space}", str(getattr(config, space))]
    if config.poison is not None:
        words += ["--poison", str(config.poison & 65535)]
    for mask in ("in8", "out8"):
        if getattr(config, mask):
            words += [f"--{mask}", str(getattr(config, mask))]
    return words


def port_words(pairs: int) -> list[str]:
    """SCRIPT and the pairs as they are named in a case's folder."""
    words = ["script"]
    for c in range(pairs):
        words += [f"in{c}", f"out{c}"]
    return words
