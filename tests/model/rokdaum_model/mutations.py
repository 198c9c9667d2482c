# SPDX-License-Identifier: Apache-2.0
"""Scripts made from others by small changes of their bytes, words and lines."""

from __future__ import annotations

import random
from typing import Callable, Optional, Sequence

from .console import Config, Served, serve
from .random_inputs import POISON_WORDS, random_input
from .random_scripts import ODD_WORDS
from .script import VERBS, is_answered, words_of

NUMBERS = (b"0", b"1", b"2", b"3", b"7", b"8", b"15", b"16", b"63", b"64", b"72", b"73", b"255", b"256", b"1024", b"1025",
           b"-1", b"32767", b"32768", b"-32768", b"-32769", b"16384")
WORDS = NUMBERS + ODD_WORDS + tuple(verb.encode() for verb in VERBS) + (
    b"fir", b"decim", b"biquad", b"tone", b"g711", b"set", b"reset", b"get", b"daram", b"saram", b"external")
KNOWN_VERBS = frozenset(verb.encode() for verb in VERBS)
SCRIPT_MOST = 20000

Script = bytes
Feature = tuple[bytes, bytes, Optional[bytes]]
Mutation = Callable[[random.Random, Script, Sequence[Script]], Script]


def change_byte(rng: random.Random, script: Script, _: Sequence[Script]) -> Script:
    """One byte becomes another one."""
    if not script:
        return bytes([rng.randrange(256)])
    at = rng.randrange(len(script))
    return script[:at] + bytes([rng.choice((rng.randrange(256), script[at] ^ 1 << rng.randrange(8)))]) + script[at + 1:]


def insert_bytes(rng: random.Random, script: Script, _: Sequence[Script]) -> Script:
    """Some bytes come in."""
    at = rng.randrange(len(script) + 1)
    many = rng.choice((1, 1, 2, 1023, 1024, 4096))
    return script[:at] + rng.choice((rng.randbytes(1), b" ", b"\t", b"\r", b"\n", b"0", b"-", b"\0")) * many + script[at:]


def drop_bytes(rng: random.Random, script: Script, _: Sequence[Script]) -> Script:
    """Some bytes go."""
    at = rng.randrange(len(script) + 1)
    return script[:at] + script[at + rng.choice((1, 1, 2, 5, 40)):]


def change_word(rng: random.Random, script: Script, _: Sequence[Script]) -> Script:
    """One word becomes another one, mostly a number."""
    lines = script.split(b"\n")
    at = rng.randrange(len(lines))
    words = lines[at].split(b" ")
    words[rng.randrange(len(words))] = rng.choice(NUMBERS if rng.random() < 0.6 else WORDS)
    return b"\n".join(lines[:at] + [b" ".join(words)] + lines[at + 1:])


def repeat_word(rng: random.Random, script: Script, _: Sequence[Script]) -> Script:
    """A line's last word stands there some more times."""
    lines = script.split(b"\n")
    at = rng.randrange(len(lines))
    words = lines[at].split(b" ")
    return b"\n".join(lines[:at] + [b" ".join(words + words[-1:] * rng.choice((1, 2, 8, 70)))] + lines[at + 1:])


def change_lines(rng: random.Random, script: Script, _: Sequence[Script]) -> Script:
    """Lines are dropped, repeated, or change places."""
    lines = script.split(b"\n")
    first = rng.randrange(len(lines))
    some = lines[first:first + rng.choice((1, 1, 2, 5))]
    rest = lines[:first] + lines[first + len(some):]
    to = rng.randrange(len(rest) + 1)
    way = rng.randrange(3)
    if way == 0:
        return b"\n".join(rest)
    if way == 1:
        return b"\n".join(lines[:first] + some * 2 + lines[first + len(some):])
    return b"\n".join(rest[:to] + some + rest[to:])


def splice(rng: random.Random, script: Script, others: Sequence[Script]) -> Script:
    """Lines of another script come in."""
    lines, other = script.split(b"\n"), rng.choice(others).split(b"\n")
    first, at = rng.randrange(len(other)), rng.randrange(len(lines) + 1)
    return b"\n".join(lines[:at] + other[first:first + rng.choice((1, 2, 5, 20))] + lines[at:])


MUTATIONS: tuple[Mutation, ...] = (change_byte, insert_bytes, drop_bytes, change_word, change_word, change_word, repeat_word,
                                   change_lines, change_lines, splice, splice)


def mutate(rng: random.Random, script: Script, others: Sequence[Script]) -> Script:
    """A script after one or more changes."""
    for _ in range(rng.choice((1, 1, 2, 3, 6, 12))):
        script = rng.choice(MUTATIONS)(rng, script, others)
    return script[:SCRIPT_MOST]


def mutate_config(rng: random.Random, config: Config) -> Config:
    """A configuration, now and then with other sizes, another poison word or other widths of ports."""
    if rng.random() < 0.7:
        return config
    return Config(rng.choice((65536, 65536, 4 * rng.randrange(1200))), rng.choice((65536, 4 * rng.randrange(80))),
                  rng.choice((65536, 4 * rng.randrange(200))), rng.choice((None,) + POISON_WORDS), rng.randrange(4),
                  rng.randrange(4), config.kinds, config.form)


def features(script: Script, served: Served) -> frozenset[Feature]:
    """What a run showed: of each line its verb, the sort of its reply, and the verb of the line before."""
    found, before = set(), None
    for line, reply in zip(filter(is_answered, script.split(b"\n")), served.replies.split(b"\n")):
        verb = (words_of(line) or [b""])[0]
        verb = verb if verb in KNOWN_VERBS else b""
        found.add((verb, reply[:5] if reply.startswith(b"no") else reply[:2], before))
        before = verb
    return frozenset(found)


class Corpus:
    """Scripts that are worth a change: the first ones, and each that showed something new."""

    def __init__(self, scripts: Sequence[tuple[Config, Script, list[bytes]]]):
        self.runs = list(scripts)
        self.seen: set[Feature] = set()
        for config, script, inputs in self.runs:
            self.seen |= features(script, serve(config, script, inputs))

    def next(self, rng: random.Random) -> tuple[Config, Script, list[bytes], Served]:
        """A changed script with the model's result; it is kept where it showed something new."""
        config, script, inputs = rng.choice(self.runs[-200:] if rng.random() < 0.5 else self.runs)
        config = mutate_config(rng, config)
        script = mutate(rng, script, [other for _, other, _ in self.runs])
        if rng.random() < 0.3:
            inputs = [random_input(rng) for _ in inputs]
        served = serve(config, script, inputs)
        shown = features(script, served)
        if not shown <= self.seen:
            self.seen |= shown
            self.runs.append((config, script, inputs))
        return config, script, inputs, served
