# SPDX-License-Identifier: Apache-2.0
"""What must not matter to a run: the form in which the model computes, the poison word, how the samples between two controls
are cut into feeds, moves anywhere, and which groups instances are in."""

from __future__ import annotations

import random
from dataclasses import replace
from typing import Iterable, Optional, Sequence

from . import memory
from .console import serve
from .memory import SPACE_WORDS_MAX
from .random_scripts import RandomCase, Script
from .script import is_answered

OF_PLACES = (b"map", b"step", b"compact")
OF_GROUPS = OF_PLACES + (b"stat", b"release")


def _verb(line: bytes) -> bytes:
    words = line.split()
    return words[0] if words else b""


def _is_granted(answer: Optional[str], verb: bytes, line: bytes) -> bool:
    return answer is not None and answer.startswith("ok") and _verb(line) == verb


def cut_feeds(rng: random.Random, script: Script) -> bytes:
    """The script with each granted feed cut into several."""
    lines = []
    for line, answer in zip(script.lines, script.answers):
        if not _is_granted(answer, b"feed", line):
            lines.append(line)
            continue
        _, c, n = line.split()
        left = int(n)
        while left:
            part = rng.randint(1, left)
            lines.append(b"feed %s %d" % (c, part))
            left -= part
    return b"".join(line + b"\n" for line in lines)


def add_moves(rng: random.Random, script: Script) -> tuple[bytes, list[bool]]:
    """The script with moves put in; of each reply, whether an old line has it."""
    lines, old = [], []
    for line, answer in zip(script.lines, script.answers):
        while rng.random() < 0.4:
            lines.append(f"{rng.choice(('step', 'compact'))} {rng.choice(('daram', 'saram', 'external'))}".encode())
            old.append(False)
        lines.append(line)
        if answer is not None:
            old.append(True)
    return b"".join(line + b"\n" for line in lines), old


def other_groups(script: Script) -> bytes:
    """The script with other groups in its granted creations: 7 in place of 0, and so on."""
    lines = []
    for line, answer in zip(script.lines, script.answers):
        if _is_granted(answer, b"create", line):
            words = line.split()
            words[3] = b"%d" % (7 - int(words[3]))
            line = b" ".join(words)
        lines.append(line)
    return b"".join(line + b"\n" for line in lines)


class PlacesByTrial:
    """While it is entered, every search for a place is compared with a trial of each place."""

    def __enter__(self) -> None:
        self.plain = memory.least_place

        def both(space: int, words: int, align: int, taken: Iterable[tuple[int, int]]) -> Optional[int]:
            ranges = list(taken)
            place = self.plain(space, words, align, ranges)
            if place != memory.least_place_by_trial(space, words, align, ranges):
                raise AssertionError("the search for a place fails")
            return place

        memory.least_place = both

    def __exit__(self, *_: object) -> None:
        memory.least_place = self.plain


def _replies_but(lines: Sequence[bytes], replies: Sequence[bytes], verbs: tuple[bytes, ...]) -> list[bytes]:
    """The replies but for those to the verbs."""
    answered = [line for line in lines if is_answered(line)]
    return [reply for line, reply in zip(answered, replies) if len(line) > 1024 or _verb(line) not in verbs]


def _check_moves_and_groups(rng: random.Random, case: RandomCase) -> list[str]:
    """In ample spaces neither moves nor the numbers of groups show."""
    config, script, plain, found = replace(case.config, form="running"), case.script, case.served, []
    replies = plain.replies.split(b"\n")
    text, old = add_moves(rng, script)
    moved = serve(config, text, case.inputs)
    kept = [reply for reply, mine in zip(moved.replies.split(b"\n"), old) if mine]
    if moved.outputs != plain.outputs:
        found.append("moves show in the outputs")
    if _replies_but(script.lines, kept, OF_PLACES) != _replies_but(script.lines, replies, OF_PLACES):
        found.append("moves show in the replies")
    turned = serve(config, other_groups(script), case.inputs)
    spoken = turned.replies.split(b"\n")
    if turned.outputs != plain.outputs or \
            _replies_but(script.lines, spoken, OF_GROUPS) != _replies_but(script.lines, replies, OF_GROUPS):
        found.append("the numbers of groups show")
    return found


def check_case(rng: random.Random, case: RandomCase) -> list[str]:
    """What came out otherwise although it must not; nothing is said of a case with unlawful kinds."""
    config, script, data = case.config, case.script, case.script.data()
    found: list[str] = []
    if config.mixed:
        return found
    with PlacesByTrial():
        plain = serve(replace(config, form="history"), data, case.inputs)
    if plain != case.served:
        found.append("the whole by histories isn't what came line by line with delay lines")
    other = None if config.poison is not None else 21845
    if serve(replace(config, form="running", poison=other), data, case.inputs) != plain:
        found.append("the poison word shows")
    if plain.status >= 2:
        return found
    if serve(replace(config, form="running"), cut_feeds(rng, script), case.inputs).outputs != plain.outputs:
        found.append("the cutting of feeds shows")
    if config.sizes == (SPACE_WORDS_MAX,) * 3:
        found += _check_moves_and_groups(rng, case)
    return found
