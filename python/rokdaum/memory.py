# SPDX-License-Identifier: Apache-2.0
"""What memory a creation wants, where it would be placed, and which of it has no place: the rules of docs/SCRIPTS.md "Memory", outside the program."""

from __future__ import annotations

from collections.abc import Mapping, Sequence
from typing import NamedTuple

from .explain import Instance
from .maps import SIZE, Block, Map

# Records that equal instances share, by kind.
SHARED = {"decim": 2, "g711": 1}


class Want(NamedTuple):
    """Memory that a creation wants: `owner` is r0, r1, .. or `scratch`, `align` the number of which its place is a multiple."""

    space: str
    owner: str
    size: int
    align: int


def wants_of(kind: str, words: Sequence[int]) -> list[Want]:
    """What an instance wants by itself, as docs/SCRIPTS.md has it of each kind; nothing of a kind that it doesn't name."""
    taps = len(words) - (kind == "decim")
    lines = words[0] if words else 0
    scratch = {"fir": (taps + 1023, 16), "decim": (taps + 1023, 16), "biquad": (4, 4), "tone": (3, 4), "gain": (1, 4), "level": (3, 4), "dtmf": (19, 4)}
    scratch |= {"echo": (4 * lines + 13, 4), "adpcm": (25, 4), "signal": (6, 4), "activity": (lines + 5, 4)}
    state = {"fir": 2 * taps - 1, "decim": taps, "biquad": 9, "tone": 6, "gain": 1, "level": 5, "dtmf": 26, "echo": 4 * lines + 17, "adpcm": 27, "signal": 13, "activity": lines + 11}
    if kind not in state and kind != "g711":
        return []
    found = [Want("external", "r0", 4, 4)]
    if kind in state:
        found += [Want("saram", "r1", state[kind], 4), Want("daram", "scratch", *scratch[kind])]
    if kind == "decim":
        found.append(Want("external", "r2", taps + 1, 8))
    if kind == "g711" and tuple(words[1:]) == (1,):
        found.append(Want("external", "r1", 256, 8))
    return [it._replace(size=-(-it.size // 4) * 4) for it in found]


def place_in(shown: Map, size: int, align: int) -> int | None:
    """The least multiple of `align` at which so many words are free, None where there is none."""
    for place, free in shown.holes:
        at = -(-place // align) * align
        if at + size <= place + free:
            return at
    return None


def placed(lives: Mapping[int, Instance], maps: Mapping[str, Map], one: Instance, number: int) -> list[tuple[Want, int | None]]:
    """Where what a creation wants would be placed, None for what finds no place. What it shares with an equal instance, or with its group, it doesn't want."""
    found, maps = [], dict(maps)
    for want in wants_of(one.kind, one.words):
        shown = maps.get(want.space)
        if shown is None:
            continue
        is_shared = want.owner == f"r{SHARED.get(one.kind)}" and any((it.kind, it.words) == (one.kind, one.words) for it in lives.values())
        group = next((it.size for it in shown.blocks if it.owner == f"g{one.group}"), 0)
        if is_shared or want.owner == "scratch" and group >= want.size:
            continue
        at = place_in(shown, want.size, want.align)
        found.append((want, at))
        if at is not None:
            owner = f"i{number}.{want.owner}" if want.owner != "scratch" else f"g{one.group}"
            maps[want.space] = Map(shown.words, tuple(sorted([*shown.blocks, Block(owner, at, want.size)], key=lambda it: it.place)))
    return found


def lacking(lives: Mapping[int, Instance], maps: Mapping[str, Map], one: Instance, number: int) -> list[tuple[Want, str]]:
    """What a creation wants that finds no place, each with a sentence."""
    found = []
    for want, at in placed(lives, maps, one, number):
        if at is None:
            what = "the scratch memory of its group" if want.owner == "scratch" else f"record {want.owner[1:]}"
            shown = maps[want.space]
            found.append((want, f"It wants {want.size:,} words of {want.space} for {what}, at a multiple of {want.align}, and no gap has them: the largest has {shown.largest_hole:,}."))
    return found


def room_needed(lives: Mapping[int, Instance], maps: Mapping[str, Map], one: Instance, number: int) -> str:
    """What a creation that was refused for want of room lacks, and what gives it, or nothing where the maps say that it has room."""
    told = []
    for want, sentence in lacking(lives, maps, one, number):
        shown = maps[want.space]
        free = shown.words - shown.used
        if free >= want.size:
            told.append(f"{sentence} Its gaps have {free:,} words in all: `compact {want.space}` joins them.")
        elif shown.words < SIZE:
            told.append(f"{sentence} A larger --{want.space} gives more, up to {SIZE}.")
        else:
            told.append(f"{sentence} Instances that are no longer needed have to be deleted first.")
        if want.owner == "scratch" and any(it.owner == f"g{one.group}" for it in shown.blocks):
            told.append("The group's own block stays till then: created first, its largest member needs one block.")
    return " ".join(told)
