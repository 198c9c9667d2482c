# SPDX-License-Identifier: Apache-2.0
"""Memory maps: what the replies to `map` say, and how memory and scratch groups change over a run.

Places and sizes are in words of 16 bits. Python alone is needed.
"""

from __future__ import annotations

import json
import re
from collections.abc import Iterable, Mapping, Sequence
from dataclasses import dataclass, field
from typing import NamedTuple

from .errors import NotAMap

SPACES = ("daram", "saram", "external")
SIZE = 65536
BLOCK = re.compile(r"(i\d+\.r\d+|g\d+)@(\d+)\+(\d+)")
WIDTH = 64
NEXT = ",\n"
FREE = "."


class Block(NamedTuple):
    """A range of words: `iI.rK` is record K of instance I, `gG` the scratch memory of group G."""

    owner: str
    place: int
    size: int

    @property
    def end(self) -> int:
        """The first word behind it."""
        return self.place + self.size

    @property
    def is_scratch(self) -> bool:
        """Whether it is a group's scratch memory."""
        return self.owner.startswith("g")

    @property
    def number(self) -> int:
        """The number of its instance or group."""
        return int(re.findall(r"\d+", self.owner)[0])


@dataclass(frozen=True)
class Map:
    """The blocks of a space of `words` words, in the order of their places."""

    words: int
    blocks: tuple[Block, ...]

    @property
    def used(self) -> int:
        """The words that blocks have."""
        return sum(block.size for block in self.blocks)

    @property
    def holes(self) -> list[tuple[int, int]]:
        """The free ranges, as (place, words)."""
        ends = [0, *(block.end for block in self.blocks)]
        starts = [*(block.place for block in self.blocks), self.words]
        return [(end, start - end) for end, start in zip(ends, starts) if start > end]

    @property
    def largest_hole(self) -> int:
        """The words of the largest free range, 0 where there is none."""
        return max((size for _, size in self.holes), default=0)


def parse_map(reply: str, words: int = SIZE) -> Map:
    """The map of a reply `ok OWNER@PLACE+SIZE ..`. Raises NotAMap where it is no such reply or doesn't fit into `words` words."""
    head, *spoken = reply.split()[:1] + reply.split()[1:] if reply.split() else [""]
    matched = [BLOCK.fullmatch(word) for word in spoken]
    found = [one for one in matched if one]
    if head != "ok" or len(found) < len(matched):
        raise NotAMap(f"no reply to map: {reply[:80]!r}")
    blocks = tuple(Block(one[1], int(one[2]), int(one[3])) for one in found)
    for before, block in zip(blocks, blocks[1:]):
        if block.place < before.end:
            raise NotAMap(f"{block.owner} begins at word {block.place}, within {before.owner}")
    if blocks and blocks[-1].end > words:
        raise NotAMap(f"{blocks[-1].owner} ends at word {blocks[-1].end}, and the space has {words}: say how large the space is")
    return Map(words, blocks)


def parse_stat(reply: str) -> int | None:
    """The active member of a reply `ok A K` to `stat`, None where there is none. Raises NotAMap where it is no such reply."""
    if not (found := re.fullmatch(r"ok (\d+|-) \d+", reply)):
        raise NotAMap(f"no reply to stat: {reply[:80]!r}")
    return None if found[1] == "-" else int(found[1])


@dataclass(frozen=True)
class Moment:
    """What stood where behind a line of a script: a map of each space that is known, and the active member of each group that is known."""

    line: int
    text: str
    maps: Mapping[str, Map]
    active: Mapping[int, int | None]


class Said(NamedTuple):
    """A line that was answered, its reply, and what it needs where it was refused."""

    line: int
    text: str
    reply: str
    why: str = ""


@dataclass
class History:
    """The moments of a run at which something changed. `sizes` has the words of each space, `last` the number of the last line.

    `said` has each line with its reply, where those are known.
    """

    sizes: Mapping[str, int] = field(default_factory=lambda: dict.fromkeys(SPACES, SIZE))
    moments: list[Moment] = field(default_factory=list)
    last: int = 0
    said: list[Said] = field(default_factory=list)

    def add(self, line: int, text: str, replies: Mapping[str, str], active: Mapping[int, int | None]) -> None:
        """Takes the replies to `map`, by space, and the active members behind a line. Spaces that aren't named stay as they were."""
        before = self.moments[-1] if self.moments else Moment(0, "", {}, {})
        maps = {**before.maps, **{space: parse_map(reply, self.sizes[space]) for space, reply in replies.items()}}
        now = Moment(line, text.strip(), maps, {**before.active, **active})
        self.last = line
        if (now.maps, now.active) != (before.maps, before.active):
            self.moments.append(now)

    def to_json(self) -> str:
        """The history as JSON, which `from_json` reads. A moment has the spaces and groups that changed at it alone, a moment and a line of the script each a line."""
        before, rows = Moment(0, "", {}, {}), []
        for moment in self.moments:
            maps = {space: [it.words, *it.blocks] for space, it in moment.maps.items() if before.maps.get(space) != it}
            active = {group: member for group, member in moment.active.items() if group not in before.active or before.active[group] != member}
            rows.append(json.dumps({"line": moment.line, "text": moment.text, "maps": maps, "active": active}))
            before = moment
        said = [json.dumps(it) for it in self.said]
        head = f'{{"sizes": {json.dumps(dict(self.sizes))}, "last": {self.last}'
        return f'{head}, "moments": [\n{NEXT.join(rows)}],\n"said": [\n{NEXT.join(said)}]}}'

    @classmethod
    def from_json(cls, text: str) -> History:
        """The history that `to_json` wrote. Raises NotAMap where the text is another."""
        try:
            found = json.loads(text)
            moments: list[Moment] = []
            for one in found["moments"]:
                before = moments[-1] if moments else Moment(0, "", {}, {})
                maps = {space: Map(int(words), tuple(Block(str(owner), int(place), int(size)) for owner, place, size in blocks)) for space, (words, *blocks) in one["maps"].items()}
                active = {int(group): member for group, member in one["active"].items()}
                moments.append(Moment(int(one["line"]), str(one["text"]), {**before.maps, **maps}, {**before.active, **active}))
            said = [Said(int(line), str(spoken), str(reply), str(why)) for line, spoken, reply, why in found["said"]]
            return cls({str(space): int(size) for space, size in found["sizes"].items()}, moments, int(found["last"]), said)
        except (ValueError, KeyError, TypeError, AttributeError) as why:
            raise NotAMap(f"no history of dsp_run: {why!r}") from None

    def spaces(self) -> list[str]:
        """The spaces of which a map is known."""
        return [space for space in self.sizes if any(space in moment.maps for moment in self.moments)]


def from_replies(replies: Iterable[str], sizes: Mapping[str, int], space: str = "daram") -> History:
    """The history of replies alone: each that names a block is taken for a map of `space`."""
    found = History(sizes)
    for number, reply in enumerate(replies, 1):
        found.said.append(Said(number, f"reply {number}", reply))
        if reply.startswith("ok ") and "@" in reply:
            found.add(number, f"reply {number}", {space: reply}, {})
    return found


def from_run(lines: Iterable[tuple[int, str]], replies: Sequence[str], sizes: Mapping[str, int]) -> History:
    """The history of a script's lines, (number, text) of each that gets a reply, and of its replies: what its `map` and `stat` lines tell."""
    found = History(sizes)
    for (number, text), reply in zip(lines, replies):
        words = text.split()
        found.said.append(Said(number, text.strip(), reply))
        if words[:1] == ["map"] and reply.split()[:1] == ["ok"] and words[1] in SPACES:
            found.add(number, text, {words[1]: reply}, {})
        elif words[:1] == ["stat"] and reply.split()[:1] == ["ok"]:
            found.add(number, text, {}, {int(words[1]): parse_stat(reply)})
        found.last = number
    return found


def mark(block: Block) -> str:
    """The letter of a block in a bar: the digit of a group, a letter for an instance."""
    if block.is_scratch:
        return str(block.number)
    letters = "abcdefghijklmnopqrstuvwxyzABCDEFGHIJKLMNOPQRSTUVWXYZ"
    return letters[block.number % len(letters)]


def bar(shown: Map, width: int = WIDTH, span: int | None = None) -> str:
    """The first `span` words of a map, all where nothing is said, as a line of `width` letters. A block has at least one, though a later one may cover it."""
    letters, span = [FREE] * width, max(shown.words if span is None else span, 1)
    for block in shown.blocks:
        first = min(block.place * width // span, width - 1)
        last = max(first + 1, -(-block.end * width // span))
        letters[first:last] = [mark(block)] * (min(last, width) - first)
    return "".join(letters)


def describe(shown: Map, width: int = WIDTH, span: int | None = None) -> str:
    """A bar, what is used, and the largest hole."""
    return f"|{bar(shown, width, span)}| used {shown.used} of {shown.words}, largest hole {shown.largest_hole}"


def text_of(history: History, space: str, width: int = WIDTH) -> str:
    """A line for each moment at which the map of a space or an active member changed, and what the letters mean.

    The bars end behind the last word that a block ever has, rounded up to a power of two.
    """
    rows, marks, before = [], {}, None
    top = max((block.end for moment in history.moments if space in moment.maps for block in moment.maps[space].blocks), default=0)
    span = min(history.sizes[space], 1 << max(top - 1, 1).bit_length())
    for moment in history.moments:
        shown = moment.maps.get(space)
        if shown is None:
            continue
        active = " ".join(f"g{group}:{'-' if member is None else f'i{member}'}" for group, member in sorted(moment.active.items()))
        if (shown, active) != before:
            rows.append(f"{moment.line:6} {describe(shown, width, span)}  {moment.text[:40]}{'  active ' + active if active else ''}")
            before = (shown, active)
        marks.update({mark(block): block.owner.split(".")[0] for block in shown.blocks})
    rows.append("letters: " + " ".join(f"{letter}={owner}" for letter, owner in sorted(marks.items())) if marks else "no block")
    return "\n".join([f"{space}, {history.sizes[space]} words, bars to word {span}", *rows]) + "\n"
