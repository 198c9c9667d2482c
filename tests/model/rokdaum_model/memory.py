# SPDX-License-Identifier: Apache-2.0
"""Records of memory, the layout of scratch, and spaces as pictures of their blocks.

A space is a set of blocks. A new block goes to the least place at which it meets none of them (first fit by place). Words
aren't modelled: no reply and no output depends on them where the kinds are lawful.
"""

from __future__ import annotations

import enum
from bisect import insort
from dataclasses import dataclass
from typing import Iterable, NamedTuple, Optional, Sequence

SPACE_WORDS_MAX = 65536
RECORDS_MAX = 4
TALLY_MAX = (1 << 64) - 1   # of words moved and of refusals: a count stays there


class Space(enum.IntEnum):
    """The spaces, in their order."""

    DARAM = 0
    SARAM = 1
    EXTERNAL = 2


class Attr(enum.Enum):
    """What a record is for."""

    SCRATCH = "scratch"
    PERSIST = "persist"
    WRITE_ONCE = "write once"


class Record(NamedTuple):
    """A record of memory as an algorithm asks for it."""

    size: int
    align: int
    space: Space
    attr: Attr


class Layout(NamedTuple):
    """Where the scratch records of a table lie in their group's block."""

    offsets: tuple[int, ...]
    need: int
    align: int


class Need(NamedTuple):
    """A block that is to be placed for a group."""

    size: int
    align: int


OBJECT = Record(4, 4, Space.EXTERNAL, Attr.PERSIST)
"""The record of the instance object, with which every table begins."""


def round_up(value: int, step: int) -> int:
    """The least multiple of `step` not below `value`."""
    return -(-value // step) * step


def valid_alignment(align: int) -> bool:
    """Whether a record may have this alignment."""
    return 4 <= align <= 1024 and align & (align - 1) == 0


def valid_space(words: int) -> bool:
    """Whether a space may have this size."""
    return 0 <= words <= SPACE_WORDS_MAX and words % 4 == 0


def valid_table(records: Sequence[Record]) -> bool:
    """Whether these records can be a table."""
    return (1 <= len(records) <= RECORDS_MAX
            and records[0].attr is Attr.PERSIST
            and all(1 <= r.size <= SPACE_WORDS_MAX and valid_alignment(r.align) for r in records))


def scratch_layout(table: Sequence[Record], space: Space) -> Layout:
    """The table's scratch records of a space one behind the other, each at its alignment."""
    offsets, end, align = [], 0, 4
    for record in table:
        if record.attr is Attr.SCRATCH and record.space is space:
            offset = round_up(end, record.align)
            offsets.append(offset)
            end = offset + record.size
            align = max(align, record.align)
    return Layout(tuple(offsets), round_up(end, 4), align)


def least_place(space: int, words: int, align: int, taken: Iterable[tuple[int, int]]) -> Optional[int]:
    """The least multiple of `align` at which `words` words lie within the space and meet none of the taken ranges, which come
    in ascending order; None where there is no such place.

    A place that meets a range meets it up to the range's end, so the search goes on there.
    """
    place = 0
    for start, end in taken:
        if place + words <= start:
            break
        if place < end:
            place = round_up(end, align)
    return place if place + words <= space else None


def least_place_by_trial(space: int, words: int, align: int, taken: Iterable[tuple[int, int]]) -> Optional[int]:
    """The same by trying each place in turn."""
    ranges = list(taken)
    for place in range(0, space - words + 1, align):
        if all(place + words <= start or end <= place for start, end in ranges):
            return place
    return None


class BadSize(Exception):
    """A space that isn't 0 to 65,536 words, or not a multiple of 4."""


@dataclass(eq=False)
class Piece:
    """An owned range of a space."""

    place: int
    length: int

    @property
    def end(self) -> int:
        """The place behind it."""
        return self.place + self.length


class Heap:
    """A space as the set of its pieces."""

    def __init__(self, words: int):
        if not valid_space(words):
            raise BadSize
        self.words = words
        self.pieces: list[Piece] = []   # in place order
        self.slid = 0                   # words that were moved, again for each move

    def take(self, words: int, align: int) -> Optional[Piece]:
        """A new piece at the least place, None exactly where there is none."""
        placed = round_up(words, 4)
        place = least_place(self.words, placed, align, ((p.place, p.end) for p in self.pieces))
        if place is None:
            return None
        piece = Piece(place, placed)
        insort(self.pieces, piece, key=lambda p: p.place)
        return piece

    def give(self, piece: Piece) -> None:
        """Takes a piece back."""
        self.pieces.remove(piece)

    def lower(self, piece: Piece, align: int) -> None:
        """Moves a piece to the least multiple of `align` in the free range directly before it, if there is one."""
        at = self.pieces.index(piece)
        place = round_up(self.pieces[at - 1].end if at else 0, align)
        if place < piece.place:
            piece.place = place
            self.slid = min(self.slid + piece.length, TALLY_MAX)

    def free(self) -> int:
        """The free words."""
        return self.words - sum(p.length for p in self.pieces)


class Spot(NamedTuple):
    """A block as the mover sees it."""

    place: int
    size: int
    align: int


def next_move(spots: Sequence[Spot]) -> Optional[tuple[int, int]]:
    """The index and the new place of the first block that isn't at its packed place, None where all are."""
    packed_end = 0
    for index, (place, size, align) in enumerate(spots):
        packed = round_up(packed_end, align)
        if place != packed:
            return index, packed
        packed_end = packed + size
    return None
