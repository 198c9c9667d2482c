# SPDX-License-Identifier: Apache-2.0
"""The host of instances and its channels: who is there, which blocks stand where, and who is active."""

from __future__ import annotations

from dataclasses import dataclass, field
from typing import NamedTuple, Optional, Sequence, Union

from .kinds import Kind
from .memory import TALLY_MAX, Attr, Heap, Need, Piece, Record, Space, Spot, next_move, scratch_layout, valid_table
from .refusals import Refusal, Refused
from .rogues import ROGUES, RogueVoice
from .voices import Block, Control, Sample, Unknown, Voice

INSTANCES, GROUPS, MEMBERS_MAX, PORTS_MAX = 64, 8, 8, 16
ACTIVATIONS_MAX = (1 << 32) - 1

UNSETTLED = "unsettled"
"""Stands for a group's active member where that isn't determined."""

Active = Union[int, str, None]
"""A group's active member: an instance's number, None, or UNSETTLED."""


@dataclass(eq=False)
class Placing:
    """A block of a space: a record of its holders, or the scratch of a group."""

    space: Space
    piece: Piece
    align: int
    record: int = 0
    holders: set[int] = field(default_factory=set)
    group: Optional[int] = None

    def owner(self) -> str:
        """The owner as `map` shows it."""
        return f"g{self.group}" if self.group is not None else f"i{min(self.holders)}.r{self.record}"


class Group:
    """Instances that share scratch: their blocks, the active member, and how often one was activated."""

    def __init__(self) -> None:
        self.members: set[int] = set()
        self.blocks: dict[Space, Placing] = {}
        self.active: Active = None
        self.activations: Optional[int] = 0      # None where it isn't determined
        self.first_word: Optional[int] = None    # of the block in daram, where it is determined

    def need(self, table: Sequence[Record], space: Space) -> Optional[Need]:
        """The block that a new member asks for, None where the group's block does."""
        layout = scratch_layout(table, space)
        if layout.need == 0:
            return None
        old = self.blocks.get(space)
        if old is None:
            return Need(layout.need, layout.align)
        if old.piece.length >= layout.need and old.align >= layout.align:
            return None
        return Need(max(old.piece.length, layout.need), max(old.align, layout.align))


@dataclass(eq=False)
class Instance:
    """A living instance."""

    kind: Kind
    parameters: tuple[int, ...]
    group: int
    table: tuple[Record, ...]
    blocks: dict[int, Placing]      # by the record's number; scratch records aren't here
    voice: Voice

    def has_scratch(self) -> bool:
        """Whether it works in its group's blocks."""
        return any(r.attr is Attr.SCRATCH for r in self.table)


class Stat(NamedTuple):
    """A group's active member and the number of its activations."""

    active: Active
    activations: Optional[int]


class Placed(NamedTuple):
    """A block as `map` shows it."""

    owner: str
    place: int
    size: int
    align: int


class Host:
    """Instances in three spaces."""

    def __init__(self, sizes: Sequence[int], poison: Optional[int] = None, form: str = "history"):
        self.poison, self.form = poison, form
        self.heaps = [Heap(words) for words in sizes]
        self.blocks: list[list[Placing]] = [[], [], []]
        self.instances: dict[int, Instance] = {}
        self.groups = [Group() for _ in range(GROUPS)]

    # Blocks

    def _place(self, space: Space, words: int, align: int) -> Placing:
        piece = self.heaps[space].take(words, align)
        if piece is None:
            raise Refused(Refusal.ROOM, space)
        block = Placing(space, piece, align)
        self.blocks[space].append(block)
        return block

    def _drop(self, block: Placing) -> None:
        self.heaps[block.space].give(block.piece)
        self.blocks[block.space].remove(block)

    def _twin(self, kind: Kind, p: tuple[int, ...], k: int, record: Record) -> Optional[Placing]:
        """The block of an equal write-once record of a living instance."""
        if record.attr is not Attr.WRITE_ONCE:
            return None
        for other in self.instances.values():
            if other.kind is kind and other.parameters == p and k < len(other.table) and other.table[k] == record:
                return other.blocks[k]
        return None

    # Life of an instance

    def create(self, i: int, kind: Kind, group: int, p: Sequence[int]) -> None:
        """Makes an instance, idle, where no reason to refuse it holds."""
        p = tuple(p)
        if i >= INSTANCES or group >= GROUPS:
            raise Refused(Refusal.RANGE)
        if i in self.instances:
            raise Refused(Refusal.TAKEN)
        table = kind.table(p)
        if table is None:
            raise Refused(Refusal.PARAMS)
        assert valid_table(table)
        g = self.groups[group]
        own, scratch = self._place_all(kind, p, group, table)
        for block in own.values():
            block.holders.add(i)
        if any(space in g.blocks for space in scratch):
            self._rest(g)
        for space, block in scratch.items():
            if space in g.blocks:
                self._drop(g.blocks[space])
            g.blocks[space] = block
            if space is Space.DARAM:
                g.first_word = self.poison
        g.members.add(i)
        voice = kind.start(p, self.form)
        if isinstance(voice, RogueVoice):
            voice.group = g
        self.instances[i] = Instance(kind, p, group, table, own, voice)

    def _place_all(self, kind: Kind, p: tuple[int, ...], group: int, table: Sequence[Record]) \
            -> tuple[dict[int, Placing], dict[Space, Placing]]:
        """Places the records of a new instance and what its group needs, all or nothing. An equal write-once record is shared."""
        placed: list[Placing] = []
        own: dict[int, Placing] = {}
        scratch: dict[Space, Placing] = {}
        try:
            for k, record in enumerate(table):
                if record.attr is Attr.SCRATCH:
                    continue
                twin = self._twin(kind, p, k, record)
                if twin is None:
                    twin = self._place(record.space, record.size, record.align)
                    twin.record = k
                    placed.append(twin)
                own[k] = twin
            for space in Space:
                need = self.groups[group].need(table, space)
                if need is not None:
                    scratch[space] = self._place(space, *need)
                    scratch[space].group = group
                    placed.append(scratch[space])
        except Refused:
            for block in placed:
                self._drop(block)
            raise
        return own, scratch

    def _rest(self, g: Group) -> None:
        """Deactivates the active member, if there is one."""
        if g.active is not None:
            g.first_word = self.poison   # without a poison word the host may leave anything there
        g.active = None

    def _touch(self, i: int, surely: bool = True) -> None:
        """Activates an instance if it is idle. Where it isn't determined whether it is touched, its group is unsettled from
        then on."""
        instance = self.instances[i]
        g = self.groups[instance.group]
        if g.active == i:
            return
        if not surely or g.active is UNSETTLED:
            g.active = i if surely else UNSETTLED
            g.activations, g.first_word = None, None
            return
        self._rest(g)
        g.active = i
        if g.activations is not None:
            g.activations = min(g.activations + 1, ACTIVATIONS_MAX)
        if instance.has_scratch() and instance.kind is not ROGUES["clinger"]:
            g.first_word = None   # private to the kind from here on

    def control(self, i: int, control: Control) -> tuple[Sample, ...]:
        """Gives a control to an instance; the words of its status."""
        if i >= INSTANCES:
            raise Refused(Refusal.RANGE)
        if i not in self.instances:
            raise Refused(Refusal.MISSING)
        instance = self.instances[i]
        if not instance.kind.accepts(instance.parameters, control):
            raise Refused(Refusal.COMMAND)
        self._touch(i)
        return instance.voice.control(control)

    def process(self, i: int, block: Block) -> Block:
        """The output of a block that isn't empty."""
        self._touch(i, surely=not isinstance(block, Unknown))
        return self.instances[i].voice.process(block)

    def delete(self, i: int) -> None:
        """Ends an instance. Its records go but for those that others hold; its group's blocks go with the last member."""
        if i >= INSTANCES:
            raise Refused(Refusal.RANGE)
        if i not in self.instances:
            raise Refused(Refusal.MISSING)
        instance = self.instances.pop(i)
        g = self.groups[instance.group]
        if g.active == i:
            self._rest(g)
        for block in instance.blocks.values():
            block.holders.discard(i)
            if not block.holders:
                self._drop(block)
        g.members.discard(i)
        if not g.members:
            g.active, g.first_word = None, None
            for block in g.blocks.values():
                self._drop(block)
            g.blocks.clear()

    # Moves

    def _in_place_order(self, space: Space) -> list[Placing]:
        return sorted(self.blocks[space], key=lambda b: b.piece.place)

    def step(self, space: Space) -> bool:
        """Moves the first block that isn't at its packed place; whether one moved."""
        blocks = self._in_place_order(space)
        move = next_move([Spot(b.piece.place, b.piece.length, b.align) for b in blocks])
        if move is None:
            return False
        index, to = move
        self.heaps[space].lower(blocks[index].piece, blocks[index].align)
        assert blocks[index].piece.place == to
        return True

    def compact(self, space: Space) -> int:
        """Packs a space; how many blocks moved."""
        moves = 0
        while self.step(space):
            moves += 1
        return moves

    # Groups and maps

    def release(self, group: int) -> Optional[bool]:
        """Deactivates a group's active member; whether there was one, None where that isn't determined."""
        if group >= GROUPS:
            raise Refused(Refusal.RANGE)
        g = self.groups[group]
        was = None if g.active is UNSETTLED else g.active is not None
        self._rest(g)
        return was

    def stat(self, group: int) -> Stat:
        """A group's active member and count."""
        if group >= GROUPS:
            raise Refused(Refusal.RANGE)
        return Stat(self.groups[group].active, self.groups[group].activations)

    def map(self, space: Space) -> list[Placed]:
        """The blocks of a space in place order."""
        return [Placed(b.owner(), b.piece.place, b.piece.length, b.align) for b in self._in_place_order(space)]

    def living(self, i: int) -> bool:
        """Whether an instance is there."""
        return i in self.instances

    def copied(self) -> int:
        """How many words were moved in all spaces."""
        return min(sum(heap.slid for heap in self.heaps), TALLY_MAX)


class Channels:
    """Lists of instances through which blocks pass."""

    def __init__(self, host: Host, count: int):
        assert 1 <= count <= PORTS_MAX and not host.instances
        self.host, self.count = host, count
        self.members: dict[int, tuple[int, ...]] = {}

    def channel_of(self, i: int) -> Optional[int]:
        """The channel that an instance is a member of."""
        return next((c for c, members in self.members.items() if i in members), None)

    def chain(self, c: int, members: Sequence[int]) -> None:
        """Makes a channel of living instances that are in none."""
        if c >= self.count or any(i >= INSTANCES for i in members):
            raise Refused(Refusal.RANGE)
        if c in self.members:
            raise Refused(Refusal.TAKEN)
        if not all(self.host.living(i) for i in members):
            raise Refused(Refusal.MISSING)
        if len(set(members)) < len(members) or any(self.channel_of(i) is not None for i in members):
            raise Refused(Refusal.BUSY)
        self.members[c] = tuple(members)

    def unchain(self, c: int) -> None:
        """Ends a channel; its members live on."""
        self.ready(c)
        del self.members[c]

    def delete(self, i: int) -> None:
        """Ends an instance that is in no channel."""
        if i < INSTANCES and self.host.living(i) and self.channel_of(i) is not None:
            raise Refused(Refusal.BUSY)
        self.host.delete(i)

    def ready(self, c: int) -> None:
        """Refuses where the channel isn't there."""
        if c >= self.count:
            raise Refused(Refusal.RANGE)
        if c not in self.members:
            raise Refused(Refusal.MISSING)

    def feed(self, c: int, block: Block) -> Block:
        """The output of the last member. An empty block goes to no further member."""
        for i in self.members[c]:
            if not isinstance(block, Unknown) and not block:
                break
            block = self.host.process(i, block)
        return block
