# SPDX-License-Identifier: Apache-2.0
"""The kinds of `mixed_console` that break the laws of algorithms. Of what they give only a part is determined."""

from __future__ import annotations

from typing import TYPE_CHECKING, Optional

from .kinds import Kind, Parameters
from .memory import OBJECT, Attr, Record, Space
from .voices import UNKNOWN, Block, Control, Sample, Voice, Unknown

if TYPE_CHECKING:
    from .machine import Group


class Rogue(Kind):
    """An unlawful kind: three records, no parameters, and it accepts every control."""

    def __init__(self, name: str):
        self.name = name

    def table(self, p: Parameters) -> Optional[tuple[Record, ...]]:
        """The same records for each of them."""
        if p:
            return None
        return (OBJECT, Record(8, 4, Space.SARAM, Attr.PERSIST), Record(260, 16, Space.DARAM, Attr.SCRATCH))

    def accepts(self, p: Parameters, control: Control) -> bool:
        """Everything."""
        return True

    def start(self, p: Parameters, form: str) -> Voice:
        """A new instance."""
        return RogueVoice(self.name)


class RogueVoice(Voice):
    """What is determined of a rogue: `scribble` gives its input; `clinger` gives the first scratch word and keeps the last
    sample there; the others give what they like."""

    def __init__(self, name: str):
        self.name = name
        self.group: Optional[Group] = None   # set by the host

    def process(self, block: Block) -> Block:
        """The output, where it is determined."""
        if self.name == "scribble":
            return block
        if self.name != "clinger":
            return UNKNOWN
        assert self.group
        if isinstance(block, Unknown):
            self.group.first_word = None
            return UNKNOWN
        given = [self.group.first_word, *block[:-1]]
        self.group.first_word = block[-1]
        return given

    def control(self, control: Control) -> tuple[Sample, ...]:
        """Done."""
        return ()


ROGUES = {name: Rogue(name) for name in ("scribble", "clinger", "forger", "babbler")}
