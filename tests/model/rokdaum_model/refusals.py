# SPDX-License-Identifier: Apache-2.0
"""The refusals of commands."""

from __future__ import annotations

import enum
from typing import Optional

from .memory import Space


class Refusal(enum.Enum):
    """The refusals, each with its number and name."""

    LONG = (1, "long")
    SYNTAX = (2, "syntax")
    RANGE = (3, "range")
    TAKEN = (4, "taken")
    MISSING = (5, "missing")
    PARAMS = (6, "params")
    ROOM = (7, "room")
    BUSY = (8, "busy")
    COMMAND = (9, "command")
    SHORT = (10, "short")


class Refused(Exception):
    """A command was refused; nothing else has happened. `space` is where `room` was lacking."""

    def __init__(self, refusal: Refusal, space: Optional[Space] = None):
        super().__init__(refusal.name)
        self.refusal, self.space = refusal, space

    def text(self) -> str:
        """The reply."""
        return "no %d %s" % self.refusal.value
