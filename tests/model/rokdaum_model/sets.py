# SPDX-License-Identifier: Apache-2.0
"""The sets of kinds that programs host, each by a name."""

from __future__ import annotations

from typing import Mapping

from .gateway import GATEWAY
from .gateway_states import STATEFUL
from .kinds import LAWFUL, Kind
from .rogues import ROGUES

HOSTED, MIXED, GATEWAY_SET = "hosted", "mixed", "gateway"

PROGRAMS = {HOSTED: "dsp_console_main", MIXED: "mixed_console", GATEWAY_SET: "gateway_console"}
"""The program that hosts a set."""

MORE: dict[str, Mapping[str, Kind]] = {HOSTED: {}, MIXED: ROGUES, GATEWAY_SET: {**GATEWAY, **STATEFUL}}
"""The kinds that a set has beside the five hosted ones."""


def kinds_by_name(kinds: str) -> dict[str, Kind]:
    """The kinds of a set, which a script may name."""
    return {**LAWFUL, **MORE[kinds]}
