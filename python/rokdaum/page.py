# SPDX-License-Identifier: Apache-2.0
"""A history as one page that a browser shows by itself: no server, no other file. Python alone is needed.

The page is `page.html` beside this file; what is here makes the data that it shows.
"""

from __future__ import annotations

import json
from collections.abc import Callable, Hashable, Mapping, Sequence
from dataclasses import dataclass, field
from pathlib import Path
from typing import Any

from .explain import Circuit, Instance
from .maps import History, Map, Said
from .memory import SHARED, lacking

TEMPLATE = Path(__file__).with_name("page.html")
DATA, TITLE = "{{DATA}}", "{{TITLE}}"
# What a record is, by kind and number. Record 0 of each kind is its object, and any other one is its state.
ROLES = {
    "": {"0": "its object: the words by which it finds its records", "": "its state, which it keeps while it is idle"},
    "fir": {"1": "its coefficients and past samples, kept while it is idle"},
    "decim": {"1": "its past samples and the count to M, kept while it is idle", "2": "M and its coefficients: written once, shared by equal instances"},
    "biquad": {"1": "its coefficients, past samples and outputs, kept while it is idle"},
    "tone": {"1": "k and the state of the frame, kept while it is idle"},
    "g711": {"1": "the samples of its law's codes: written once, shared by equal instances"},
    "gain": {"1": "its factor, kept while it is idle"},
    "level": {"1": "N, s and the state of the frame, kept while it is idle"},
    "dtmf": {"1": "its limits and the state of the frame, kept while it is idle"},
    "echo": {"1": "its parameters, the line and its coefficients, kept while it is idle"},
    "adpcm": {"1": "its parameters and the state of G.726, kept while it is idle"},
    "signal": {"1": "its parameters, its tones and their place in the cadence, kept while it is idle"},
    "activity": {"1": "its parameters, the samples of the frame, the floor and the hangover, kept while it is idle"},
}
def missing_room(history: History, said: Sequence[Said]) -> dict[int, list[list[Any]]]:
    """For each step whose creation had no room: [space, owner, words, alignment, sentence] of each want that found no place."""
    circuit, found = Circuit(), {}
    left = list(reversed(history.moments))
    maps: Mapping[str, Map] = {}
    for step, (line, text, reply, _) in enumerate(said, 1):
        words = text.split()
        if reply == "no 7 room" and words[:1] == ["create"]:
            one = Instance(words[2], int(words[3]), tuple(int(it) for it in words[4:]))
            if lost := lacking(circuit.instances, maps or emptied(history), one, int(words[1])):
                found[step] = [[*want, sentence] for want, sentence in lost]
        if words[:1] and words[0] in ("create", "delete") and reply.split()[:1] == ["ok"]:
            circuit.follow(words, reply, "")
        while left and left[-1].line <= line:
            maps = left.pop().maps
    return found


def emptied(history: History) -> dict[str, Map]:
    """Each space without a block."""
    return {space: Map(size, ()) for space, size in history.sizes.items()}


@dataclass
class Spans:
    """From which step to which something stood as it was. `found` has [name, what, first step, step behind the last] each."""

    end: int
    found: list[list[Any]] = field(default_factory=list)
    now: dict[Hashable, tuple[object, list[Any]]] = field(default_factory=dict)

    def take(self, step: int, standing: Mapping[int, object], show: Callable[[Any], object]) -> None:
        """Takes what stands behind a step."""
        for name in [it for it in self.now if self.now[it][0] is not standing.get(it)]:  # type: ignore[call-overload]
            self.now.pop(name)[1][3] = step
        for name, what in standing.items():
            if name not in self.now:
                row = [name, show(what), step, self.end]
                self.found.append(row)
                self.now[name] = (what, row)


def steps_of(history: History) -> list[Said]:
    """The lines that the page steps through: all that were answered, or those of the moments where no reply is known."""
    return history.said or [Said(moment.line, moment.text, "") for moment in history.moments]


def circuit_of(said: Sequence[Said]) -> tuple[list[list[Any]], list[list[Any]]]:
    """When which instance lived, with its kind, group and parameters, and which channel had which members, by the lines that were accepted."""
    circuit, lives, chains = Circuit(), Spans(len(said) + 1), Spans(len(said) + 1)
    for step, (_, text, reply, _) in enumerate(said, 1):
        words = text.split()
        if words[:1] and words[0] in ("create", "delete", "chain", "unchain") and reply.split()[:1] == ["ok"]:
            circuit.follow(words, reply, "")
            lives.take(step, circuit.instances, lambda it: [it.kind, it.group, list(it.words)])
            chains.take(step, circuit.channels, list)
    return lives.found, chains.found


def moments_of(history: History, said: Sequence[Said]) -> list[list[Any]]:
    """For each moment its step, the spaces that changed, with [owner, place, size] of each block, and the groups that did."""
    at = {one.line: step for step, one in enumerate(said, 1)}
    found, maps, active = [], {}, {}  # type: ignore[var-annotated]
    for moment in history.moments:
        changed = {space: [list(block) for block in it.blocks] for space, it in moment.maps.items() if maps.get(space) != it}
        turned = {group: member for group, member in moment.active.items() if active.get(group, -1) != member}
        maps, active = dict(moment.maps), dict(moment.active)
        found.append([at.get(moment.line, 0), changed, turned])
    return found


def data_of(history: History, title: str) -> dict[str, Any]:
    """What the page shows, as JSON takes it."""
    said = steps_of(history)
    lives, chains = circuit_of(said)
    return {
        "title": title,
        "sizes": dict(history.sizes),
        "lines": [list(one) for one in said],
        "moments": moments_of(history, said),
        "lives": lives,
        "chains": chains,
        "roles": ROLES,
        "shared": SHARED,
        "wants": missing_room(history, said),
    }


def html_of(history: History, title: str = "memory over a script") -> str:
    """The page. Whatever a line of a script holds, it stands in the page as text."""
    shown = json.dumps(data_of(history, title), separators=(",", ":")).replace("<", "\\u003c")
    name = title.replace("&", "&amp;").replace("<", "&lt;")
    return TEMPLATE.read_text(encoding="utf-8").replace(TITLE, name).replace(DATA, shown)
