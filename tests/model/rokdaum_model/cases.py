# SPDX-License-Identifier: Apache-2.0
"""A case: one run of the program with what is expected of it, in memory or as a folder.

A folder holds `arguments` (the words of the command line, one a line), `script`, `in0`, `in1` .., and what is expected:
`replies`, `out0`, `out1` .., `status`, `stderr`. `about.json` says the rest: a note, the set of kinds that is
hosted, whether the OUTs hold something before the run (`stale`), whether SCRIPT comes by a pipe (`piped`), and what isn't
determined: numbers of replies in which `*` stands for any word, and ranges of bytes of outputs.
"""

from __future__ import annotations

import json
from dataclasses import dataclass, field
from pathlib import Path
from typing import Optional

from .command_line import option_words, port_words
from .console import FAULT_STATUS, Config, Served, Undetermined, serve_with_undetermined, status_line
from .sets import HOSTED

ABOUT = ("note", "kinds", "stale", "piped", "any_replies", "any_outputs")
WRONG_COMMAND_LINE = 2   # the status of a run that doesn't begin, as where a size is wrong
STALE = b"left by an earlier run, "


def limited(data: bytes, length: int) -> bytes:
    """So many bytes of a text over and over."""
    return (data * (length // len(data) + 1))[:length]


@dataclass
class Case:
    """A run and its expected result."""

    words: list[str]
    script: bytes
    inputs: list[bytes]
    replies: bytes
    outputs: list[bytes]
    status: int
    stderr: bytes = b""
    note: str = ""
    kinds: str = HOSTED
    stale: bool = False
    piped: bool = False
    any_replies: list[int] = field(default_factory=list)
    any_outputs: dict[str, list[tuple[int, Optional[int]]]] = field(default_factory=dict)

    @property
    def begins(self) -> bool:
        """Whether the run gets to the script: one that doesn't leaves all files as they were."""
        return self.status != WRONG_COMMAND_LINE

    def held_before(self, c: int) -> Optional[bytes]:
        """What an OUT holds before the run, None where it isn't there."""
        return limited(STALE, len(self.outputs[c]) + 100) if self.stale else None


def case_of(config: Config, script: bytes, inputs: list[bytes], served: Served, undetermined: Undetermined,
            note: str = "") -> Case:
    """The case of a run whose result is known."""
    stderr = b""
    if served.status > 1:
        cause = next(cause for cause, status in FAULT_STATUS.items() if status == served.status)
        stderr = status_line(cause, config.kinds).encode() + b"\n"
    return Case(option_words(config) + port_words(len(inputs)), script, inputs, served.replies, served.outputs, served.status,
                stderr, note, config.kinds, any_replies=undetermined.replies,
                any_outputs={str(c): ranges for c, ranges in undetermined.outputs.items()})


def expected_case(config: Config, script: bytes, inputs: list[bytes], note: str = "") -> Case:
    """The case of a run, with the model's result."""
    return case_of(config, script, inputs, *serve_with_undetermined(config, script, inputs), note)


def write_case(folder: Path, case: Case) -> None:
    """Writes a case as a folder."""
    folder.mkdir(parents=True, exist_ok=True)
    (folder / "arguments").write_text("".join(word + "\n" for word in case.words))
    (folder / "script").write_bytes(case.script)
    for c, data in enumerate(case.inputs):
        (folder / f"in{c}").write_bytes(data)
    for c, data in enumerate(case.outputs):
        (folder / f"out{c}").write_bytes(data)
    (folder / "replies").write_bytes(case.replies)
    (folder / "status").write_text(f"{case.status}\n")
    (folder / "stderr").write_bytes(case.stderr)
    (folder / "about.json").write_text(json.dumps({name: getattr(case, name) for name in ABOUT}) + "\n")


def read_case(folder: Path) -> Case:
    """Reads a case from its folder."""
    about = json.loads((folder / "about.json").read_text())
    words = (folder / "arguments").read_text().splitlines()
    pairs = sum(1 for word in words if word.startswith("out"))
    return Case(words, (folder / "script").read_bytes(), [(folder / f"in{c}").read_bytes() for c in range(pairs)],
                (folder / "replies").read_bytes(), [(folder / f"out{c}").read_bytes() for c in range(pairs)],
                int((folder / "status").read_text()), (folder / "stderr").read_bytes(), **about)
