# SPDX-License-Identifier: Apache-2.0
"""Worked rows: scripts whose replies and outputs were computed by hand. They stand in `rows.json`.

Of a row, `script` has its lines, or `raw_script` its bytes. An input or output is `samples` (words, the low byte first, with
`times` so many times over) or `bytes`. What a row doesn't say, the hand didn't compute: `replies` may be absent or have nulls,
`last_reply` says the last alone, an output may be null. `copied` is how many words the moves carried, `lacking` the space in
which there was no room. Under each of the poison words in `poisons` it gives the same as under none.
"""

from __future__ import annotations

import json
import struct
from dataclasses import replace
from pathlib import Path
from typing import Any, Optional

from .cases import Case, expected_case
from .compare import Result, differences
from .console import Config, Console
from .refusals import Refused
from .sets import HOSTED, MIXED

# A row of rows.json, as the documentation above says.
Row = dict[str, Any]
ROWS = Path(__file__).parent / "rows.json"
POISON = 21845


def read_rows() -> list[Row]:
    """All rows."""
    return json.loads(ROWS.read_text())


def data_of(spec: Row) -> bytes:
    """The bytes of an input or output."""
    if "bytes" in spec:
        return bytes.fromhex(spec["bytes"])
    samples = spec["samples"] * spec.get("times", 1)
    return struct.pack("<%dh" % len(samples), *samples)


def script_of(row: Row) -> bytes:
    """The bytes of the script."""
    if "raw_script" in row:
        return row["raw_script"].encode("latin-1")
    return "".join(line + "\n" for line in row["script"]).encode("latin-1")


def inputs_of(row: Row) -> list[bytes]:
    """The bytes of the inputs."""
    return [data_of(spec) for spec in row["inputs"]]


def config_of(row: Row, form: str = "history") -> Config:
    """The configuration."""
    return Config(kinds=row.get("kinds", HOSTED), form=form, **row.get("options", {}))


def configs_of(row: Row, form: str = "history") -> list[Config]:
    """The configuration, and with each poison word under which the row gives the same."""
    config = config_of(row, form)
    return [config] + [replace(config, poison=poison) for poison in row.get("poisons", ())]


def replies_of(row: Row, modelled: list[str]) -> list[str]:
    """The replies: the model's where the row says nothing."""
    found = modelled
    if "replies" in row:
        found = [wanted if wanted is not None else "".join(modelled[k:k + 1]) for k, wanted in enumerate(row["replies"])]
    return found[:-1] + [row["last_reply"]] if "last_reply" in row else found


def said_outputs(row: Row) -> dict[int, bytes]:
    """The outputs that the row says, by their channels."""
    return {c: data_of(spec) for c, spec in enumerate(row.get("outputs", ())) if spec is not None}


def result_of(row: Row, case: Case) -> Result:
    """What the row says of a run, and the model where it says nothing."""
    replies = "".join(reply + "\n" for reply in replies_of(row, case.replies.decode().splitlines())).encode()
    outputs: list[Optional[bytes]] = [said_outputs(row).get(c, modelled) for c, modelled in enumerate(case.outputs)]
    return Result(row.get("status", case.status), replies, case.stderr, outputs)


def wrong_inside(row: Row) -> list[str]:
    """What of the words that were moved and of the space that was lacking isn't as the row says."""
    console, lacking = Console(config_of(row), len(row["inputs"])), None
    for line in script_of(row).splitlines():
        command = console.grammar.parse(line)
        if command is None:
            continue
        try:
            if command.verb == "feed":
                console.channels.feed(command.arguments[0], [0] * command.arguments[1])
            else:
                console.reply(command)
        except Refused as refused:
            lacking = refused.space if refused.space is not None else lacking
    found = []
    if "copied" in row and console.host.copied() != row["copied"]:
        found.append(f"{console.host.copied()} words were moved, wanted {row['copied']}")
    if "lacking" in row and (lacking is None or lacking.name.lower() != row["lacking"]):
        found.append(f"no room in {lacking}, wanted {row['lacking']}")
    return found


def check_row(row: Row) -> list[str]:
    """What of the model's result isn't as the row says, by histories and with delay lines."""
    found = []
    for form in ("history", "running"):
        for config in configs_of(row, form):
            case = expected_case(config, script_of(row), inputs_of(row))
            found += differences(case, result_of(row, case))
    if "copied" in row or "lacking" in row:
        found += wrong_inside(row)
    return found


def row_case(row: Row, poison: Optional[int] = None) -> Case:
    """The case of a row. What it doesn't say is filled in from the model, of which the outputs of some rogues aren't determined."""
    config = config_of(row)
    note = row["name"]
    if poison is not None:
        config, note = replace(config, poison=poison), f"{note}, with the poison word {poison}"
    case = expected_case(config, script_of(row), inputs_of(row), note)
    said = result_of(row, case)
    lines = said.replies.split(b"\n")
    return replace(case, status=said.status, replies=said.replies, outputs=said.outputs,
                   any_replies=[n for n in case.any_replies if b"*" in lines[n].split()],
                   any_outputs={c: ranges for c, ranges in case.any_outputs.items() if int(c) not in said_outputs(row)})


def row_cases(kinds: str) -> list[Case]:
    """The rows of a set of kinds as cases, under each of their poison words: those of lawful kinds again with one more, which must not show."""
    rows = [row for row in read_rows() if row.get("kinds", HOSTED) == kinds]
    found = [row_case(row, poison) for row in rows for poison in (None, *row.get("poisons", ()))]
    if kinds != MIXED:
        found += [row_case(row, POISON) for row in rows if "poison" not in row.get("options", {})]
    return found
