# SPDX-License-Identifier: Apache-2.0
"""What a run of the program gave beside what was expected of it."""

from __future__ import annotations

from typing import NamedTuple, Optional

from .cases import Case
from .script import is_answered


class Result(NamedTuple):
    """What a run of the program gave; an output is None where no such file is there."""

    status: int
    replies: bytes
    stderr: bytes
    outputs: list[Optional[bytes]]


def first_difference(got: bytes, wanted: bytes) -> int:
    """The number of the first byte that differs."""
    for at, (a, b) in enumerate(zip(got, wanted)):
        if a != b:
            return at
    return min(len(got), len(wanted))


def answered_line(script: bytes, number: int) -> str:
    """The line of the script that a reply answers, for people."""
    answered = [line for line in script.split(b"\n") if is_answered(line)]
    if number >= len(answered):
        return "(behind the last line)"
    line = answered[number]
    return repr(line[:60] + b".." if len(line) > 60 else line)[1:]


def _same_words(got: bytes, wanted: bytes) -> bool:
    """Whether two replies are the same but for words that are free."""
    mine, theirs = got.split(), wanted.split()
    return len(mine) == len(theirs) and all(x == y or y == b"*" for x, y in zip(mine, theirs))


def replies_differ(case: Case, got: bytes) -> Optional[str]:
    """How the replies differ, None where they don't."""
    if got == case.replies:
        return None
    mine, wanted = got.split(b"\n"), case.replies.split(b"\n")
    for number in range(max(len(mine), len(wanted))):
        a = mine[number] if number < len(mine) else None
        b = wanted[number] if number < len(wanted) else None
        if a == b:
            continue
        if number in case.any_replies and a is not None and b is not None and _same_words(a, b):
            continue
        return f"reply {number + 1} to {answered_line(case.script, number)}: wanted {b!r}, got {a!r}"
    return None


def output_differs(case: Case, c: int, got: Optional[bytes]) -> Optional[str]:
    """How an output differs, None where it doesn't. Bytes that aren't determined aren't compared."""
    if not case.begins:
        return None if got == case.held_before(c) else f"output {c} was touched by a run that didn't begin"
    wanted = case.outputs[c]
    if got is None:
        return f"output {c} wasn't made"
    if got == wanted:
        return None
    for start, end in case.any_outputs.get(str(c), ()):
        if end is None:
            got, wanted = got[:start], wanted[:start]
        else:
            wanted = wanted[:start] + got[start:end] + wanted[end:]
    if got == wanted:
        return None
    at = first_difference(got, wanted)
    return (f"output {c} differs at byte {at} of {len(wanted)} (length {len(got)}): "
            f"wanted {wanted[at:at + 8].hex()}, got {got[at:at + 8].hex()}")


def differences(case: Case, result: Result) -> list[str]:
    """All that differs, as texts."""
    found = []
    if result.status != case.status:
        found.append(f"status {result.status}, wanted {case.status}")
    texts = [replies_differ(case, result.replies), *(output_differs(case, c, data) for c, data in enumerate(result.outputs))]
    found += [text for text in texts if text]
    if result.stderr != case.stderr:
        found.append(f"standard error {result.stderr[:200]!r}, wanted {case.stderr!r}")
    return found
