#!/usr/bin/env python3
# SPDX-License-Identifier: Apache-2.0
"""Makes docs/STATUS.md out of what the last whole `./check` kept in out/check: what passed, of which commit, and what it took.

    tools/status.py                     writes docs/STATUS.md
    tools/status.py --print             prints it
    tools/status.py .. --beside TEXT    with a row on what ran beside it, which no log knows

Beside it stands what was run by name there, such as `./check long_scripts`. It refuses a run in which a part failed or was left out, or of
which the proofs' log is missing.
"""

from __future__ import annotations

import argparse
import json
import re
import sys
from dataclasses import dataclass, field
from pathlib import Path

TOP = Path(__file__).resolve().parent.parent
LOGS = TOP / "out" / "check"


@dataclass
class Row:
    """What the log of `rt ci` says of a crate."""

    functions: int = 0
    tests: int = 0
    # Whether the proof is kept from an earlier run of the same files on the same machine: such a log has no count of functions.
    kept: bool = False
    refused: list[str] = field(default_factory=list)


def rows_of(log: str) -> dict[str, Row]:
    """The crates of a log of `rt ci`, in the order in which they were proved."""
    rows: dict[str, Row] = {}
    section, ran = "", 0
    for line in log.splitlines():
        head = re.fullmatch(r"== (\w+)(: its tests)?", line)
        if head:
            section = head[1]
            rows.setdefault(section, Row())
        verdict = re.match(r"logic=proved functions=(\d+)", line)
        if verdict:
            rows[section].functions = int(verdict[1])
        # Tests are run each time, also those of a crate whose proof is kept.
        result = re.match(r"test result: ok\. (\d+) passed", line)
        if result:
            ran = int(result[1])
        tests = re.match(r"rt: (\w+): its tests passed", line)
        if tests:
            rows.setdefault(tests[1], Row()).tests = ran
        kept = re.match(r"rt: (\w+) is kept: an earlier run on this machine proved the same files", line)
        if kept:
            rows.setdefault(kept[1], Row()).kept = True
        edit = re.match(r"(?:rt: )?must-fail (\w+)/([\w.-]+)\.edit: refused", line)
        if edit:
            rows.setdefault(edit[1], Row()).refused.append(edit[2])
    return rows


def by_name(runs: dict[str, dict]) -> list[str]:
    """The lines on parts that were run by name."""
    if not runs:
        return []
    return [
        "",
        "## Run by name",
        "",
        "| part | command | commit | passed | failed | minutes | processors | what it said |",
        "|---|---|---|---|---|---|---|---|",
        *(
            f"| {name} | `{it['command']}` | `{it['commit'][:8]}` | {it['passed']} | {it['failed']} | {it['minutes']} | {it['processors']} | {it['said']} |"
            for name, it in sorted(runs.items())
        ),
    ]


def page(summary: dict, log: str, runs: dict[str, dict], beside: str = "nothing was told of") -> str:
    """The text of docs/STATUS.md: of a whole run, of its log, of the parts that were run by name, and of what ran beside it."""
    rows, parts = rows_of(log), summary["parts"]
    passed = sum(part["passed"] for part in parts.values())
    edits = sum(len(row.refused) for row in rows.values())
    kept = sum(row.kept for row in rows.values())
    counted = [f"| functions proved | {sum(row.functions for row in rows.values()):,} |"]
    if kept:
        counted = [f"| of these kept from earlier runs of the same files on that machine | {kept} |"]
    lines = [
        "# Status",
        "",
        "Made by `tools/status.py` from the log of one whole `./check`, the test command.",
        "",
        "| | |",
        "|---|---|",
        f"| commit | `{summary['commit']}`{', with changes that were not committed' if summary['changed'] else ''} |",
        f"| ended | {summary['ended']} |",
        f"| kit | {summary['kit']} |",
        f"| machine | {summary.get('machine', 'not told')} |",
        f"| processors | {summary['processors']} |",
        f"| ran beside it | {beside} |",
        f"| minutes | {sum(part['minutes'] for part in parts.values()):.1f} |",
        f"| last line | {passed} passed, 0 failed |",
        f"| crates proved | {len(rows)} |",
        *counted,
        f"| must-fail edits refused | {edits} |",
        f"| tests of crates that passed | {sum(row.tests for row in rows.values())} |",
        "",
        "## Parts",
        "",
        "| part | passed | failed | minutes |",
        "|---|---|---|---|",
        *(f"| {name} | {part['passed']} | {part['failed']} | {part['minutes']} |" for name, part in parts.items()),
        *by_name(runs),
        "",
        "## Crates",
        "",
        "| crate | functions proved | tests | must-fail edits refused |",
        "|---|---|---|---|",
        *(f"| {name} | {'kept' if row.kept else row.functions} | {row.tests or ''} | {len(row.refused) or ''} |" for name, row in sorted(rows.items())),
    ]
    return "\n".join(lines) + "\n"


def main() -> int:
    asked = argparse.ArgumentParser(prog="status", description=__doc__.splitlines()[0])
    asked.add_argument("--print", action="store_true", help="print the page")
    asked.add_argument("--beside", default="nothing was told of", metavar="TEXT", help="what ran beside the whole run")
    words = asked.parse_args()
    try:
        summary = json.loads((LOGS / "summary.json").read_text())
        log = (LOGS / "proofs.log").read_text(encoding="utf-8", errors="replace")
    except OSError as missing:
        print(f"status: no whole run is kept here: {missing}", file=sys.stderr)
        return 1
    kept = {file.stem: json.loads(file.read_text()) for file in LOGS.glob("*.json") if file.stem != "summary"}
    runs = {name: it for name, it in kept.items() if name not in summary["parts"]}
    bad = [name for name, part in (summary["parts"] | runs).items() if part["failed"] or not part["passed"]]
    if bad or "proofs" not in summary["parts"]:
        print(f"status: not a whole run in which all passed: {', '.join(bad) or 'the proofs were left out'}", file=sys.stderr)
        return 1
    text = page(summary, log, runs, words.beside)
    if words.print:
        print(text, end="")
    else:
        (TOP / "docs" / "STATUS.md").write_text(text)
    return 0


if __name__ == "__main__":
    sys.exit(main())
