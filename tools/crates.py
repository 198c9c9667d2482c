# SPDX-License-Identifier: Apache-2.0
"""crates.txt, read: the crates of this repository, what each is built over, and in which layer it stands.

A line is `NAME [staticlib]: LIBRARY ..`, a `#` begins a comment, and a line `## TITLE` a layer. Everything here that needs the crates reads
them by this module.
"""

from __future__ import annotations

import re
from dataclasses import dataclass
from pathlib import Path

LISTED = "crates.txt"


@dataclass(frozen=True)
class Crate:
    """A crate: its libraries in their order, crates of the repository and of the kit; whether it is a static library; and its layer, None
    where no heading stands above it."""

    name: str
    uses: tuple[str, ...] = ()
    is_archive: bool = False
    layer: str | None = None

    @property
    def line(self) -> str:
        """The crate's line, without a comment."""
        return f"{self.name}{' staticlib' * self.is_archive}: {' '.join(self.uses)}\n"


def parse(text: str) -> dict[str, Crate]:
    """The crates of a list by their names, in its order."""
    found: dict[str, Crate] = {}
    layer = None
    for line in text.splitlines():
        if line.startswith("## "):
            layer = line[3:].strip()
        is_crate = re.fullmatch(r"(\w+)(?: +(staticlib))? *:([^#]*)(?:#.*)?", line)
        if is_crate:
            name, archive, uses = is_crate.groups()
            found[name] = Crate(name, tuple(uses.split()), archive is not None, layer)
    return found


def listed(top: Path) -> dict[str, Crate]:
    """The crates of the repository at this folder."""
    return parse((top / LISTED).read_text(encoding="utf-8"))


def closure(crates: dict[str, Crate], *names: str) -> list[str]:
    """Crates and those of the repository that they are built over, lowest first."""
    found: list[str] = []

    def visit(crate: str) -> None:
        if crate in crates and crate not in found:
            for below in crates[crate].uses:
                visit(below)
            found.append(crate)

    for name in names:
        visit(name)
    return found
