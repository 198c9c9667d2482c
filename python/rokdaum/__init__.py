# SPDX-License-Identifier: Apache-2.0
"""A proved host of fixed-point signal algorithms, over arrays: and runs, filter design and pictures for `dsp_console`.

- `rokdaum.Host`: a host in the process, over the C library (numpy)
- `rokdaum.g711`, `rokdaum.operators`: companding and G.191's operators over arrays, without a host (numpy)
- `rokdaum.design`: filters, detectors of tones and of dialled digits in words, with the response that the words have (numpy, scipy)
- `rokdaum.script`: scripts with comments and `feed C all`, over files, WAV files and arrays
- `rokdaum.samples`: arrays of 16-bit samples, from files and from floats (numpy)
- `rokdaum.maps`: memory maps, and who is active in which scratch group, over a run
- `rokdaum.plot`: pictures of maps, responses and levels (matplotlib)
- `rokdaum.errors`: what is refused, each with a sentence that says what to do; the refusals of a host stand here too, as `rokdaum.Room`

`script` over files and `maps` need Python alone; each module is imported when its name is used first.
"""

from __future__ import annotations

import importlib
from typing import TYPE_CHECKING

from .errors import (  # fmt: skip
    BadKind, BadLength, BadSize, BadSpace, Busy, Command, FloatsRefused, LibraryMissing, Missing, NoMemory, NotOpen, OutOfRange, Params, Range,
    Refused, RokdaumError, Room, Taken, WrongThread,
)

if TYPE_CHECKING:
    from . import design, errors, g711, maps, operators, plot, samples, script
    from .host import Host, Instance, Line, SpaceMap, Stat

__version__ = "1.0.0"

OF_HOST = ("Host", "Instance", "Line", "SpaceMap", "Stat")
MODULES = ("design", "errors", "g711", "maps", "operators", "plot", "samples", "script")
__all__ = [  # fmt: skip
    "Host", "Instance", "Line", "SpaceMap", "Stat", "design", "errors", "g711", "maps", "operators", "plot", "samples", "script", "BadKind", "BadLength",
    "BadSize", "BadSpace", "Busy", "Command", "FloatsRefused", "LibraryMissing", "Missing", "NoMemory", "NotOpen", "OutOfRange", "Params", "Range",
    "Refused", "RokdaumError", "Room", "Taken", "WrongThread",
]


def __getattr__(name: str) -> object:
    """Imports a module, or what needs numpy, when its name is used first."""
    if name in OF_HOST:
        return getattr(importlib.import_module(".host", __name__), name)
    if name in MODULES:
        return importlib.import_module(f".{name}", __name__)
    raise AttributeError(f"module {__name__!r} has no attribute {name!r}")


def __dir__() -> list[str]:
    """The names that are there for users, also those that weren't used yet, so that a shell completes them."""
    return sorted([*__all__, "__version__"])
