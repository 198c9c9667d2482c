# SPDX-License-Identifier: Apache-2.0
"""`librokdaum`, the C library, as ctypes sees it: where it is looked for, its structs and its prototypes. `rokdaum.host` stands over it.

It is looked for

1. where the environment variable ROKDAUM_LIBRARY names a file, there and nowhere else;
2. in the package's folder, where a release has it, and beside it, in glibc-hwcaps/x86-64-v3, a build for processors of that level;
3. in `out/c` of the repository that the package stands in, where `make -C c` leaves it;
4. where the loader looks: LD_LIBRARY_PATH, /etc/ld.so.conf, /usr/lib.

It has to have the version of the package.
"""

from __future__ import annotations

import ctypes
import os
import re
from ctypes import POINTER, c_char_p, c_int, c_int16, c_int32, c_size_t, c_uint8, c_uint32, c_uint64, c_void_p
from functools import cache
from pathlib import Path

from . import __version__
from .errors import LibraryMissing

VARIABLE = "ROKDAUM_LIBRARY"
NAME = "librokdaum.so"
# What the loader knows it by: the repository's file SONAME.
SONAME = "librokdaum.so.0"
# Where the build for x86-64-v3 is beside NAME, as the loader has it too, and what /proc/cpuinfo calls all that this level has.
HWCAPS = "glibc-hwcaps/x86-64-v3"
LEVEL = frozenset("avx avx2 bmi1 bmi2 f16c fma abm movbe xsave".split())
CPUINFO = Path("/proc/cpuinfo")
# The limits of rokdaum.h.
SPACE_WORDS, INSTANCES, GROUPS, CHANNELS, PARAMETER_WORDS, MAP_BLOCKS = 65536, 64, 8, 16, 72, 264
# The order of rokdaum_kind and of rokdaum_space.
KINDS = ("fir", "decim", "biquad", "tone", "g711", "gain", "level", "dtmf", "echo", "adpcm", "signal", "activity")
SPACES = ("daram", "saram", "external")
# rokdaum_law.
LAWS = {"a": 0, "mu": 1}
# The most coefficients of a FIR filter, and the most samples of a block of one without a host.
COEFFICIENTS, BLOCK_SAMPLES = 64, 1024


class Handle(ctypes.Structure):
    """`rokdaum`. Zeroed it is ROKDAUM_CLOSED. It is never copied."""

    _fields_ = [("mark", c_uint64), ("at", c_void_p), ("allocator", c_void_p)]


class Options(ctypes.Structure):
    """`rokdaum_options`."""

    _fields_ = [("daram", c_uint32), ("saram", c_uint32), ("external", c_uint32), ("channels", c_uint8), ("poisoned", c_uint8), ("poison", c_int16)]


class BlockRecord(ctypes.Structure):
    """`rokdaum_block`."""

    _fields_ = [("scratch", c_uint32), ("number", c_uint32), ("record", c_uint32), ("place", c_uint32), ("size", c_uint32), ("align", c_uint32)]


WORDS = POINTER(c_int16)
COUNT = POINTER(c_uint32)
OCTETS = POINTER(c_uint8)
# What each call takes behind the handle. All of them answer a code.
CALLS: dict[str, tuple[type, ...]] = {
    "open": (POINTER(Options),),
    "close": (),
    "create": (c_uint8, c_int, c_uint8, WORDS, c_size_t, POINTER(c_int)),
    "delete": (c_uint8,),
    "set": (c_uint8, WORDS, c_size_t),
    "reset": (c_uint8,),
    "get": (c_uint8, WORDS, c_size_t, COUNT),
    "chain": (c_uint8, OCTETS, c_size_t),
    "unchain": (c_uint8,),
    "feed_all": (c_uint8, WORDS, c_size_t, WORDS, c_size_t, POINTER(c_size_t)),
    "step": (c_int, COUNT),
    "compact": (c_int, COUNT),
    "copied": (POINTER(c_uint64),),
    "map": (c_int, POINTER(BlockRecord), c_size_t, COUNT),
    "release": (c_uint8, COUNT),
    "stat": (c_uint8, POINTER(c_int32), COUNT),
}
# What each call takes that needs no host, and what it returns.
WITHOUT_HOST: dict[str, tuple[tuple[type, ...], type]] = {
    "add": ((c_int16, c_int16), c_int16),
    "l_mac": ((c_int32, c_int16, c_int16), c_int32),
    "div_s": ((c_int16, c_int16, WORDS), c_int),
    "add_block": ((WORDS, WORDS, WORDS, c_size_t), c_int),
    "sub_block": ((WORDS, WORDS, WORDS, c_size_t), c_int),
    "mult_block": ((c_int16, WORDS, WORDS, c_size_t), c_int),
    "shl_block": ((WORDS, c_int16, WORDS, c_size_t), c_int),
    "shr_block": ((WORDS, c_int16, WORDS, c_size_t), c_int),
    "l_mac_block": ((c_int32, WORDS, WORDS, c_size_t, POINTER(c_int32)), c_int),
    "fir": ((WORDS, c_size_t, WORDS, c_size_t, WORDS, c_size_t), c_int),
    "g711_encode": ((c_int, WORDS, OCTETS, c_size_t), c_int),
    "g711_decode": ((c_int, OCTETS, WORDS, c_size_t), c_int),
}


def has_level() -> bool:
    """Whether this processor is one of x86-64-v3. A library is loaded by its path here, and the loader looks for levels by names alone."""
    try:
        flags = re.search(r"^flags\s*:(.*)$", CPUINFO.read_text(encoding="utf-8"), re.M)
    except OSError:
        return False
    return flags is not None and LEVEL <= set(flags[1].split())


def candidates() -> list[str]:
    """The names to load, in order."""
    if named := os.environ.get(VARIABLE):
        return [named]
    package = Path(__file__).resolve().parent
    beside = [package / HWCAPS / NAME] if has_level() else []
    found = [path for path in (*beside, package / NAME, package.parent.parent / "out" / "c" / NAME) if path.is_file()]
    return [*map(str, found), SONAME, NAME]


def open_first(names: list[str]) -> ctypes.CDLL:
    """The first of the libraries that can be loaded. Raises LibraryMissing where none can."""
    said = []
    for name in names:
        try:
            return ctypes.CDLL(name)
        except OSError as why:
            said.append(str(why))
    where = f"{VARIABLE} names {names[0]}" if os.environ.get(VARIABLE) else f"it isn't beside the package, nor in out/c of the repository, nor known to the loader, and {VARIABLE} doesn't name it"
    raise LibraryMissing(f"{NAME} can't be loaded: {where}: `make -C c` in the repository makes it, or `make -C c install` ({said[0]})")


@cache
def load() -> ctypes.CDLL:
    """The library, loaded once, with its prototypes. Raises LibraryMissing where there is none, or one of another version."""
    found = open_first(candidates())
    try:
        found.rokdaum_version.restype = c_char_p
        version = found.rokdaum_version().decode()
    except AttributeError:
        raise LibraryMissing(f"{found._name} is no {NAME}: it has no rokdaum_version") from None
    if version != __version__:
        raise LibraryMissing(f"{found._name} is version {version}, and this package is {__version__}: `make -C c` in the repository makes it anew, or {VARIABLE} names another")
    found.rokdaum_error_text.argtypes, found.rokdaum_error_text.restype = (c_int,), c_char_p
    for name, arguments in CALLS.items():
        call = getattr(found, f"rokdaum_{name}")
        call.argtypes, call.restype = (POINTER(Handle), *arguments), c_int
    for name, (arguments, returned) in WITHOUT_HOST.items():
        call = getattr(found, f"rokdaum_{name}")
        call.argtypes, call.restype = arguments, returned
    return found
