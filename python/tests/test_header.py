# SPDX-License-Identifier: Apache-2.0
"""What the package says of the C library, beside c/rokdaum.h: numbers, limits, structs, prototypes and codes."""

from __future__ import annotations

import ctypes
import re
import unittest
from ctypes import POINTER, c_int, c_int16, c_int32, c_size_t, c_uint8, c_uint32, c_uint64, c_void_p

from library_case import REPOSITORY

from rokdaum import design, errors, explain, library

HEADER = re.sub(r"/\*.*?\*/", "", (REPOSITORY / "c" / "rokdaum.h").read_text(encoding="utf-8"), flags=re.S)
NUMBERS = {name: int(number) for name, number in re.findall(r"\bROKDAUM_(\w+) = (\d+)", HEADER)}
# Limits of the package, each with its name in the header.
LIMITS = {
    "SPACE_WORDS": library.SPACE_WORDS, "INSTANCES": library.INSTANCES, "GROUPS": library.GROUPS, "CHANNELS": library.CHANNELS,
    "PARAMETER_WORDS": library.PARAMETER_WORDS, "MAP_BLOCKS": library.MAP_BLOCKS, "COEFFICIENTS": library.COEFFICIENTS,
    "BLOCK_SAMPLES": library.BLOCK_SAMPLES, "MEMBERS": design.MOST_MEMBERS,
}
# A type of the header as ctypes has it. An enumeration is an int.
TYPES: dict[str, type] = {
    "int16_t": c_int16, "int32_t": c_int32, "uint8_t": c_uint8, "uint32_t": c_uint32, "uint64_t": c_uint64, "size_t": c_size_t, "rokdaum_kind": c_int,
    "rokdaum_space": c_int, "rokdaum_law": c_int, "rokdaum_code": c_int, "rokdaum": library.Handle, "rokdaum_options": library.Options,
    "rokdaum_block": library.BlockRecord, "char": ctypes.c_char,
}
# What the package has no use for: it feeds by feed_all, asks by `line`, lets the library allocate, and makes digits of codes where there is no library
# too. The proved entry points stand in the header for the inline feed alone.
NOT_CALLED = {"open_with", "feed", "proved_feed", "proved_feed_sample", "ready", "version", "error_text", "dialled"}


def type_of(text: str) -> type:
    """The type of a parameter, or of what is returned, without its name."""
    name = text.replace("const ", "").strip()
    return POINTER(TYPES[name[:-1].strip()]) if name.endswith("*") else TYPES[name]


def prototypes() -> dict[str, tuple[tuple[type, ...], type]]:
    """What each function of the header takes and returns."""
    found = {}
    for returned, name, inside in re.findall(r"^((?:const )?\w+ \*?)rokdaum_(\w+)\(([^()]*)\);", HEADER, re.M):
        if name not in NOT_CALLED:
            given = [re.sub(r"\w+$", "", one.strip()).strip() for one in inside.split(",")]
            found[name] = tuple(map(type_of, given)), type_of(returned)
    return found


def members(struct: str) -> list[tuple[str, type]]:
    """The members of a struct of numbers, in order."""
    body = re.search(rf"typedef struct {struct} {{(.*?)}} {struct};", HEADER, re.S)
    assert body is not None
    lines = re.findall(r"(\w+) ([\w, ]+);", body[1])
    return [(name.strip(), TYPES[kind]) for kind, names in lines for name in names.split(",")]


class Header(unittest.TestCase):
    def test_limits(self) -> None:
        for name, limit in LIMITS.items():
            self.assertEqual((name, limit), (name, NUMBERS.get(name)))
        self.assertEqual((design.GROUPS, design.INSTANCES, design.CHANNELS, design.MOST_TAPS), (NUMBERS["GROUPS"], NUMBERS["INSTANCES"], NUMBERS["CHANNELS"], NUMBERS["COEFFICIENTS"]))
        self.assertEqual((explain.LONGEST_FEED, explain.SPACES), (NUMBERS["BLOCK_SAMPLES"], library.SPACES))

    def test_kinds_spaces_and_laws(self) -> None:
        for called, listed in (("kind", library.KINDS), ("space", library.SPACES)):
            body = re.search(rf"typedef enum rokdaum_{called} {{(.*?)}} rokdaum_{called};", HEADER, re.S)
            assert body is not None
            self.assertEqual([(name.lower(), int(number)) for name, number in re.findall(r"ROKDAUM_(\w+) = (\d+)", body[1])], [(name, at) for at, name in enumerate(listed)])
        self.assertEqual({f"{name.upper()}_LAW": number for name, number in library.LAWS.items()}, {name: NUMBERS[name] for name in ("A_LAW", "MU_LAW")})
        self.assertEqual(explain.KINDS + explain.GATEWAY_KINDS, library.KINDS)
        self.assertEqual(set(explain.PARAMETERS), set(library.KINDS))

    def test_digits(self) -> None:
        for name, (words, _) in design.DTMF_SETS.items():
            found = re.search(rf"ROKDAUM_DTMF_{name.upper()} {{([\d, ]+)}}", HEADER)
            assert found is not None
            self.assertEqual(tuple(map(int, found[1].split(","))), words)
            rule, receiver = re.search(rf"ROKDAUM_DIGITS_{name.upper()} {{(\d+), (\d+), ", HEADER), design.dtmf(name)
            assert rule is not None
            self.assertEqual((int(rule[1]), int(rule[2])), (receiver.frames_on, receiver.frames_off))
        self.assertIn(f'ROKDAUM_DTMF_KEYS "{design.KEYS}"', HEADER)

    def test_codes(self) -> None:
        """Each code of the header has its exception, but for that of success and those that no call here can be answered with."""
        body = re.search(r"typedef enum rokdaum_code {(.*?)} rokdaum_code;", HEADER, re.S)
        assert body is not None
        told = {int(number): name.replace("_", "") for name, number in re.findall(r"ROKDAUM_(\w+) = (\d+)", body[1])}
        for name in ("OK", "OPEN", "NULL", "BADLAW"):
            del told[next(number for number, one in told.items() if one == name)]
        self.assertEqual({code: one.__name__.upper() for code, one in errors.REFUSALS.items()}, told)

    def test_structs(self) -> None:
        for struct, ours in (("rokdaum_options", library.Options), ("rokdaum_block", library.BlockRecord)):
            self.assertEqual(members(struct), list(ours._fields_))
        self.assertEqual([kind for _, kind in library.Handle._fields_], [c_uint64, c_void_p, c_void_p])

    def test_prototypes(self) -> None:
        ours = {name: ((POINTER(library.Handle), *given), c_int) for name, given in library.CALLS.items()}
        theirs = prototypes()
        self.assertEqual({**ours, **library.WITHOUT_HOST}, theirs)
        self.assertGreater(len(theirs), 25)


if __name__ == "__main__":
    unittest.main()
