#!/usr/bin/env python3
# SPDX-License-Identifier: Apache-2.0
"""Rewrites the LLVM module of a library or a program, made for x86-64, for another processor whose bytes are in the same order.

    ports/to32.py IN.ll OUT.ll --triple TRIPLE --layout LAYOUT --cpu CPU [--features LIST] [--wide]

IN.ll is text, as `clang -S -emit-llvm -O0 -Xclang -disable-llvm-passes` prints it. For a processor with addresses of 64 bits, --wide, the
triple, the layout of data, the attributes that name a processor and the results of exports are changed, and no instruction. For addresses of
32 bits `usize` keeps its 64 bits, and so does each place in memory that holds a pointer: its lower half is the address, and its upper half is
zero. So no size and no offset of the module changes.

- A load or store of a pointer is one of 64 bits. That of a struct with pointers is one for each member, at the offsets of 64 bits.
- A global with pointers in it has four bytes of zero after each.
- The lengths of memcpy, memmove and memset are cut to 32 bits: no object is longer.
- rattle_alloc and rattle_realloc, which return a flag and a pointer, write them to memory that the caller gives: their names there are
  rokdaum_rattle_alloc and rokdaum_rattle_realloc.
- The result of an export that is narrower than a register says how it is extended, as C takes it.

A line that it doesn't know is refused, with status 1: nothing of the module is passed on that could depend on the width of an address.
"""

from __future__ import annotations

import argparse
import re
import sys
from collections.abc import Callable, Iterator
from dataclasses import dataclass
from pathlib import Path

# What a module for x86-64 begins its layout with, and what keeps its offsets on 32 bits: numbers of 64 bits at multiples of 8.
GIVEN_LAYOUT, NEEDED_LAYOUT = "e-m:e-", "i64:64"
# How C takes a result that is narrower than a register.
EXTENDED = {"i1": "zeroext", "i8": "zeroext", "i16": "signext", "i32": "signext"}
SIZES = {"ptr": 8, "i64": 8, "i32": 4, "i16": 2, "i8": 1, "i1": 1, "float": 4, "double": 8}
# Instructions that work on values alone, where an address is an address whatever its width.
PLAIN = frozenset(
    "add sub mul udiv sdiv urem srem shl lshr ashr and or xor fadd fsub fmul fdiv fneg icmp fcmp zext sext trunc fptosi fptoui sitofp uitofp fpext "
    "fptrunc bitcast select phi br switch ret unreachable extractvalue insertvalue extractelement insertelement shufflevector freeze inttoptr ptrtoint".split()
)
# Intrinsics of memory that are rewritten, and those with a pointer that are left as they are.
MOVES = ("llvm.memcpy.", "llvm.memmove.", "llvm.memset.")
KNOWN_INTRINSICS = ("llvm.lifetime.start.p0", "llvm.lifetime.end.p0", "llvm.assume", "llvm.prefetch.p0")
# The functions of the kit that return a flag and a pointer.
ALLOCATORS = ("rattle_alloc", "rattle_realloc")

NUMBER = r"(?:i\d+|float|double|<\d+ x (?:i\d+|float|double)>)"
# What a load or store may have without a rewriting: numbers, vectors and arrays of them, and structs of them.
WITHOUT_POINTERS = re.compile(rf"(?:{NUMBER}|\[\d+ x {NUMBER}\]|\{{ {NUMBER}(?:, {NUMBER})* \}})$")
TYPE = r"(ptr|\{[^{}]*\}|\[[^\[\]]*\]|<[^<>]*>|\w+)"
INSTRUCTION = re.compile(r"  (?:(%\S+) = )?(?:tail |notail )?([a-z]\w*)(?:\s(.*))?$")
LOAD = re.compile(rf"{TYPE}, ptr (.+?)(, align \d+.*)$")
STORE = re.compile(rf"{TYPE} (.+), ptr (%[^\s,]+|@[^\s,]+|getelementptr .*?\)|inttoptr \(.*?\))(, align \d+.*)$")
STEP = re.compile(rf"(?:(?:inbounds|nuw|nusw) )*{TYPE}, ptr ")
CONSTANT_STEP = re.compile(r"getelementptr(?: inbounds| nuw| nusw)* \(([^,]*),")
MOVE = re.compile(r"(void @llvm\.(?:memcpy|memmove|memset)\.p0(?:\.p0)?)\.i64\((.*), i64 ([^\s,]+), i1 false\)(.*)$")
MOVE_DECLARED = re.compile(r"(declare void @llvm\.(?:memcpy|memmove|memset)\.p0(?:\.p0)?)\.i64\((.*), i64([^,]*), i1 (.*)$")
ALLOCATION = re.compile(rf"(\{{ i64, i64 \}}|\[2 x i64\]) @({'|'.join(ALLOCATORS)})\((.*)\)(.*)$")
ALLOCATION_DECLARED = re.compile(rf"declare (?:\{{ i64, i64 \}}|\[2 x i64\]) @({'|'.join(ALLOCATORS)})\((.*)$")
ADDRESS = re.compile(r"ptr (.+) to i64(.*)$")
# What is said of a pointer that is loaded, and can't be said of a number.
OF_POINTERS = re.compile(r", !(?:nonnull|align|dereferenceable|dereferenceable_or_null) ![0-9]+")
GLOBAL = re.compile(r"(@\S+ = )((?:(?:private|internal|external|linkonce_odr|dso_local|unnamed_addr|local_unnamed_addr|constant|global) )+)(.*)$")
PACKED = re.compile(r"<\{ ((?:ptr|\[\d+ x i8\])(?:, (?:ptr|\[\d+ x i8\]))*) \}> <\{ (.*) \}>(, align \d+)?$")
EXPORT = re.compile(r"define (?:dso_local )?((?:noundef |range\([^)]*\) )*)(\S+) (@[^\s(]+\()(.*)$")
# Lines of a module, beside those of functions, in which nothing depends on the width of an address.
NEUTRAL = re.compile(r"(?:$|;|\}$|!|source_filename = |[\w.$-]+:|\"[^\"]*\":)")


class Unknown(Exception):
    """A line that isn't understood, and why."""

    def __init__(self, why: str, line: str) -> None:
        super().__init__(f"{why}: {line.strip()[:200]}")


@dataclass(frozen=True)
class Processor:
    """What a module is rewritten for: its triple and layout, as clang has them, its name and features, and the width of its addresses."""

    triple: str
    layout: str
    cpu: str
    features: str = ""
    is_wide: bool = False


def split(listed: str) -> list[str]:
    """The members of a list, cut at the commas that are in no brackets and in no string."""
    found, depth, is_text, one = [], 0, False, ""
    for letter in listed:
        if letter == '"':
            is_text = not is_text
        if not is_text:
            depth += (letter in "([{<") - (letter in ")]}>")
        if letter == "," and depth == 0 and not is_text:
            found.append(one.strip())
            one = ""
        else:
            one += letter
    return [*found, one.strip()]


def offsets(kinds: list[str]) -> list[int]:
    """Where each member of a struct is on x86-64."""
    at, found = 0, []
    for kind in kinds:
        at = -(-at // SIZES[kind]) * SIZES[kind]
        found.append(at)
        at += SIZES[kind]
    return found


def members(struct: str, line: str) -> list[str]:
    """The types of a struct's members, of which each is a number or a pointer."""
    found = split(struct[1:-1])
    if not struct.startswith("{") or any(it not in SIZES for it in found):
        raise Unknown("a type with pointers that isn't known", line)
    return found


class Narrow:
    """Rewrites the instructions of functions for addresses of 32 bits. Values that it adds are named %to32.1, %to32.2 and so on."""

    def __init__(self) -> None:
        self.names = 0
        self.forms: dict[str, Callable[[str, str, str], list[str]]] = {
            "alloca": self.alloca, "load": self.load, "store": self.store, "getelementptr": self.step, "ptrtoaddr": self.address, "call": self.call
        }

    def name(self) -> str:
        """A name that the module doesn't have."""
        self.names += 1
        return f"%to32.{self.names}"

    def line(self, line: str) -> list[str]:
        """What a line of a function becomes."""
        if re.match(r"    \S+ \S+, label %|  \]$", line):  # the cases of a switch, and its end
            return [line]
        found = INSTRUCTION.match(line)
        if not found:
            raise Unknown("a line that isn't an instruction", line)
        self.look_at_constants(line)
        target, form, rest = found[1] or "", found[2], found[3] or ""
        if form in PLAIN:
            if re.search(r"<\d+ x ptr>", line):
                raise Unknown("a vector of pointers", line)
            return [line]
        if form not in self.forms:
            raise Unknown("an instruction that isn't known", line)
        return self.forms[form](target, rest, line)

    def look_at_constants(self, line: str) -> None:
        """Refuses constants within a line whose value depends on the width of an address."""
        if "ptrtoaddr (" in line or any(it != "i8" for it in CONSTANT_STEP.findall(line)):
            raise Unknown("a constant that isn't known", line)

    def alloca(self, _: str, rest: str, line: str) -> list[str]:
        """Room for a pointer is that of 64 bits."""
        if re.match(r"ptr, align \d+$", rest):
            return [line.replace("alloca ptr,", "alloca i64,")]
        if not re.match(rf"(?:{NUMBER}|\[\d+ x {NUMBER}\]), align \d+$", rest):
            raise Unknown("an alloca that isn't known", line)
        return [line]

    def load(self, target: str, rest: str, line: str) -> list[str]:
        """A pointer is read as 64 bits, and a struct with pointers member by member."""
        found = LOAD.match(rest)
        if not found:
            raise Unknown("a load that isn't known", line)
        if WITHOUT_POINTERS.match(found[1]):
            return [line]
        if found[1] == "ptr":
            return self.load_pointer(target, found[2], found[3])
        kinds = members(found[1], line)
        lines, whole = [], "poison"
        for number, (kind, at) in enumerate(zip(kinds, offsets(kinds))):
            place, value, tail = self.name(), self.name(), f", align {alignment(found[3], at)}"
            made = target if number == len(kinds) - 1 else self.name()
            lines.append(f"  {place} = getelementptr i8, ptr {found[2]}, i32 {at}")
            lines += self.load_pointer(value, place, tail) if kind == "ptr" else [f"  {value} = load {kind}, ptr {place}{tail}"]
            lines.append(f"  {made} = insertvalue {found[1]} {whole}, {kind} {value}, {number}")
            whole = made
        return lines

    def load_pointer(self, target: str, place: str, tail: str) -> list[str]:
        """The load of one pointer."""
        wide = self.name()
        return [f"  {wide} = load i64, ptr {place}{OF_POINTERS.sub('', tail)}", f"  {target} = inttoptr i64 {wide} to ptr"]

    def store(self, _: str, rest: str, line: str) -> list[str]:
        """A pointer is written as 64 bits, and a struct with pointers member by member."""
        found = STORE.match(rest)
        if not found:
            raise Unknown("a store that isn't known", line)
        if WITHOUT_POINTERS.match(found[1]):
            return [line]
        if found[1] == "ptr":
            return self.store_pointer(found[2], found[3], found[4])
        kinds = members(found[1], line)
        lines = []
        for number, (kind, at) in enumerate(zip(kinds, offsets(kinds))):
            place, value, tail = self.name(), self.name(), f", align {alignment(found[4], at)}"
            lines += [f"  {place} = getelementptr i8, ptr {found[3]}, i32 {at}", f"  {value} = extractvalue {found[1]} {found[2]}, {number}"]
            lines += self.store_pointer(value, place, tail) if kind == "ptr" else [f"  store {kind} {value}, ptr {place}{tail}"]
        return lines

    def store_pointer(self, value: str, place: str, tail: str) -> list[str]:
        """The store of one pointer."""
        wide = self.name()
        return [f"  {wide} = ptrtoint ptr {value} to i64", f"  store i64 {wide}, ptr {place}{tail}"]

    def step(self, _: str, rest: str, line: str) -> list[str]:
        """A step over numbers is the same; over pointers or structs it would be another."""
        found = STEP.match(rest)
        if not found or not re.match(rf"(?:{NUMBER}|\[\d+ x {NUMBER}\])$", found[1]):
            raise Unknown("a getelementptr that isn't known", line)
        return [line]

    def address(self, target: str, rest: str, line: str) -> list[str]:
        """The address of a pointer has 32 bits, and the module goes on with 64."""
        found = ADDRESS.match(rest)
        if not found:
            raise Unknown("a ptrtoaddr that isn't known", line)
        low = self.name()
        return [f"  {low} = ptrtoaddr ptr {found[1]} to i32{found[2]}", f"  {target} = zext i32 {low} to i64"]

    def call(self, target: str, rest: str, line: str) -> list[str]:
        """Lengths of memcpy and its like are cut, and allocators write their answer to memory. Other calls are the same."""
        called = re.search(r"@([\w.$]+)\(", rest)
        name = called[1] if called else ""
        if name.startswith(MOVES):
            return self.move(rest, line)
        if name in ALLOCATORS:
            return self.allocation(target, rest, line)
        if name.startswith("llvm.") and re.search(r"\bptr\b", rest) and name not in KNOWN_INTRINSICS:
            raise Unknown("an intrinsic with a pointer that isn't known", line)
        if re.search(r"\b(?:byval|sret|inalloca|preallocated|elementtype)\([^)]*\bptr\b", rest):
            raise Unknown("a parameter whose type has pointers", line)
        return [line]

    def move(self, rest: str, line: str) -> list[str]:
        """A memcpy, memmove or memset."""
        found = MOVE.match(rest)
        if not found:
            raise Unknown("a call of memcpy or its like that isn't known", line)
        length, lines = found[3], []
        if not length.isdigit():
            length = self.name()
            lines.append(f"  {length} = trunc i64 {found[3]} to i32")
        return [*lines, f"  call {found[1]}.i32({found[2]}, i32 {length}, i1 false){found[4]}"]

    def allocation(self, target: str, rest: str, line: str) -> list[str]:
        """A call of an allocator of the kit."""
        found = ALLOCATION.match(rest)
        if not found or not target:
            raise Unknown("a call of an allocator that isn't known", line)
        room, first, second, place, half = (self.name() for _ in range(5))
        return [
            f"  {room} = alloca [16 x i8], align 8",
            f"  call void @rokdaum_{found[2]}(ptr {room}, {found[3]})",
            f"  {first} = load i64, ptr {room}, align 8",
            f"  {place} = getelementptr i8, ptr {room}, i32 8",
            f"  {second} = load i64, ptr {place}, align 8",
            f"  {half} = insertvalue {found[1]} poison, i64 {first}, 0",
            f"  {target} = insertvalue {found[1]} {half}, i64 {second}, 1",
        ]


def alignment(tail: str, place: int) -> int:
    """The alignment of a place within an object, from what stands behind the object's load or store."""
    whole = int(re.findall(r"align (\d+)", tail)[0])
    return min(whole, place & -place) if place else whole


def packed(line: str) -> str:
    """A global for addresses of 32 bits: one without pointers, or a packed struct of pointers and bytes."""
    found = GLOBAL.match(line)
    if not found:
        raise Unknown("a global that isn't known", line)
    if not re.search(r"\bptr\b", re.sub(r'"[^"]*"', "", found[3])):
        return line
    typed = PACKED.match(found[3])
    if not typed:
        raise Unknown("a global with pointers that isn't known", line)
    kinds, values = split(typed[1]), split(typed[2])
    if len(kinds) != len(values) or any(it != "i8" for it in CONSTANT_STEP.findall(typed[2])):
        raise Unknown("a global whose members aren't known", line)
    kinds = [f"{it}, [4 x i8]" if it == "ptr" else it for it in kinds]
    values = [f"{it}, [4 x i8] zeroinitializer" if it.startswith("ptr ") else it for it in values]
    return f"{found[1]}{found[2]}<{{ {', '.join(kinds)} }}> <{{ {', '.join(values)} }}>{typed[3] or ''}"


def declared(line: str) -> str:
    """A declaration for addresses of 32 bits."""
    if found := MOVE_DECLARED.match(line):
        return f"{found[1]}.i32({found[2]}, i32{found[3]}, i1 {found[4]}"
    if found := ALLOCATION_DECLARED.match(line):
        return f"declare void @rokdaum_{found[1]}(ptr noundef, {found[2]}"
    name = re.search(r"@([\w.$]+)\(", line)
    if not name or name[1].startswith(MOVES) or name[1] in ALLOCATORS:
        raise Unknown("a declaration that isn't known", line)
    if not name[1].startswith("llvm.") and re.search(r"[{\[]", line[: name.start()]):
        raise Unknown("a function of C that returns a struct", line)
    return line


def defined(line: str, is_wide: bool) -> str:
    """The first line of a function: an export says how its result is extended, and takes and gives no struct where addresses have 32 bits."""
    if re.match(r"define (?:internal|private) ", line):
        return line
    found = EXPORT.match(line)
    if not found or not re.fullmatch(r"i\d+|void|ptr|float|double|[{\[].*", found[2]) or not is_wide and re.search(r"^[{\[]", found[2]):
        raise Unknown("an export that isn't known", line)
    if not is_wide and re.search(r"\b(?:byval|sret)\(|[{\[]\s*(?:i\d|ptr)", found[4].rsplit(")", 1)[0]):
        raise Unknown("an export that takes a struct", line)
    return f"define {EXTENDED[found[2]]} {found[1]}{found[2]} {found[3]}{found[4]}" if found[2] in EXTENDED else line


def attributes(line: str, processor: Processor) -> str:
    """Attributes of functions, for another processor."""
    line = re.sub(r' "(?:probe-stack|stack-probe-size|frame-pointer|target-features|tune-cpu)"="[^"]*"', "", line)
    features = f' "target-features"="{processor.features}"' if processor.features else ""
    return re.sub(r'"target-cpu"="[^"]*"', lambda _: f'"target-cpu"="{processor.cpu}"{features}', line)


def lines_of(text: str, processor: Processor) -> Iterator[str]:
    """The lines of the rewritten module."""
    narrow = Narrow()
    for line in text.split("\n"):
        if line.startswith("target datalayout = "):
            if GIVEN_LAYOUT not in line:
                raise Unknown("not a module for x86-64", line)
            yield f'target datalayout = "{processor.layout}"'
        elif line.startswith("target triple = "):
            yield f'target triple = "{processor.triple}"'
        elif line.startswith("attributes "):
            yield attributes(line, processor)
        elif line.startswith("define "):
            yield defined(line, processor.is_wide)
        elif processor.is_wide:
            yield line
        elif line.startswith("declare "):
            yield declared(line)
        elif line.startswith("@"):
            yield packed(line)
        elif line.startswith("  "):
            yield from narrow.line(line)
        elif NEUTRAL.match(line):
            yield line
        else:
            raise Unknown("a line that isn't known", line)


def rewritten(text: str, processor: Processor) -> str:
    """The module for a processor, or raises Unknown."""
    if not processor.layout.startswith("e-"):
        raise Unknown("the bytes of the processor are in another order", processor.layout)
    if not processor.is_wide and NEEDED_LAYOUT not in processor.layout:
        raise Unknown("numbers of 64 bits aren't at multiples of 8", processor.layout)
    return "\n".join(lines_of(text, processor))


def main() -> int:
    """Does what the command line asks; the exit status."""
    asked = argparse.ArgumentParser(prog="to32.py", description=(__doc__ or "").split("\n\n")[0])
    asked.add_argument("given", metavar="IN.ll", type=Path)
    asked.add_argument("made", metavar="OUT.ll", type=Path)
    asked.add_argument("--triple", required=True)
    asked.add_argument("--layout", required=True, help="the layout of data that clang has for the triple")
    asked.add_argument("--cpu", required=True)
    asked.add_argument("--features", default="")
    asked.add_argument("--wide", action="store_true", help="addresses have 64 bits")
    words = asked.parse_args()
    processor = Processor(words.triple, words.layout, words.cpu, words.features, words.wide)
    try:
        made = rewritten(words.given.read_text(encoding="utf-8"), processor)
    except Unknown as refusal:
        print(f"to32: {refusal}", file=sys.stderr)
        return 1
    words.made.write_text(made, encoding="utf-8")
    return 0


if __name__ == "__main__":
    sys.exit(main())
