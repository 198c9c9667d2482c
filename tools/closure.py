#!/usr/bin/env python3
# SPDX-License-Identifier: Apache-2.0
"""Lists the definitions that a reader of a clause has to believe.

    tools/closure.py CRATE[/src/FILE.rt]:FUNCTION .. [--clause NAME] [--also CRATE.FILE.NAME] [--stop CRATE.FILE.NAME]
    tools/closure.py --headline          the same as for the main theorem at the program's own five algorithms
    tools/closure.py --sounds            of its sounds alone: what of it speaks of no memory
    tools/closure.py .. --files          the definitions of each file, with their lines
    tools/closure.py .. --outside        the names of the kit's libraries that are left

From the clauses of a function it follows each name that a definition of crates/*/specs/*.antt uses, down to the types and constants of
the Rust sources and to the names of the kit. It reads text: a name that two imports bind is resolved by the file's `use` lines, and
operators are not counted.
"""
from __future__ import annotations

import argparse
import re
import sys
from collections import defaultdict
from dataclasses import dataclass, field
from pathlib import Path

ROOT = Path(__file__).resolve().parent.parent

# The main theorem, and its sounds alone: a clause of `run` each, for the meaning and the names of the five algorithms of the program.
RUN = "dsp_console:run"
HEADLINE, SOUNDS = "headline", "sounds"
VOICES = ("voice_set.Voices.voice_meaning", "voice_set.Voices.voice_named")

IDENTIFIER = re.compile(r"[A-Za-z_][A-Za-z0-9_']*(?:\.[A-Za-z_][A-Za-z0-9_']*)*")
DEFINITION = re.compile(
    r"^( {0,2})((?:abbrev |unfoldable |foldable |opaque )*)(pub )?((?:record |data )?)([A-Za-z_][A-Za-z0-9_']*)(.*)$"
)
USE = re.compile(r"(?:pub )?(?:ghost )?use ([A-Za-z0-9_.']+?)(?:\.\{(.*)\})?(?: as ([A-Za-z_0-9]+))?;?\s*$")
CONSTRUCTORS = re.compile(r"^\s+((?:[A-Z][A-Za-z0-9_']* ?)+):")
DECLARED = re.compile(r"pub(?:\(crate\))? (?:struct|enum|const) ([A-Za-z_0-9]+)")

Key = tuple[str, str, str]  # crate, file of specs/, name


@dataclass(frozen=True)
class Target:
    """What a name in a file stands for: `kind` is definition, module, declared (a Rust item) or outside."""

    kind: str
    crate: str = ""
    file: str = ""
    name: str = ""


Names = dict[str, Target]


@dataclass
class Definition:
    """A definition of specs/ with its lines, the comment above it among them."""

    crate: str
    file: str
    name: str
    kind: str
    indent: int
    lines: list[str] = field(default_factory=list)

    @property
    def key(self) -> Key:
        return self.crate, self.file, self.name

    def code(self) -> list[str]:
        return [line for line in self.lines if line.strip() and not line.strip().startswith("--")]

    def all_lines(self) -> list[str]:
        return [line for line in self.lines if line.strip()]


class Sources:
    """The definitions, the imports and the declared Rust items of a checkout."""

    def __init__(self, root: Path) -> None:
        self.root = root
        self.definitions: dict[Key, Definition] = {}
        self.constructors: dict[Key, Definition] = {}
        self.imports: dict[tuple[str, str], Names] = {}
        self.passed_on: dict[tuple[str, str], Names] = defaultdict(dict)
        self.declared: dict[tuple[str, str], int] = {}
        for path in sorted(root.glob("crates/*/specs/*.antt")):
            if path.stem != "Lib":
                self._read_specs(path)
        for path in sorted(root.glob("crates/*/src/**/*.rt")):
            self._read_declared(path)

    def _read_specs(self, path: Path) -> None:
        crate, file = path.parent.parent.name, path.stem
        names = self.imports[crate, file] = {}
        current: Definition | None = None
        comments: list[str] = []
        for line in path.read_text(encoding="utf-8").splitlines():
            indent = len(line) - len(line.lstrip())
            if re.match(r"(pub )?use ", line):
                self.read_use(line, names)
                if line.startswith("pub use"):
                    self.read_use(line[4:], self.passed_on[crate, file])
            elif re.match(r" *module ", line):
                current = None
            elif re.match(r" *--", line):
                if current is not None and indent > current.indent:
                    current.lines.append(line)
                else:
                    comments.append(line)
                    current = None
            elif not line.strip():
                comments, current = [], None
            elif begun := self._begun(crate, file, line, indent, current):
                current = begun
                current.lines = [*comments, line]
                comments = []
                self.definitions[current.key] = current
            elif current is not None:
                current.lines += [*comments, line]
                comments = []
                if current.kind == "data" and (found := CONSTRUCTORS.match(line)):
                    for name in found[1].split():
                        self.constructors[crate, file, name] = current

    @staticmethod
    def _begun(crate: str, file: str, line: str, indent: int, current: Definition | None) -> Definition | None:
        """The definition that begins with this line, if one does."""
        found = DEFINITION.match(line)
        if not found:
            return None
        modifiers, public, sort, name, tail = found[2], found[3], found[4], found[5], found[6]
        begins = bool(sort) or (bool(modifiers or public) and re.match(r"\s*[:({]", tail) is not None)
        if not begins or (current is not None and current.kind == "record" and indent > current.indent):
            return None
        return Definition(crate, file, name, sort.strip() or "def", indent)

    def _read_declared(self, path: Path) -> None:
        crate = path.relative_to(self.root / "crates").parts[0]
        lines = path.read_text(encoding="utf-8").splitlines()
        for at, line in enumerate(lines):
            found = DECLARED.match(line)
            if not found:
                continue
            end = at
            while lines[at].rstrip().endswith("{") and not lines[end].startswith("}"):
                end += 1
            start = at
            while start > 0 and re.match(r"(///|#\[)", lines[start - 1]):
                start -= 1
            self.declared.setdefault((crate, found[1]), end - start + 1)

    def read_use(self, text: str, names: Names) -> None:
        """Adds to the names what a `use` line binds."""
        found = USE.match(text.strip())
        if not found:
            return
        path, listed, alias = found[1].split("."), found[2], found[3]
        items = [item.split(" as ") for item in (listed or "").split(",") if item.strip()]
        pairs = [(item[0].strip(), item[-1].strip()) for item in items]
        ours = path[0] == "Rattle" and len(path) > 2 and (self.root / "crates" / path[1]).is_dir()
        if not ours:
            for source, local in pairs or [("", alias or path[-1])]:
                names[local] = Target("outside", name=".".join([*path, source] if source else path))
        elif path[2] == "specs":
            self._bind(path[1], path[3:], pairs, alias, names)

    @staticmethod
    def _bind(crate: str, rest: list[str], pairs: list[tuple[str, str]], alias: str | None, names: Names) -> None:
        if rest and rest[0] == "declared":
            types = [part for part in rest[1:] if part[0].isupper() and part not in ("TheVariants", "TheConstants")]
            for source, local in pairs:
                names[local] = Target("declared", crate, name=types[-1] if types else source)
            return
        file, inner = rest[0], rest[1] if len(rest) > 1 else ""
        if not pairs:
            names[alias or inner or file] = Target("module", crate, file, inner)
        for source, local in pairs:
            names[local] = Target("definition", crate, file, inner or source)

    def clauses(self, function: str, wanted: tuple[str, ...]) -> tuple[str, Names]:
        """The text of a public function's clauses, and what its file imports. The function is CRATE[/src/FILE.rt]:NAME."""
        place, name = function.split(":")
        paths = [self.root / "crates" / place] if place.endswith(".rt") else sorted((self.root / "crates" / place / "src").glob("*.rt"))
        for path in paths:
            source = path.read_text(encoding="utf-8")
            found = re.search(rf"\n( *)pub fn {name}\b", source)
            if not found:
                continue
            rest = source[found.start() + 1 :]
            end = re.search(rf"\n{found[1]}\{{|;\n", rest)
            text = rest[: end.start()] if end else rest
            if wanted:
                parts = re.split(r"\n\s*(?=(?:requires|ensures) )", text)
                text = "\n".join(part for part in parts if re.match(rf"\s*(?:requires|ensures) (?:{'|'.join(wanted)})\b", part))
                if not text:
                    raise LookupError(f"{function} has no clause {', '.join(wanted)}")
            names: Names = {}
            for line in source.splitlines():
                if re.match(r"\s*ghost use ", line):
                    self.read_use(line.strip(), names)
            return text, names
        raise LookupError(f"no such function: {function}")


class Closure:
    """All that a text of clauses leads to."""

    def __init__(self, sources: Sources, stops: set[Key]) -> None:
        self.sources = sources
        self.stops = stops
        self.found: dict[Key, Definition] = {}
        self.declared: set[tuple[str, str]] = set()
        self.outside: set[str] = set()
        self.unresolved: set[Key] = set()

    def follow(self, text: str, names: Names, crate: str = "", file: str = "") -> None:
        """Takes in each name of the text. A stack in place of a recursion: chains of definitions are long."""
        todo = [(text, names, crate, file)]
        while todo:
            part, known, of_crate, of_file = todo.pop()
            for token in IDENTIFIER.findall(part):
                for target in self._targets(token, known, of_crate, of_file):
                    if begun := self._take(target):
                        code = "\n".join(begun.code())
                        todo.append((code, self.sources.imports[begun.crate, begun.file], begun.crate, begun.file))

    def add(self, name: str) -> None:
        """Takes in the definition CRATE.FILE.NAME and all that it leads to."""
        crate, file, own = name.split(".")
        if (crate, file, own) not in self.sources.definitions:
            raise LookupError(f"no such definition: {name}")
        self.follow(own, {own: Target("definition", crate, file, own)})

    def _targets(self, token: str, names: Names, crate: str, file: str) -> list[Target]:
        parts = token.split(".")
        target = names.get(parts[0])
        if target is None:
            inside = (crate, file, parts[0])
            if crate and (inside in self.sources.definitions or inside in self.sources.constructors):
                return [Target("definition", *inside)]
            return []
        if target.kind != "module":
            return [target]
        return [Target("definition", target.crate, target.file, target.name or parts[1])] if len(parts) > 1 else []

    def _take(self, target: Target) -> Definition | None:
        """Notes what a name stands for; answers a definition that is met for the first time."""
        if target.kind == "outside":
            self.outside.add(target.name)
            return None
        if target.kind == "declared":
            self.declared.add((target.crate, target.name))
            return None
        key = (target.crate, target.file, target.name)
        while key not in self.sources.definitions:
            if key in self.sources.constructors:
                key = self.sources.constructors[key].key
            elif target.name in self.sources.passed_on.get(key[:2], {}):
                return self._take(self.sources.passed_on[key[:2]][target.name])
            else:
                self.unresolved.add(key)
                return None
        if key in self.found or key in self.stops:
            return None
        self.found[key] = self.sources.definitions[key]
        return self.found[key]

    def by_crate(self) -> dict[str, list[Definition]]:
        """The definitions of each crate, in the order of the files' names and of the lines."""
        found: dict[str, list[Definition]] = defaultdict(list)
        order = {key: at for at, key in enumerate(self.sources.definitions)}
        for key in sorted(self.found, key=order.__getitem__):
            found[key[0]].append(self.found[key])
        return dict(sorted(found.items()))

    def lines(self) -> tuple[int, int]:
        """Lines of code, and lines with comments."""
        every = self.found.values()
        return sum(len(d.code()) for d in every), sum(len(d.all_lines()) for d in every)

    def declared_lines(self) -> int:
        return sum(self.sources.declared.get(key, 0) for key in self.declared)


def closure_of(sources: Sources, functions: list[str], clauses: tuple[str, ...], also: tuple[str, ...], stops: set[Key]) -> Closure:
    closure = Closure(sources, stops)
    for function in functions:
        closure.follow(*sources.clauses(function, clauses))
    for name in also:
        closure.add(name)
    return closure


def theorem_closure(sources: Sources, clause: str) -> Closure:
    """What a reader of the main theorem, or of its sounds alone, has to believe, at the five algorithms of the program."""
    return closure_of(sources, [RUN], (clause,), VOICES, set())


def report(closure: Closure, files: bool, outside: bool) -> str:
    rows = [f"{'crate':20} files  definitions  lines (with comments)"]
    for crate, definitions in closure.by_crate().items():
        code = sum(len(d.code()) for d in definitions)
        every = sum(len(d.all_lines()) for d in definitions)
        count = len({d.file for d in definitions})
        rows.append(f"{crate:20} {count:5}  {len(definitions):11}  {code:5} ({every})")
        if files:
            for file in dict.fromkeys(d.file for d in definitions):
                names = " ".join(f"{d.name}({len(d.code())})" for d in definitions if d.file == file)
                rows.append(f"    crates/{crate}/specs/{file}.antt: {names}")
    code, every = closure.lines()
    count = len({key[:2] for key in closure.found})
    rows.append(f"{'together':20} {count:5}  {len(closure.found):11}  {code:5} ({every})")
    rows.append(f"Rust types and constants: {len(closure.declared)}, {closure.declared_lines()} lines")
    rows.append(f"names of the kit's libraries: {len(closure.outside)}")
    if outside:
        rows += [f"    {name}" for name in sorted(closure.outside)]
    if closure.unresolved:
        rows.append("not found: " + " ".join(".".join(key) for key in sorted(closure.unresolved)))
    return "\n".join(rows)


def stop_of(name: str) -> tuple[str, str, str]:
    """A name of three parts, crate.file.name."""
    crate, file, own = name.split(".")
    return crate, file, own


def main(words: list[str]) -> int:
    parser = argparse.ArgumentParser(description="Lists the definitions that a reader of a clause has to believe.")
    parser.add_argument("functions", nargs="*", metavar="CRATE[/src/FILE.rt]:FUNCTION")
    parser.add_argument("--headline", action="store_const", dest="theorem", const=HEADLINE, help="the main theorem at the program's own algorithms")
    parser.add_argument("--sounds", action="store_const", dest="theorem", const=SOUNDS, help="its sounds alone")
    parser.add_argument("--clause", action="append", default=[], help="only the clauses of this name")
    parser.add_argument("--also", action="append", default=[], metavar="CRATE.FILE.NAME", help="a definition that stands in for a trait's")
    parser.add_argument("--stop", action="append", default=[], metavar="CRATE.FILE.NAME", help="leave this one out, and what only it needs")
    parser.add_argument("--files", action="store_true", help="name each file's definitions")
    parser.add_argument("--outside", action="store_true", help="name what is left of the kit's libraries")
    parser.add_argument("--root", type=Path, default=ROOT, help="another checkout")
    given = parser.parse_args(words)
    if bool(given.functions) == bool(given.theorem):
        parser.error("name a function, or --headline or --sounds, and not both")
    sources = Sources(given.root)
    stops = set(map(stop_of, given.stop))
    try:
        if given.theorem:
            closure = closure_of(sources, [RUN], (given.theorem,), (*VOICES, *given.also), stops)
        else:
            closure = closure_of(sources, given.functions, tuple(given.clause), tuple(given.also), stops)
    except LookupError as wrong:
        print(f"closure.py: {wrong.args[0]}", file=sys.stderr)
        return 2
    print(report(closure, given.files, given.outside))
    return 1 if closure.unresolved else 0


if __name__ == "__main__":
    sys.exit(main(sys.argv[1:]))
