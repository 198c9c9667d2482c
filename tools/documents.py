#!/usr/bin/env python3
# SPDX-License-Identifier: Apache-2.0
"""Keeps the documents true to the sources.

    tools/documents.py --check     says what the pages at the top, in docs, bench, c, examples, python and tests name or link to and isn't there, what is
                                   stale, and what breaks a rule of docs/STYLE.md
    tools/documents.py --write     fills in what it makes: counted numbers, reading lists, whole files, the column `headline` of docs/DEFINITIONS.md, and
                                   the picture

What is checked:

- **Names.** Each word in backticks is an identifier of the sources, a crate, a must-fail edit, a file, or stands in tools/outside_names.txt
  with where it comes from. Under a heading that names crates it stands in these or in a crate that they stand on. In `x`, `y` of `z` the
  x and the y stand in the contract of a function z, in the record z, or in the crate or the crates that have z.
- **Paths**, in backticks and in blocks of commands. A word in capitals is a placeholder.
- **Parts of the test command**: what stands behind `./check` is one that it has.
- **Links** and their anchors.
- **Counted numbers** between `<!-- count: NAME -->` and `<!-- -->`, and the reading list of the main theorem between `<!-- list: headline -->`
  and `<!-- end of the list -->`.
- **Files that a page has whole**, between `<!-- file: PATH -->` and `<!-- end of the file -->`.
- **Crates**: each has its row in docs/ARCHITECTURE.md. Its picture is what tools/architecture.py would draw, and no crate breaks its rule.
- **Lengths**: README.md has at most 250 lines and 1,800 words. A line has at most 120 letters; outside README.md, rows of tables, blocks of
  code and what a tool writes between marks are exempt, as are headings, since they can't be broken.
- **Forms that may not come back** (docs/STYLE.md). Quoted words, rows of PROVED.md, GLOSSARY.md and DEFINITIONS.md and
  blocks of code are exempt.
- **docs/DECISIONS.md**: a decision begins with what it is about, in backticks, and has no figure of speed: instructions, nanoseconds,
  microseconds, per cent.
- **bench/NOTEBOOK.md**: each row of its tables has a date, a machine and a command in backticks.
"""
from __future__ import annotations

import argparse
import fnmatch
import re
import sys
from collections import defaultdict
from dataclasses import dataclass
from functools import cached_property
from pathlib import Path
from typing import Callable, Iterator

sys.path.insert(0, str(Path(__file__).resolve().parent))
import architecture  # noqa: E402  (the folder of this file has to be on the path first)
import closure as reading  # noqa: E402
import counted  # noqa: E402
import crates  # noqa: E402

ROOT = Path(__file__).resolve().parent.parent
DEFINITIONS = "docs/DEFINITIONS.md"
ARCHITECTURE = "docs/ARCHITECTURE.md"
OUTSIDE_NAMES = "tools/outside_names.txt"
# A page that a script makes of a log: it names commits, and crates as they were.
STATUS = "docs/STATUS.md"
DECISIONS = "docs/DECISIONS.md"
NOTEBOOK = "bench/NOTEBOOK.md"
STYLE = "docs/STYLE.md"
README_LINES, README_WORDS, LETTERS = 250, 1_800, 120
# Pages that are tables to look things up in: their cells have the words of the sources.
TABLES = ("docs/PROVED.md", "docs/GLOSSARY.md", DEFINITIONS)

# Where a path of the repository begins, and what stands in a folder that isn't kept.
TOP_FOLDERS = ("bench", "crates", "docs", "examples", "python", "tests", "tools", ".ci", "bindings", "include")
MADE = ("*/out/*", "*/out", "*/target/*")

WORD = re.compile(r"[A-Za-z_][A-Za-z0-9_']*")
SPAN = re.compile(r"`([^`\n]+)`")
LINK = re.compile(r"(?<!!)\[[^\]\n]*\]\(([^)\s]+)\)|!\[[^\]\n]*\]\(([^)\s]+)\)|src=\"([^\"]+)\"")
COUNT = re.compile(r"<!-- count: (\w+) -->(.*?)<!-- -->", re.S)
LIST = re.compile(r"<!-- list: (\w+) -->\n(.*?)<!-- end of the list -->", re.S)
FILE = re.compile(r"<!-- file: (\S+) -->\n(.*?)<!-- end of the file -->", re.S)
CHECK = re.compile(r"(?<![\w/])\./check((?: [a-z_][a-z_0-9]*)+)")
PART = re.compile(r'Part\("(\w+)"')
WRITTEN = re.compile(r"<!-- (?:table|list|file|walk|kinds): .*?<!-- end of the (?:table|list|file|walk|kinds) -->", re.S)
QUOTED = re.compile(r'`[^`]*`|"[^"]*"|\]\([^)]*\)|<!--.*?-->')
# Forms that STYLE.md rules out, each with what to write. A form is a regular expression over a paragraph without what is quoted in it.
FORMS: dict[str, str] = {
    r"\b(?:is|are|was|were) told\b": "report, say, call: who does it?",
    r"\btells? of\b": "describe, report",
    r"\bsome (?:ten|\d[\d,.]*)\b": "about ten",
    r"\bof one's own\b": "your own, its own",
    r"\bwhat stands\b": "what is",
    r"\bstands? (?:in|on|at|behind|beside|there)\b": "is in, is at, is after, uses",
    r"\bnothing is said\b": "unless .. says otherwise; the default is",
    r"\b(?:^|\. )Who (?:wants|reads|writes|needs)\b": "if you want",
    r"\bgranted\b": "accepted",
    r"\bisn't heard\b": "does not affect the output",
}
# Figures of speed, which are bench/NOTEBOOK.md's.
SPEED = re.compile(r"\b\d[\d,.]* (?:more |fewer |less )?(?:instructions?|ns|nanoseconds?|microseconds?|per cent|%)(?!\w)|\b\d[\d,.]*%")
DATE = re.compile(r"\b20\d\d-\d\d-\d\d\b")
OF = re.compile(r"((?:`[^`\n]+`(?:,? and |, )?)+) of (?:the )?((?:`[^`\n]+`(?:,? and |, )?)+)")


@dataclass(frozen=True)
class Problem:
    """Something that a document says and that isn't so."""

    document: str
    line: int
    text: str

    def __str__(self) -> str:
        return f"{self.document}:{self.line}: {self.text}"


class Repository:
    """What the sources have: crates, identifiers, contracts, records, edits and files."""

    def __init__(self, root: Path) -> None:
        self.root = root
        self.stands_on: dict[str, list[str]] = {name: list(it.uses) for name, it in crates.listed(root).items()}
        self.words: dict[str, set[str]] = defaultdict(set)
        self.contracts: dict[str, list[str]] = defaultdict(list)
        self.clauses: dict[str, list[str]] = defaultdict(list)
        self.records: dict[str, list[str]] = defaultdict(list)
        self.homes: dict[str, set[str]] = defaultdict(set)
        self.edits: set[str] = set()
        for crate in self.stands_on:
            self._read_crate(crate)

    def _read_crate(self, crate: str) -> None:
        folder = self.root / "crates" / crate
        for path in sorted(folder.rglob("*")):
            inside = path.relative_to(folder).parts
            if inside[0] == "out" or not path.is_file():
                continue
            if path.suffix == ".edit":
                self.edits.add(path.stem)
            elif path.suffix == ".rt":
                text = re.sub(r"(?m)//.*$", "", path.read_text(encoding="utf-8"))
                self.words[crate] |= set(WORD.findall(text)) | {path.stem}
                self._read_code(crate, text)
            elif path.suffix == ".antt":
                text = re.sub(r"(?m)^ *--.*$", "", path.read_text(encoding="utf-8"))
                self.words[crate] |= set(WORD.findall(text)) | {path.stem}
                self.homes[path.stem].add(crate)
                self._read_definitions(crate, text)
        self.words[crate].add(crate)

    def _read_code(self, crate: str, text: str) -> None:
        for found in re.finditer(r'(?m)^( *)(?:pub(?:\([a-z]+\))? )?(?:unsafe )?(?:const )?(?:extern "C" )?fn (\w+)', text):
            rest = text[found.start() :]
            end = re.search(rf"\n{found[1]}[{{}}]\n|\n *(?:pub(?:\([a-z]+\))? )?fn |\{{\n{found[1]}    (?! )|\Z", rest)
            contract = rest[: end.start()] if end else rest
            self.contracts[found[2]].append(contract)
            for clause in re.split(r"\n\s*(?=(?:requires|ensures) )", contract)[1:]:
                if name := re.match(r"(?:requires|ensures) (\w+)", clause):
                    self.clauses[name[1]].append(clause)
            self.homes[found[2]].add(crate)
        for found in re.finditer(r"(?m)^ *pub(?:\([a-z]+\))? (?:struct|enum|trait|type|const) (\w+)", text):
            self.homes[found[1]].add(crate)

    def _read_definitions(self, crate: str, text: str) -> None:
        for found in re.finditer(r"(?m)^( *)(?:abbrev |unfoldable |foldable |opaque )*(?:pub )?(?:(?:record|data) )?(\w[\w']*)\b(?=[^\n]*(?::|where))", text):
            rest = text[found.start() :]
            upto = re.search(r"\n\s*\n", rest)
            self.records[found[2]].append(rest[: upto.start()] if upto else rest)
            self.homes[found[2]].add(crate)

    def below(self, crate: str) -> set[str]:
        """The crate and all that it stands on."""
        found, todo = set(), [crate]
        while todo:
            one = todo.pop()
            if one in self.stands_on and one not in found:
                found.add(one)
                todo += self.stands_on[one]
        return found

    def words_of(self, crates: set[str]) -> set[str]:
        return set().union(*(self.words[crate] for crate in crates)) if crates else set()

    @cached_property
    def every_word(self) -> set[str]:
        return self.words_of(set(self.stands_on)) | self.edits | self.other_words

    @cached_property
    def other_words(self) -> set[str]:
        """The words of what isn't a crate: the scripts, the examples, and the names of all files."""
        found: set[str] = set()
        for folder in (".ci", "bench", "c", "docs", "examples", "python", "rust", "tests", "tools"):
            for path in sorted((self.root / folder).rglob("*")):
                found |= set(WORD.findall(path.name))
                if path.is_file() and path.suffix in ("", ".py", ".c", ".h", ".rs", ".sh", ".toml") and path.name != "closure.py":
                    found |= set(WORD.findall(path.read_text(encoding="utf-8", errors="ignore")))
        for path in self.root.iterdir():
            found |= set(WORD.findall(path.name))
        for name in ("dsp_console", "check"):
            if (self.root / name).is_file():
                found |= set(WORD.findall((self.root / name).read_text(encoding="utf-8")))
        return found

    def holds(self, owner: str, word: str) -> bool:
        """Whether the word stands in a contract or a record of that name, or in the crates that have a type of it."""
        if owner in self.stands_on:
            return word in self.words[owner] or word in self.edits
        texts = [*self.contracts.get(owner, []), *self.records.get(owner, []), *self.clauses.get(owner, [])]
        # What a contract or a clause cites by name is a part of it: a record that says how a run ends, with its fields.
        cited = {name for text in texts for name in WORD.findall(text) if name[:1].isupper() and name in self.records}
        texts += [text for name in cited for text in self.records[name]]
        if any(re.search(rf"(?<![\w'.]){re.escape(word)}(?![\w'])", text) for text in texts):
            return True
        types = {crate for crate in self.homes.get(owner, ()) if owner[:1].isupper()}
        return word in self.words_of(types)

    def counts(self) -> dict[str, Callable[[], int]]:
        """The numbers that documents may name."""

        def lines(folder: str, suffix: str) -> Callable[[], int]:
            return lambda: sum(len(path.read_text(encoding="utf-8").splitlines()) for path in self._files(folder, suffix))

        return {
            "crates": lambda: len(self.stands_on),
            "edits": lambda: len(self._files("must-fail", ".edit")),
            "source_lines": lines("", ".rt"),
            "spec_lines": lines("specs", ".antt"),
            "proof_lines": lines("proofs", ".antt"),
            "definitions": lambda: len(self.sources.definitions),
            "headline_definitions": lambda: len(self.headline.found),
            "headline_files": lambda: len({key[:2] for key in self.headline.found}),
            "headline_crates": lambda: len({key[0] for key in self.headline.found}),
            "headline_lines": lambda: self.headline.lines()[0],
            "headline_lines_with_comments": lambda: self.headline.lines()[1],
            "headline_types": lambda: len(self.headline.declared),
            "headline_type_lines": lambda: self.headline.declared_lines(),
            "headline_outside": lambda: len(self.headline.outside),
            "sounds_definitions": lambda: len(self.sounds.found),
            "sounds_lines": lambda: self.sounds.lines()[0],
        }

    def _files(self, folder: str, suffix: str) -> list[Path]:
        found = []
        for path in (self.root / "crates").rglob(f"*{suffix}"):
            parts = path.relative_to(self.root / "crates").parts
            if "out" not in parts and (not folder or folder in parts[1:-1]):
                found.append(path)
        return found

    @cached_property
    def sources(self) -> reading.Sources:
        return reading.Sources(self.root)

    @cached_property
    def headline(self) -> reading.Closure:
        return reading.theorem_closure(self.sources, reading.HEADLINE)

    @cached_property
    def sounds(self) -> reading.Closure:
        return reading.theorem_closure(self.sources, reading.SOUNDS)


def read_outside(root: Path) -> dict[str, str]:
    """The names of others, each with where it comes from: a line `WHERE: NAME NAME ..` for each place."""
    found: dict[str, str] = {}
    path = root / OUTSIDE_NAMES
    if path.is_file():
        for line in path.read_text(encoding="utf-8").splitlines():
            if line.strip() and not line.startswith("#"):
                where, _, names = line.partition(":")
                found |= {name: where.strip() for name in names.split()}
    return found


def documents(root: Path) -> list[Path]:
    """The pages: those at the top, in docs, and anywhere in bench, c, examples, python and tests."""
    deep = (path for folder in ("bench", "c", "examples", "python", "tests") for path in sorted((root / folder).rglob("*.md")))
    return [*sorted(root.glob("*.md")), *sorted((root / "docs").glob("*.md")), *deep]


def prose(text: str) -> Iterator[tuple[int, str, bool]]:
    """Each line with its number, and whether it is a block of code."""
    fenced = False
    before = ""
    for number, line in enumerate(text.splitlines(), 1):
        if line.lstrip().startswith("```"):
            fenced = not fenced
            before = line
            continue
        indented = line.startswith("    ") and (not before.strip() or before.startswith("    ")) and not re.match(r"\s+([-*]|\d+\.) ", line)
        yield number, line, fenced or indented
        before = line


def crates_of_heading(line: str, repository: Repository) -> set[str]:
    return {name for name in SPAN.findall(line) if name in repository.stands_on} if line.startswith("#") else set()


def slug(heading: str) -> str:
    """The anchor that a heading has: lower case, no punctuation, a hyphen for each space."""
    plain = re.sub(r"[`*]|\[([^\]]*)\]\([^)]*\)", r"\1", heading)
    return re.sub(r"[^\w\- ]", "", plain.lower()).strip().replace(" ", "-")


def anchors(text: str) -> set[str]:
    found: set[str] = set()
    for _, line, code in prose(text):
        if not code and line.startswith("#"):
            name = slug(line.lstrip("#").strip())
            at = 0
            while (name if not at else f"{name}-{at}") in found:
                at += 1
            found.add(name if not at else f"{name}-{at}")
    return found | set(re.findall(r'<a (?:id|name)="([^"]+)"', text))


class Checker:
    """Finds what is wrong in the documents of a repository."""

    def __init__(self, repository: Repository) -> None:
        self.repository = repository
        self.outside = read_outside(repository.root)
        self.used_outside: set[str] = set()
        kept_out = repository.root / ".gitignore"
        # What commands make and nobody keeps may be named.
        self.ignored = kept_out.read_text(encoding="utf-8").split() if kept_out.is_file() else []

    def check(self) -> list[Problem]:
        found: list[Problem] = []
        for path in documents(self.repository.root):
            text = path.read_text(encoding="utf-8")
            name = str(path.relative_to(self.repository.root))
            found += self.names(name, text) if name != STATUS else []
            found += self.links(path, name, text)
            found += self.parts(name, text)
            found += self.counted(name, text)
            found += self.lengths(name, text) + self.forms(name, text)
        found += self.column()
        found += self.rows_of_crates()
        found += self.picture()
        found += self.readme()
        found += self.decisions()
        found += self.notebook()
        for word in sorted(set(self.outside) - self.used_outside):
            found.append(Problem(OUTSIDE_NAMES, 0, f"`{word}` stands in no document"))
        return found

    def names(self, name: str, text: str) -> list[Problem]:
        found: list[Problem] = []
        scope: set[str] = set()
        scoped = name == DEFINITIONS or name.endswith("PROVED.md")
        known = self.repository.every_word
        for number, line, code in prose(text):
            if line.startswith("#") and not code:
                crates = crates_of_heading(line, self.repository)
                scope = set().union(*(self.repository.below(crate) for crate in crates)) if crates and scoped else set()
                known = self.repository.words_of(scope) | set(self.repository.stands_on) | self.repository.edits if scope else self.repository.every_word
            # What another crate has may be named beside it.
            beside = self.repository.words_of({span for span in SPAN.findall(line) if span in self.repository.stands_on}) if scope else set()
            spans = re.findall(r"(?<![\w/.])(?:\./)?[\w.*-]+(?:/[\w.*-]+)+/?", line) if code else SPAN.findall(line)
            for span in spans:
                for wrong in self.wrong_words(span, known | beside if beside else known, code):
                    where = " in these crates or below" if scope else ""
                    found.append(Problem(name, number, f"`{wrong}` isn't there{where}"))
            if not code:
                found += [Problem(name, number, f"`{word}` isn't of `{owner}`") for word, owner in self.wrong_owners(line)]
        return found

    def wrong_words(self, span: str, known: set[str], code: bool) -> Iterator[str]:
        """What a span names that isn't there: a path, or words."""
        for path in re.findall(r"(?<![\w/.])(?:\./)?[\w.*-]+(?:/[\w.*-]+)+/?", span):
            if path.removeprefix("./").split("/")[0] in TOP_FOLDERS and not self.is_path(path.removeprefix("./")):
                yield path
        if code or span.startswith("-- ") or "b'" in span:  # a comment of a source, what Python prints
            return
        for word in WORD.findall(re.sub(r"(?:\./)?[\w.*-]+(?:/[\w.*-]+)+/?", " ", span)):
            if word.startswith("_") and any(name.endswith(word) for name in known):
                continue
            if len(word) < 3 or word in known or re.fullmatch(r"[A-Z][A-Z0-9_]*", word) and word not in self.outside:
                continue
            if word in self.outside:
                self.used_outside.add(word)
            else:
                yield word

    def is_path(self, path: str) -> bool:
        if any(part.isupper() and part.isalpha() for part in re.split(r"[/.]", path)):
            return True
        if any(fnmatch.fnmatch(path, pattern) for pattern in (*MADE, *self.ignored)):
            return True
        return any(self.repository.root.glob(path.rstrip("/"))) if "*" in path else (self.repository.root / path).exists()

    def wrong_owners(self, line: str) -> Iterator[tuple[str, str]]:
        """In `x`, `y` of `z`: each x and y that no z has."""
        for found in OF.finditer(line):
            owners = [WORD.findall(span)[-1] for span in SPAN.findall(found[2]) if WORD.findall(span) and "/" not in span]
            if len(owners) < len(SPAN.findall(found[2])):
                continue
            for span in SPAN.findall(found[1]):
                parts = WORD.findall(span)
                # Of a dotted name the first word is the field. What others own, and what has no owner here, can't be looked up.
                if len(parts) == 0 or "/" in span or " " in span or any(owner in self.outside for owner in owners):
                    continue
                if not any(self.repository.holds(owner, parts[0]) or self.repository.holds(owner, parts[-1]) for owner in owners):
                    yield span, ", ".join(owners)

    def links(self, path: Path, name: str, text: str) -> list[Problem]:
        found: list[Problem] = []
        for number, line, code in prose(text):
            links: list[str] = [] if code else [next(filter(None, groups)) for groups in LINK.findall(line)]
            for link in links:
                if re.match(r"[a-z]+:", link):
                    continue
                file, _, anchor = link.partition("#")
                target = (path.parent / file).resolve() if file else path
                if not target.exists():
                    found.append(Problem(name, number, f"the link {link} leads nowhere"))
                elif anchor and target.suffix == ".md" and anchor not in anchors(target.read_text(encoding="utf-8")):
                    found.append(Problem(name, number, f"the anchor of {link} isn't there"))
        return found

    def parts(self, name: str, text: str) -> list[Problem]:
        """What is named as a part of the test command and is none."""
        command = self.repository.root / "check"
        if not command.is_file():
            return []
        known = set(PART.findall(command.read_text(encoding="utf-8")))
        found: list[Problem] = []
        for number, line, code in prose(text):
            for span in [line] if code else SPAN.findall(line):
                # In a block of commands words follow that say what a command does, behind more than one space.
                for words in CHECK.findall(span):
                    found += [Problem(name, number, f"`./check` has no part {word}") for word in words.split() if word not in known]
        return found

    def counted(self, name: str, text: str) -> list[Problem]:
        found: list[Problem] = []
        counts = self.repository.counts()
        for match in COUNT.finditer(text):
            number = text.count("\n", 0, match.start()) + 1
            if match[1] not in counts:
                found.append(Problem(name, number, f"nothing counts {match[1]}"))
            elif match[2] != f"{counts[match[1]]():,}":
                found.append(Problem(name, number, f"{match[1]} is {counts[match[1]]():,}, and not {match[2]}: tools/documents.py --write"))
        for match in LIST.finditer(text):
            number = text.count("\n", 0, match.start()) + 1
            if match[1] != "headline":
                found.append(Problem(name, number, f"nothing lists {match[1]}"))
            elif match[2] != reading_list(self.repository):
                found.append(Problem(name, number, "the reading list is stale: tools/documents.py --write"))
        for match in FILE.finditer(text):
            number = text.count("\n", 0, match.start()) + 1
            if not (self.repository.root / match[1]).is_file():
                found.append(Problem(name, number, f"the file {match[1]} isn't there"))
            elif match[2] != fenced_file(self.repository.root / match[1]):
                found.append(Problem(name, number, f"{match[1]} is another by now: tools/documents.py --write"))
        if text.count("<!-- count:") != len(COUNT.findall(text)):
            found.append(Problem(name, 0, "a counted number has no end"))
        return found

    def column(self) -> list[Problem]:
        path = self.repository.root / DEFINITIONS
        if not path.is_file():
            return []
        text = path.read_text(encoding="utf-8")
        stale = [at for at, (old, new) in enumerate(zip(text.splitlines(), with_column(text, self.repository).splitlines()), 1) if old != new]
        found = [Problem(DEFINITIONS, at, "the column `headline` is stale: tools/documents.py --write") for at in stale]
        listed = listed_definitions(text, self.repository)
        for crate, file, name in sorted(self.repository.headline.found):
            if (crate, name) not in listed:
                found.append(Problem(DEFINITIONS, 0, f"`{name}` of {crate}, {file}, which the main theorem needs, isn't listed"))
        return found

    def rows_of_crates(self) -> list[Problem]:
        """Each crate that ARCHITECTURE.md has no row for."""
        path = self.repository.root / ARCHITECTURE
        if not path.is_file():
            return []
        rows = {name for line in path.read_text(encoding="utf-8").splitlines() if line.startswith("| `") for name in names_in(cells(line)[0])}
        return [Problem(ARCHITECTURE, 0, f"the crate `{crate}` has no row") for crate in self.repository.stands_on if crate not in rows]

    def picture(self) -> list[Problem]:
        """What is wrong with the picture of the crates, where there is one."""
        path = self.repository.root / architecture.PICTURE
        if not path.is_file():
            return []
        crates = architecture.House.read(self.repository.root).crates
        found = [Problem("crates.txt", 0, text) for text in architecture.broken_rules(crates, architecture.PLACES)]
        if path.read_text(encoding="utf-8") != architecture.draw(crates):
            found.append(Problem(str(architecture.PICTURE), 0, "the picture is stale: tools/documents.py --write"))
        return found

    def readme(self) -> list[Problem]:
        text = (self.repository.root / "README.md").read_text(encoding="utf-8")
        lines, words = len(text.splitlines()), len(text.split())
        found = [Problem("README.md", lines, f"{lines} lines: at most {README_LINES}")] if lines > README_LINES else []
        return found + ([Problem("README.md", lines, f"{words} words: at most {README_WORDS}")] if words > README_WORDS else [])

    def lengths(self, name: str, text: str) -> list[Problem]:
        """Lines that are too long. What can't be broken is exempt, but not in README.md."""
        found: list[Problem] = []
        for number, line, code in prose(text if name == "README.md" else without_written(text)):
            unbreakable = code or line.startswith(("|", "#"))
            if len(line) > LETTERS and (name == "README.md" or not unbreakable):
                found.append(Problem(name, number, f"{len(line)} letters: at most {LETTERS}"))
        return found

    def forms(self, name: str, text: str) -> list[Problem]:
        """Forms that may not come back. STYLE.md quotes them, and STATUS.md is a log."""
        if name in (STYLE, STATUS):
            return []
        found: list[Problem] = []
        for number, line, code in prose(without_written(text)):
            if code or (name in TABLES and line.startswith("|")):
                continue
            plain = QUOTED.sub(" ", line)
            found += [Problem(name, number, f"{match[0]!r}: {better} (docs/STYLE.md)") for form, better in FORMS.items() for match in re.finditer(form, plain)]
        return found

    def decisions(self) -> list[Problem]:
        """Decisions that don't begin with what they are about, and figures of speed among them."""
        path = self.repository.root / DECISIONS
        lines = path.read_text(encoding="utf-8").splitlines() if path.is_file() else []
        found = [Problem(DECISIONS, at, "a decision begins with what it is about, in backticks") for at, line in enumerate(lines, 1) if re.match(r"- (?!`)", line)]
        return found + [Problem(DECISIONS, at, f"{match[0]!r} is a figure of speed: {NOTEBOOK}") for at, line in enumerate(lines, 1) for match in SPEED.finditer(line)]

    def notebook(self) -> list[Problem]:
        """Rows of measurements without what it takes to make them again."""
        path = self.repository.root / NOTEBOOK
        found: list[Problem] = []
        columns: list[str] = []
        for at, line in enumerate(path.read_text(encoding="utf-8").splitlines() if path.is_file() else [], 1):
            row = cells(line) if line.startswith("|") else []
            if not row or set(line) <= set("|-: "):
                columns = columns if row else []
            elif not columns:
                columns = row
                found += [Problem(NOTEBOOK, at, f"the table has no column {wanted}") for wanted in ("date", "machine", "command") if wanted not in columns]
            else:
                given = dict(zip(columns, row))
                lacks = [DATE.fullmatch(given.get("date", "")) is None, not given.get("machine"), not SPAN.findall(given.get("command", ""))]
                found += [Problem(NOTEBOOK, at, f"the row has no {what}") for what, missing in zip(("date", "machine", "command"), lacks) if missing]
        return found


def without_written(text: str) -> str:
    """The text with as many lines, but those empty that a tool writes between marks."""
    return WRITTEN.sub(lambda found: "\n" * found[0].count("\n"), text)


def reading_list(repository: Repository) -> str:
    """The definitions that the main theorem needs, crate by crate, from the top of crates.txt down."""
    order = list(repository.stands_on)
    rows = ["| crate | files of `specs/` | definitions | lines |", "|---|---|---|---|"]
    for crate, found in sorted(repository.headline.by_crate().items(), key=lambda item: -order.index(item[0])):
        files = ", ".join(f"`{file}`" for file in dict.fromkeys(one.file for one in found))
        rows.append(f"| `{crate}` | {files} | {len(found)} | {sum(len(one.code()) for one in found)} |")
    return "\n".join(rows) + "\n"


def fenced_file(path: Path) -> str:
    """A file as a block of code."""
    language = {".rt": "rust", ".antt": "text"}.get(path.suffix, "text")
    return f"```{language}\n{path.read_text(encoding='utf-8')}```\n"


def with_counts(text: str, repository: Repository) -> str:
    """The text with its counted numbers, its reading lists and its whole files as they are now."""
    text = FILE.sub(lambda found: f"<!-- file: {found[1]} -->\n{fenced_file(repository.root / found[1])}<!-- end of the file -->", text)
    counts = repository.counts()
    text = LIST.sub(lambda found: f"<!-- list: headline -->\n{reading_list(repository)}<!-- end of the list -->" if found[1] == "headline" else found[0], text)
    return COUNT.sub(lambda found: f"<!-- count: {found[1]} -->{counts[found[1]]():,}<!-- -->" if found[1] in counts else found[0], text)


def cells(row: str) -> list[str]:
    """The cells of a row of a table. A bar within backticks ends none."""
    return [cell.strip() for cell in re.split(r"\|(?=(?:[^`]*`[^`]*`)*[^`]*$)", row.strip().strip("|"))]


def names_in(cell: str) -> list[str]:
    """The names in backticks in a cell. Of a dotted name the last word counts."""
    return [WORD.findall(span)[-1] for span in SPAN.findall(cell) if WORD.findall(span)]


def listed_definitions(text: str, repository: Repository) -> set[tuple[str, str]]:
    """Each name in a first cell, with each crate of the heading above it."""
    found: set[tuple[str, str]] = set()
    scope: set[str] = set()
    for line in text.splitlines():
        if line.startswith("#"):
            scope = crates_of_heading(line, repository)
        elif line.startswith("|"):
            found |= {(crate, name) for crate in scope for name in names_in(cells(line)[0])}
    return found


def with_column(text: str, repository: Repository) -> str:
    """The list of definitions with its column `headline`: which names of a row the main theorem needs."""
    needed: dict[str, set[str]] = defaultdict(set)
    for crate, _, name in repository.headline.found:
        needed[crate].add(name)
    scope: set[str] = set()
    width = 0
    rows: list[str] = []
    for line in text.splitlines():
        if line.startswith("#"):
            scope = crates_of_heading(line, repository)
        found = cells(line) if line.startswith("|") else []
        if found and found[0] == "definition":
            width = len(found) - (found[-1] == "headline")
            line = f"| {' | '.join([*found[:width], 'headline'])} |"
        elif found and width and set(line) <= set("|-: "):
            line = "|" + "---|" * (width + 1)
        elif found and width:
            names = names_in(found[0])
            wanted = [name for name in names if any(name in needed[crate] for crate in scope)]
            mark = "all" if wanted and len(wanted) == len(names) else ", ".join(f"`{name}`" for name in wanted)
            line = f"| {' | '.join([*found[:width], mark])} |".replace("|  |", "| |").replace("|  |", "| |")
        else:
            width = 0 if not found else width
        rows.append(line)
    return "\n".join(rows) + "\n"


def write(repository: Repository) -> list[str]:
    """Fills in what is made, draws the picture anew where there is one, and answers which files it changed."""
    changed: list[str] = []
    for path in documents(repository.root):
        old = path.read_text(encoding="utf-8")
        new = with_counts(old, repository)
        if path == repository.root / DEFINITIONS:
            new = with_column(new, repository)
        if new != old:
            path.write_text(new, encoding="utf-8")
            changed.append(str(path.relative_to(repository.root)))
    picture = repository.root / architecture.PICTURE
    if picture.is_file():
        drawn = architecture.draw(architecture.House.read(repository.root).crates)
        if drawn != picture.read_text(encoding="utf-8"):
            picture.write_text(drawn, encoding="utf-8")
            changed.append(str(architecture.PICTURE))
    return changed


def main(words: list[str]) -> int:
    parser = argparse.ArgumentParser(description="Keeps the documents true to the sources.")
    parser.add_argument("--root", type=Path, default=ROOT, help="another checkout")
    wanted = parser.add_mutually_exclusive_group(required=True)
    wanted.add_argument("--check", action="store_true", help="say what is wrong")
    wanted.add_argument("--write", action="store_true", help="fill in the counted numbers and the column `headline`")
    given = parser.parse_args(words)
    repository = Repository(given.root.resolve())
    if given.write:
        for name in write(repository):
            print(f"written: {name}")
        return 0
    found = Checker(repository).check()
    for problem in found:
        print(problem, file=sys.stderr)
    pages = len(documents(repository.root))
    counted.keep(max(0, pages - len(found)), len(found))
    print(f"{pages} documents, {len(found)} wrong")
    return 1 if found else 0


if __name__ == "__main__":
    sys.exit(main(sys.argv[1:]))
