#!/usr/bin/env python3
# SPDX-License-Identifier: Apache-2.0
"""Draws docs/architecture.svg, the map of the crates, from crates.txt and the line counts of the sources.

    tools/architecture.py --write     draws it anew
    tools/architecture.py --check     says whether the kept picture is what would be drawn, and which crate breaks the rule
    tools/architecture.py --layers    prints the layers of crates.txt with their crates, from the top down

The picture has four lanes: what is meant, what runs, the algorithms, the tests. Height is the rule: a crate uses only crates that are lower,
so no arrow has to say it. A crate that breaks the rule, or has no place in the table below, is named, and the status is 1. Lines say
what height can't: which code refines which specification, and the three walks of docs/ARCHITECTURE.md. A box has the crate's name, its
subject in a few words, and a bar to scale for its lines of code, of definitions and of proofs.
"""
from __future__ import annotations

import argparse
import html
import sys
from dataclasses import dataclass, field
from pathlib import Path

sys.path.insert(0, str(Path(__file__).resolve().parent))
import crates as listing  # noqa: E402  (the folder of this file has to be on the path first)

ROOT = Path(__file__).resolve().parent.parent
PICTURE = Path("docs/architecture.svg")

LANES = ("What is meant", "What runs", "Algorithms", "Tests")
MEANT, RUNS, KINDS, TESTS = range(len(LANES))
TINTS = ("#fff8f0", "#f2f7fd", "#f2faf4", "#f6f8fa")


@dataclass(frozen=True)
class Place:
    """Where a crate is drawn: its lane, its height in rows from the ground, and its subject in at most 30 letters."""

    lane: int
    height: int
    subject: str


# A crate that isn't here, or is here and not in crates.txt, is an error: so the picture can't go stale in silence.
PLACES: dict[str, Place] = {
    # what is meant: definitions and laws over plain values
    "relocate": Place(MEANT, 2, "which block moves next"),
    "host_map": Place(MEANT, 3, "who owns which block"),
    "voice_script": Place(MEANT, 8, "the grammar, both ways"),
    "host_spec": Place(MEANT, 6, "what each call may answer"),
    "host_protocol": Place(MEANT, 7, "which IALG calls, in order"),
    "channel_spec": Place(MEANT, 9, "the same with channels"),
    "console_spec": Place(MEANT, 10, "lines, replies, main theorem"),
    # what runs
    "mem_rec": Place(RUNS, 0, "memory records and layouts"),
    "space_raw": Place(RUNS, 0, "owned raw words"),
    "space_heap": Place(RUNS, 3, "first-fit heap"),
    "record_loans": Place(RUNS, 2, "records lent as slices"),
    "scratch_group": Place(RUNS, 4, "a group's scratch blocks"),
    "lifecycle": Place(RUNS, 5, "idle and active"),
    "host_shared": Place(RUNS, 3, "who owns a shared record"),
    "host_table": Place(RUNS, 6, "instances in their groups"),
    "host_spaces": Place(RUNS, 6, "three spaces and their map"),
    "host_moves": Place(RUNS, 7, "moves, and algMoved"),
    "host_instances": Place(RUNS, 8, "creation and deletion"),
    "alg_host": Place(RUNS, 9, "the host, one type"),
    "voice_channel": Place(RUNS, 10, "lists of instances"),
    "octet_ports": Place(RUNS, 8, "ports, lines, the journal"),
    "script_server": Place(RUNS, 9, "serves lines over ports"),
    "script_reasons": Place(RUNS, 9, "why a line was refused"),
    "dsp_console": Place(RUNS, 11, "the engine: run"),
    "dsp_arguments": Place(RUNS, 11, "the command line"),
    "port_files": Place(RUNS, 10, "opens the files"),
    "dsp_program": Place(RUNS, 12, "the program, any kinds"),
    "dsp_console_main": Place(RUNS, 13, "five kinds"),
    "gateway_console": Place(RUNS, 13, "twelve kinds"),
    "dsp_library": Place(RUNS, 13, "the library for C"),
    # algorithms
    "basic_op": Place(KINDS, 0, "G.191's operators"),
    "ialg": Place(KINDS, 1, "the interface and its laws"),
    "fir_kernel": Place(KINDS, 2, "sums of products, the ring"),
    "alg_fir": Place(KINDS, 3, "FIR filter, decimator"),
    "alg_biquad": Place(KINDS, 3, "second-order section"),
    "alg_tone": Place(KINDS, 4, "Goertzel"),
    "alg_g711": Place(KINDS, 4, "A-law, mu-law"),
    "voice_set": Place(KINDS, 5, "the five as one type"),
    "kind_parts": Place(KINDS, 2, "short kinds, sets of kinds"),
    "alg_gain": Place(KINDS, 5, "gain"),
    "alg_level": Place(KINDS, 6, "energy of a frame"),
    "alg_dtmf": Place(KINDS, 6, "dialled digits"),
    "kind_steps": Place(KINDS, 3, "kinds with a state"),
    "echo_kernel": Place(KINDS, 3, "sums of an echo canceller"),
    "adpcm_kernel": Place(KINDS, 2, "sub-blocks of G.726"),
    "alg_echo": Place(KINDS, 5, "line echo canceller"),
    "alg_adpcm": Place(KINDS, 6, "G.726"),
    "alg_signal": Place(KINDS, 6, "tones with a cadence"),
    "alg_activity": Place(KINDS, 6, "voice activity"),
    "gateway_kinds": Place(KINDS, 7, "all twelve as one type"),
    # tests
    "test_algorithms": Place(TESTS, 7, "kinds by numbers"),
    "test_blocker": Place(TESTS, 5, "a kind with a state"),
    "test_diary": Place(TESTS, 5, "calls written down"),
    "test_doubles": Place(TESTS, 6, "what fails or breaks laws"),
    "test_memory": Place(TESTS, 8, "heaps, spaces, groups"),
    "test_lives": Place(TESTS, 9, "one or two instances"),
    "test_hosts": Place(TESTS, 11, "hosts beside rogues"),
    "test_runs": Place(TESTS, 13, "rows, clients of theorems"),
    "test_console": Place(TESTS, 12, "ports, journal, engine"),
    "memory_trace": Place(TESTS, 4, "heap against a model"),
    "mixed_console": Place(TESTS, 14, "console with rogues"),
}


@dataclass(frozen=True)
class Refinement:
    """A crate of code and the specification that it refines: a dashed line of the picture."""

    code: str
    meaning: str


REFINEMENTS = (
    Refinement("host_spaces", "host_map"),
    Refinement("space_heap", "relocate"),
    Refinement("host_moves", "host_spec"),
    Refinement("voice_channel", "channel_spec"),
    Refinement("script_server", "voice_script"),
    Refinement("dsp_console", "console_spec"),
)


@dataclass(frozen=True)
class Walk:
    """A walk of docs/ARCHITECTURE.md: the crates that it passes, in order, drawn as numbered dots."""

    title: str
    colour: str
    crates: tuple[str, ...]


WALKS = (
    Walk(
        "a line: create 0 fir 0 16384",
        "#0969da",
        tuple(
            "dsp_program dsp_console script_server octet_ports voice_script voice_channel alg_host host_instances host_spaces host_table"
            " lifecycle scratch_group record_loans ialg alg_fir".split()
        ),
    ),
    Walk(
        "a sample: feed 0 256",
        "#1a7f37",
        tuple(
            "octet_ports script_server dsp_console voice_channel alg_host host_table lifecycle scratch_group record_loans ialg alg_fir"
            " fir_kernel".split()
        ),
    ),
    Walk("a scratch word", "#cf222e", tuple("space_raw space_heap host_spaces host_instances scratch_group record_loans ialg alg_fir".split())),
)

BOX_WIDTH, BOX_HEIGHT, GAP_ACROSS, GAP_DOWN, MARGIN, HEAD, FOOT = 164, 46, 12, 16, 14, 64, 70
BAR = {"src": "#54aeff", "specs": "#e16f24", "proofs": "#afb8c1"}
# Units of the picture for each line of a crate's text.
UNITS_A_LINE = 0.017
DASHED = 'stroke="#e16f24" stroke-width="2" stroke-dasharray="6 4"'
INK, FAINT = "#24292f", "#57606a"


@dataclass(frozen=True)
class Crate:
    """A crate of crates.txt: the crates of the project that it uses, its layer, and its lines of code, definitions and proofs."""

    name: str
    uses: tuple[str, ...]
    layer: str
    lines: dict[str, int]


@dataclass
class House:
    """The crates of a repository in the order of crates.txt, and its layers from the top down."""

    crates: dict[str, Crate] = field(default_factory=dict)
    layers: list[str] = field(default_factory=list)

    @classmethod
    def read(cls, root: Path) -> House:
        """The crates below `root`."""
        house = cls()
        listed = listing.listed(root)
        for name, crate in listed.items():
            uses = tuple(other for other in crate.uses if other in listed)
            house.crates[name] = Crate(name, uses, crate.layer or "", lines_of(root / "crates" / name))
        # crates.txt has its layers from the bottom up.
        house.layers = [title for title in dict.fromkeys(crate.layer for crate in house.crates.values()) if title][::-1]
        return house

    def of_layer(self, title: str) -> list[str]:
        return [crate.name for crate in self.crates.values() if crate.layer == title]


def lines_of(folder: Path) -> dict[str, int]:
    """How many lines of code, of definitions and of proofs a crate has."""
    endings = {"src": ".rt", "specs": ".antt", "proofs": ".antt"}
    return {
        part: sum(len(path.read_text(encoding="utf-8").splitlines()) for path in (folder / part).rglob(f"*{ending}"))
        for part, ending in endings.items()
    }


def broken_rules(crates: dict[str, Crate], places: dict[str, Place]) -> list[str]:
    """What contradicts the picture: a crate without a place, a place without a crate, and a crate that uses one that isn't lower."""
    found = [f"{name} has no place: add a row for it to PLACES of tools/architecture.py" for name in crates if name not in places]
    found += [f"{name} has a place and isn't in crates.txt" for name in places if name not in crates]
    for crate in crates.values():
        for other in crate.uses:
            if crate.name in places and other in places and places[other].height >= places[crate.name].height:
                heights = f"height {places[crate.name].height}", f"height {places[other].height}"
                found.append(f"{crate.name} ({heights[0]}) uses {other} ({heights[1]}), which isn't lower")
    return found


@dataclass
class Sheet:
    """The drawing so far: where each box is, how large the picture is, and its parts as SVG text."""

    crates: dict[str, Crate]
    width: float = float(MARGIN)
    height: float = 0.0
    corner: dict[str, tuple[float, float]] = field(default_factory=dict)
    parts: list[str] = field(default_factory=list)

    def lay_out(self) -> None:
        """Gives each crate that has a place its box, lane by lane, and draws the lanes."""
        drawn = [name for name in self.crates if name in PLACES]
        top = max((PLACES[name].height for name in drawn), default=0)
        self.height = HEAD + (top + 1) * (BOX_HEIGHT + GAP_DOWN) + FOOT
        refining = {one.code for one in REFINEMENTS}
        for lane, title in enumerate(LANES):
            rows: dict[int, list[str]] = {}
            for name in drawn:
                if PLACES[name].lane == lane:
                    rows.setdefault(PLACES[name].height, []).append(name)
            across = max((len(row) for row in rows.values()), default=1) * (BOX_WIDTH + GAP_ACROSS) + GAP_ACROSS
            self.draw_lane(title, TINTS[lane], across)
            for height, row in rows.items():
                row.sort(key=lambda name: name not in refining)  # what refines a specification is nearest to it
                begin = self.width + (across - len(row) * (BOX_WIDTH + GAP_ACROSS) + GAP_ACROSS) / 2
                for at, name in enumerate(row):
                    self.corner[name] = (begin + at * (BOX_WIDTH + GAP_ACROSS), HEAD + (top - height) * (BOX_HEIGHT + GAP_DOWN))
            self.width += across + MARGIN

    def draw_lane(self, title: str, tint: str, across: float) -> None:
        lane = f'<rect x="{self.width:.0f}" y="{MARGIN}" width="{across:.0f}" height="{self.height - FOOT - MARGIN:.0f}" rx="8"'
        self.parts.append(f'{lane} fill="{tint}" stroke="#d0d7de"/>')
        self.parts.append(
            f'<text x="{self.width + across / 2:.0f}" y="{MARGIN + 26}" text-anchor="middle" font-size="17" font-weight="bold"'
            f' fill="{INK}">{title}</text>'
        )

    def draw_refinement(self, one: Refinement) -> None:
        if one.code not in self.corner or one.meaning not in self.corner:
            return
        (x1, y1), (x2, y2) = self.corner[one.code], self.corner[one.meaning]
        x2, y1, y2 = x2 + BOX_WIDTH, y1 + BOX_HEIGHT / 2, y2 + BOX_HEIGHT / 2
        bend = (x1 + x2) / 2
        path = f"M{x1:.0f} {y1:.0f}C{bend:.0f} {y1:.0f} {bend:.0f} {y2:.0f} {x2:.0f} {y2:.0f}"
        self.parts.append(f'<path d="{path}" fill="none" {DASHED}/>')

    def draw_box(self, name: str) -> None:
        """A crate: its tip, which lists what it uses, its name, its subject, its bar and the dots of the walks."""
        crate, (x, y) = self.crates[name], self.corner[name]
        counts = f"{crate.lines['src']} lines of code, {crate.lines['specs']} of definitions, {crate.lines['proofs']} of proofs"
        tip = html.escape(f"{name}: {counts}; uses {', '.join(crate.uses) or 'no other crate'}")
        middle = f'x="{x + BOX_WIDTH / 2:.0f}" text-anchor="middle"'
        self.parts.append(
            f'<g><title>{tip}</title><rect x="{x:.0f}" y="{y:.0f}" width="{BOX_WIDTH}" height="{BOX_HEIGHT}" rx="5" fill="#ffffff"'
            f' fill-opacity="0.9" stroke="{FAINT}"/>'
        )
        self.parts.append(f'<text {middle} y="{y + 20:.0f}" font-size="13" font-weight="bold" fill="{INK}">{name}</text>')
        self.parts.append(f'<text {middle} y="{y + 34:.0f}" font-size="10.5" fill="{FAINT}">{html.escape(PLACES[name].subject)}</text>')
        at = x + 6
        for part, colour in BAR.items():
            long = min(crate.lines[part] * UNITS_A_LINE, x + BOX_WIDTH - 6 - at)
            if long >= 0.5:
                self.parts.append(f'<rect x="{at:.1f}" y="{y + BOX_HEIGHT - 7:.0f}" width="{long:.1f}" height="4" fill="{colour}"/>')
                at += long
        right = x + BOX_WIDTH - 3
        for walk in reversed(WALKS):
            if name in walk.crates:
                right -= 17
                self.draw_dot(walk.colour, right + 8, y - 2, str(walk.crates.index(name) + 1))
        self.parts.append("</g>")

    def draw_dot(self, colour: str, x: float, y: float, text: str) -> None:
        self.parts.append(
            f'<circle cx="{x:.0f}" cy="{y:.0f}" r="8.5" fill="{colour}" stroke="#ffffff"/><text x="{x:.0f}" y="{y + 3.5:.1f}"'
            f' text-anchor="middle" font-size="10" font-weight="bold" fill="#ffffff">{text}</text>'
        )

    def draw_legend(self) -> None:
        """Below the lanes: what the bars, the dashed lines and the dots mean, and the rule."""
        x, y = float(MARGIN), self.height - 44
        names = ("code", "definitions", f"proofs (1,000 lines are {1_000 * UNITS_A_LINE:.0f} units)")
        for text, colour in zip(names, BAR.values()):
            self.parts.append(f'<rect x="{x:.0f}" y="{y - 8:.0f}" width="14" height="8" fill="{colour}"/>')
            self.draw_note(x + 20, y, text)
            x += 40 + 7 * len(text)
        self.parts.append(f'<path d="M{x:.0f} {y - 4:.0f}h30" {DASHED}/>')
        self.draw_note(x + 38, y, "refines")
        x += 110
        for walk in WALKS:
            self.draw_dot(walk.colour, x + 9, y - 4, "1")
            self.draw_note(x + 24, y, walk.title)
            x += 60 + 7 * len(walk.title)
        self.draw_note(MARGIN, y + 26, "A crate uses only crates that are lower; point at a box to see which.")

    def draw_note(self, x: float, y: float, text: str) -> None:
        self.parts.append(f'<text x="{x:.0f}" y="{y:.0f}" font-size="12" fill="{INK}">{html.escape(text)}</text>')


def draw(crates: dict[str, Crate]) -> str:
    """The picture as SVG text."""
    sheet = Sheet(crates)
    sheet.lay_out()
    for one in REFINEMENTS:
        sheet.draw_refinement(one)
    for name in sheet.corner:
        sheet.draw_box(name)
    sheet.draw_legend()
    size = f'viewBox="0 0 {sheet.width:.0f} {sheet.height:.0f}" width="{sheet.width:.0f}" height="{sheet.height:.0f}"'
    head = [
        f'<svg xmlns="http://www.w3.org/2000/svg" {size} font-family="sans-serif">',
        "<title>The crates of Rokdaum</title>",
        "<desc>Drawn by tools/architecture.py from crates.txt. A crate uses only crates that are lower.</desc>",
        '<rect width="100%" height="100%" fill="#ffffff"/>',
    ]
    return "\n".join([*head, *sheet.parts, "</svg>", ""])


def main(words: list[str]) -> int:
    parser = argparse.ArgumentParser(description="Draws docs/architecture.svg from crates.txt.")
    parser.add_argument("--root", type=Path, default=ROOT, help="another checkout")
    wanted = parser.add_mutually_exclusive_group(required=True)
    wanted.add_argument("--write", action="store_true", help="draw the picture anew")
    wanted.add_argument("--check", action="store_true", help="say whether the kept picture is stale, and which crate breaks the rule")
    wanted.add_argument("--layers", action="store_true", help="print the layers with their crates")
    given = parser.parse_args(words)
    house = House.read(given.root)
    if given.layers:
        for title in house.layers:
            print(f"{title}: {' '.join(house.of_layer(title))}")
        return 0
    broken = broken_rules(house.crates, PLACES)
    for text in broken:
        print(text, file=sys.stderr)
    picture, path = draw(house.crates), given.root / PICTURE
    if given.write:
        path.write_text(picture, encoding="utf-8")
        return 1 if broken else 0
    stale = not path.is_file() or path.read_text(encoding="utf-8") != picture
    if stale:
        print(f"{PICTURE} is stale: tools/architecture.py --write", file=sys.stderr)
    return 1 if broken or stale else 0


if __name__ == "__main__":
    sys.exit(main(sys.argv[1:]))
