# SPDX-License-Identifier: Apache-2.0
"""dsp_map: the memory maps of a run, as text, as a page, as a picture or as JSON."""

from __future__ import annotations

import argparse
import sys
from collections.abc import Sequence
from pathlib import Path

from ..errors import CantRead, NotAMap
from ..maps import SPACES, WIDTH, History, from_replies, from_run, text_of
from .common import ended, need, write_whole
from .run import version

NAME = "dsp_map"
EXAMPLE = """\
  dsp_run --history h.json SCRIPT IN OUT && dsp_map h.json               who is where behind each line, and who is active
  dsp_map h.json --html h.html                                           the same as a page for a browser
  dsp_console SCRIPT IN OUT | dsp_map --script SCRIPT                    what the script's own map and stat lines say
  dsp_console --daram 4112 SCRIPT IN OUT | dsp_map --daram 4112          the maps among replies, taken for maps of daram
"""


def parser() -> argparse.ArgumentParser:
    """The command line."""
    made = argparse.ArgumentParser(prog=NAME, description=__doc__.split(": ", 1)[1], epilog=EXAMPLE, formatter_class=argparse.RawDescriptionHelpFormatter, allow_abbrev=False)
    made.add_argument("file", metavar="FILE", nargs="?", default="-", help="replies, or what dsp_run --history wrote; the standard input where nothing or - is said")
    made.add_argument("--script", type=Path, metavar="SCRIPT", help="the script that the replies are to: it names the space of each map")
    for space in SPACES:
        made.add_argument(f"--{space}", type=int, default=65536, metavar="W", help=f"words of {space} (65536)")
    made.add_argument("--space", choices=SPACES, help="this space alone")
    made.add_argument("--width", type=int, default=WIDTH, metavar="N", help="letters of a bar (64)")
    made.add_argument("--json", action="store_true", help="JSON in place of text")
    made.add_argument("--html", type=Path, metavar="FILE", help="a page for a browser, which steps through the run; takes no other file and no server")
    made.add_argument("--title", metavar="TEXT", help="the title of the page (the name of FILE)")
    made.add_argument("--svg", type=Path, metavar="FILE", help="draw a space over the run (.svg, .png, .pdf); takes matplotlib")
    made.add_argument("--version", action="version", version=f"{NAME} {version()}")
    return made


def main(words: Sequence[str] | None = None) -> int:
    """The command: its exit status."""
    given = parser().parse_args(words)
    return ended(NAME, lambda: serve(given))


def read(given: argparse.Namespace) -> History:
    """The history that the command line names."""
    if given.svg:
        # Before anything is read: the command may start anew under another Python.
        need("numpy", "matplotlib")
    try:
        text = sys.stdin.read() if given.file == "-" else Path(given.file).read_text(encoding="utf-8", errors="replace")
    except OSError as why:
        raise CantRead(f"{given.file}: {why.strerror}") from None
    if text.lstrip().startswith("{"):
        return History.from_json(text)
    sizes = {space: getattr(given, space) for space in SPACES}
    if given.script is None:
        return from_replies(text.splitlines(), sizes, given.space or "daram")
    from ..script import read_script

    return from_run(((line.number, line.text) for line in read_script(given.script)), text.splitlines(), sizes)


def serve(given: argparse.Namespace) -> int:
    """Shows what the command line asks for."""
    if not 1 <= given.width <= 1000:
        raise NotAMap(f"a bar has 1 to 1000 letters, and {given.width} are asked for")
    history = read(given)
    known = history.spaces()
    spaces = [given.space] if given.space else known
    if not known or given.space and given.space not in known:
        raise NotAMap(f"no map of {given.space or 'any space'} is there: `map SPACE` in the script asks for one, and dsp_run --history for all")
    if given.html:
        from .. import page

        write_whole(given.html, page.html_of(history, given.title or Path(given.file).name))
    elif given.svg:
        from .. import plot

        plot.save(plot.memory(history, spaces[0]), given.svg)
    elif given.json:
        print(history.to_json())
    else:
        print("\n".join(text_of(history, space, given.width) for space in spaces), end="")
    return 0
