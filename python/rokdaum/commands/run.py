# SPDX-License-Identifier: Apache-2.0
"""dsp_run: runs a script with comments and `feed C all` by dsp_console, over files of samples and WAV files."""

from __future__ import annotations

import argparse
import os
import signal
import sys
import time
from collections.abc import Callable, Sequence
from pathlib import Path
from typing import TextIO

from ..errors import CantWrite, OutOfRange, SameFile
from ..ports import STANDARD_IN, Pair, Settings, is_standard_output, pairs_of
from ..script import DEFAULT_RATE, Answer, Result, parse, run
from ..sounds import Named, form_of
from .common import ended, need, write_whole

NAME = "dsp_run"
TERMINATED = 128 + signal.SIGTERM
USAGE = "dsp_run [OPTIONS] SCRIPT IN OUT [IN OUT ..]"
EPILOG = """\
A script may have what dsp_console takes, and beside it:
  # ...                 a comment, to the end of the line
  feed C all [BLOCK]    feeds channel C to the end of its input, in blocks of BLOCK samples (1024)
  feed * all [BLOCK]    all channels, block by block in turn
The exit status is that of dsp_console: 0 where nothing was refused, 1 where something was, from 2 on where the run failed.
"""


class Progress:
    """A line on a terminal: how much is fed, samples a second, and the time that is left."""

    def __init__(self, stream: TextIO, clock: Callable[[], float] = time.monotonic) -> None:
        self.stream, self.clock = stream, clock
        self.began = self.shown = clock()
        self.width = 0

    def __call__(self, fed: int, total: int) -> None:
        now = self.clock()
        if now - self.shown < 0.2:
            return
        self.shown = now
        pace = fed / max(now - self.began, 1e-9)
        left = max(total - fed, 0) / max(pace, 1e-9)
        text = f"{100 * fed // max(total, 1):3} %, {fed:,} of {total:,} samples, {pace:,.0f} a second, {int(left) // 60}:{int(left) % 60:02} left"
        if fed > total:
            # A stream has no length.
            text = f"{fed:,} samples, {pace:,.0f} a second"
        self.stream.write("\r" + text.ljust(self.width))
        self.stream.flush()
        self.width = len(text)

    def clear(self) -> None:
        """Takes the line away."""
        if self.width:
            self.stream.write("\r" + " " * self.width + "\r")
            self.stream.flush()
            self.width = 0


class Teller:
    """Prints each reply, and each refused line with what it needs. Equal refusals one after the other are told once, and counted."""

    def __init__(self, replies: TextIO, errors: TextIO, progress: Progress | None) -> None:
        self.replies, self.errors, self.progress = replies, errors, progress
        self.before: Answer | None = None
        self.more = 0

    def __call__(self, answer: Answer) -> None:
        print(answer.reply, file=self.replies)
        if not answer.refused:
            return
        if self.before and (self.before.line.words, self.before.reply) == (answer.line.words, answer.reply):
            self.more += 1
            return
        self.count()
        if self.progress:
            self.progress.clear()
        print(answer, file=self.errors)
        if answer.why:
            print(f"    {answer.why}", file=self.errors)
        self.before = answer

    def count(self) -> None:
        """Says how many equal refusals followed the last one."""
        if self.more:
            print(f"    .. and {self.more:,} more of this line", file=self.errors)
        self.more = 0


def parser() -> argparse.ArgumentParser:
    """The command line."""
    made = argparse.ArgumentParser(
        prog=NAME, usage=USAGE, description=__doc__.split(": ", 1)[1], epilog=EPILOG, formatter_class=argparse.RawDescriptionHelpFormatter, allow_abbrev=False
    )
    made.add_argument("script", metavar="SCRIPT", help="the file of commands; - is the standard input")
    made.add_argument("ports", metavar="IN OUT", nargs="+", help="1 to 16 pairs of files; .wav, .flac, .au and .aiff are files of sound (call.wav:1 is the second channel), .ul and .al are mu-law and A-law codes, others are 16-bit words; - is the standard input or output, and replies go to the standard error then")
    for name, value, what in (
        ("daram", "W", "words of the space daram, a multiple of 4 up to 65536"),
        ("saram", "W", "words of the space saram"),
        ("external", "W", "words of the space external"),
        ("poison", "W", "fill new and inactive memory with this word"),
        ("in8", "MASK", "channels, a bit each, that read bytes"),
        ("out8", "MASK", "channels, a bit each, that write bytes"),
    ):
        made.add_argument(f"--{name}", type=int, metavar=value, default=0 if name.endswith("8") else None, help=what)
    made.add_argument("--strict", action="store_true", help="stop at the first refused line, and leave each OUT as it was")
    made.add_argument("--rate", type=float, default=DEFAULT_RATE, metavar="HZ", help="samples a second of an IN that is no WAV file (8000), for an OUT that is one")
    made.add_argument("--history", type=Path, metavar="FILE", help="ask behind each line who is where, and write it for dsp_map")
    made.add_argument("--spectrogram", type=Path, metavar="FILE", help="draw what went in beside what came out (.png, .svg, .pdf); takes matplotlib")
    made.add_argument("--program", metavar="P", help="the words that start dsp_console, or gateway_console for a script with its kinds; else those of DSP_CONSOLE, or GATEWAY_CONSOLE")
    made.add_argument("--quiet", action="store_true", help="no progress and no notes; refused lines are still told")
    made.add_argument("--version", action="version", version=f"{NAME} {version()}")
    return made


def version() -> str:
    """The package's version."""
    from .. import __version__

    return __version__


def main(words: Sequence[str] | None = None) -> int:
    """The command: its exit status."""
    given = parser().parse_args(words)
    return ended(NAME, lambda: serve(given))


def look_at(target: Path | None, what: str, given: argparse.Namespace) -> None:
    """Refuses a file for the history or a picture that the run itself reads or writes, or that can't be made."""
    if target is None:
        return
    if target.is_dir() or not target.parent.is_dir():
        raise CantWrite(f"{target}: {'a folder' if target.is_dir() else f'there is no folder {target.parent}'}")
    if os.path.realpath(target) in {os.path.realpath(path) for path in [given.script, *given.ports]}:
        raise SameFile(f"{target} is a file of the run: name another one for the {what}")


def draw_sounds(given: argparse.Namespace, pairs: Sequence[Pair], result: Result) -> None:
    """Draws what went in and what came out of each channel that has samples. Raises OutOfRange where none has."""
    from .. import plot, samples

    rows = []
    for channel, (pair, rate) in enumerate(zip(pairs, result.rates)):
        if (given.in8 | given.out8) >> channel & 1 or not (Named.of(pair.source).path.is_file() and pair.target.is_file()):
            continue
        (heard, own), (made, _) = samples.read(pair.source), samples.read(pair.target)
        if min(len(heard), len(made)) >= plot.FEWEST:
            rows.append([(pair.source.name, heard, own or given.rate), (pair.target.name, made, rate)])
    if not rows:
        raise OutOfRange(f"no channel has {plot.FEWEST} samples of 16 bits on both sides, of which a spectrogram is made")
    plot.save(plot.spectrograms(rows), given.spectrogram)


def serve(given: argparse.Namespace) -> int:
    """Runs what the command line asks for."""
    # A run that is ended from outside removes what it has begun, too.
    signal.signal(signal.SIGTERM, lambda *_: sys.exit(TERMINATED))
    pairs = pairs_of(given.ports)
    # Before anything is read: the command may start anew under another Python.
    needed = form_of([name for pair in pairs for name in (pair.source, pair.target)])
    if needed or given.spectrogram:
        need(*needed, *(["numpy", "matplotlib"] if given.spectrogram else []))
    look_at(given.history, "history", given)
    look_at(given.spectrogram, "spectrogram", given)
    if given.script == "-" and any(str(pair.source) in STANDARD_IN for pair in pairs):
        raise OutOfRange("the standard input is SCRIPT or an IN, and not both")
    settings = Settings(given.daram, given.saram, given.external, given.poison, given.in8, given.out8)
    script = parse(sys.stdin.buffer.read().decode("utf-8", "surrogateescape"), "-") if given.script == "-" else given.script
    progress = Progress(sys.stderr) if sys.stderr.isatty() and not given.quiet else None
    # Samples and replies never share a stream.
    replies = sys.stderr if any(is_standard_output(pair.target) for pair in pairs) else sys.stdout
    teller = Teller(replies, sys.stderr, progress)
    try:
        result = run(
            script, pairs, settings, program=given.program, strict=given.strict, rate=given.rate, watch=progress, tell=teller, history=given.history is not None
        )
    finally:
        if progress:
            progress.clear()
        teller.count()
    sys.stdout.flush()
    if given.history and result.history:
        write_whole(given.history, result.history.to_json() + "\n")
    if given.spectrogram and not result.stopped:
        draw_sounds(given, pairs, result)
    tell_end(result, given.quiet)
    return result.status


def tell_end(result: Result, quiet: bool) -> None:
    """Says on the standard error what a reader of the replies can't see."""
    if result.stopped:
        print(f"{NAME}: stopped at a refused line (--strict): each OUT is as it was", file=sys.stderr)
    elif not quiet:
        for note in result.notes:
            print(f"{NAME}: note: {note}", file=sys.stderr)
