# SPDX-License-Identifier: Apache-2.0
"""dsp_design: filters, detectors and generators as lines of a dsp_console script, with the response that the rounded words have."""

from __future__ import annotations

import argparse
import sys
from collections.abc import Sequence
from pathlib import Path
from typing import TYPE_CHECKING, Union

from ..errors import RokdaumError
from .common import ended, need
from .run import version

if TYPE_CHECKING:
    from ..design import Activity, Biquads, Digits, Echo, Fir, Gain, Level, Signals, Tones

    Made = Union[Biquads, Fir, Tones, Gain, Level, Digits, Signals, Echo, Activity]

NAME = "dsp_design"
Subparsers = argparse._SubParsersAction  # the type has no public name
EXAMPLE = """\
The lines go to the standard output, the response and what saturates to the standard error:
  dsp_design band 300 3400 > phone.txt && echo 'feed 0 all' >> phone.txt && dsp_run phone.txt in.wav out.wav
Your own design, as scipy's output='sos' or numpy.savetxt has it:
  dsp_design sos sections.txt
Digits, with zeros as their clock:
  dsp_design signal 0123 > digits.txt && head -c 100000 /dev/zero | dsp_run digits.txt - digits.raw
"""


def place_options() -> argparse.ArgumentParser:
    """The options of all: where the instances go."""
    made = argparse.ArgumentParser(add_help=False, allow_abbrev=False)
    made.add_argument("--first", type=int, default=0, metavar="I", help="the first instance (0)")
    made.add_argument("--group", type=int, default=0, metavar="G", help="the scratch group of the first section; others take those behind it (0)")
    made.add_argument("--share", action="store_true", help="all sections in one group: less memory, and an activation for each feed")
    made.add_argument("--channel", type=int, default=0, metavar="C", help="the channel, or the first of several tones (0)")
    return made


def common_options() -> argparse.ArgumentParser:
    """The options of each filter and tone."""
    made = argparse.ArgumentParser(add_help=False, parents=[place_options()], allow_abbrev=False)
    made.add_argument("--rate", type=float, default=8000.0, metavar="HZ", help="samples a second (8000)")
    return made


def filter_options() -> argparse.ArgumentParser:
    """The options of what has a response."""
    made = argparse.ArgumentParser(add_help=False, parents=[common_options()], allow_abbrev=False)
    made.add_argument("--scale", choices=("tones", "any", "words"), default="tones", help="for which inputs nothing saturates: full-scale tones, any, or none named")
    made.add_argument("--plot", type=Path, metavar="FILE", help="draw the response (.png, .svg, .pdf); takes matplotlib")
    return made


def parser() -> argparse.ArgumentParser:
    """The command line."""
    made = argparse.ArgumentParser(prog=NAME, description=__doc__.split(": ", 1)[1], epilog=EXAMPLE, formatter_class=argparse.RawDescriptionHelpFormatter, allow_abbrev=False)
    made.add_argument("--version", action="version", version=f"{NAME} {version()}")
    which = made.add_subparsers(dest="what", required=True, metavar="WHAT")
    add_filters(which, filter_options())
    add_own(which, filter_options())
    add_others(which)
    return made


def add_filters(which: Subparsers, filters: argparse.ArgumentParser) -> None:
    """What is designed from frequencies."""
    for name, what, count in (("low", "a low pass of second-order sections", 1), ("high", "a high pass", 1), ("band", "a band pass: LOW HIGH", 2)):
        one = which.add_parser(name, help=what, parents=[filters], allow_abbrev=False)
        one.add_argument("edges", type=float, nargs=count, metavar="HZ", help="where the gain is 3 dB less, or where the ripple ends")
        one.add_argument("--order", type=int, default=3 if name == "band" else 4, help="the order; a band pass has that many sections")
        one.add_argument("--ripple", type=float, metavar="DB", help="Chebyshev of type I with so much ripple; Butterworth where nothing is said")
    one = which.add_parser("notch", help="one section that takes out a frequency", parents=[filters], allow_abbrev=False)
    one.add_argument("frequency", type=float, metavar="HZ")
    one.add_argument("--width", type=float, default=10.0, metavar="HZ", help="how wide it is where the gain is 3 dB less (10)")
    one = which.add_parser("fir", help="a FIR of linear phase: low HZ, high HZ or band HZ HZ", parents=[filters], allow_abbrev=False)
    one.add_argument("kind", choices=("low", "high", "band"))
    one.add_argument("edges", type=float, nargs="+", metavar="HZ", help="where the gain is 6 dB less")
    one.add_argument("--taps", type=int, default=63, metavar="T", help="coefficients, 1 to 64 (63)")
    one = which.add_parser("decim", help="a decimator with its low pass", parents=[filters], allow_abbrev=False)
    one.add_argument("factor", type=int, metavar="M", help="1 to 16")
    one.add_argument("--taps", type=int, default=64, metavar="T", help="coefficients, 1 to 64 (64)")
    one.add_argument("--edge", type=float, metavar="HZ", help="where the gain is 6 dB less (0.4 of the new rate)")


def add_own(which: Subparsers, filters: argparse.ArgumentParser) -> None:
    """What takes a design of the user's own."""
    for name, what in (("sos", "your own second-order sections, six numbers a row as scipy's output='sos' has them"), ("taps", "your own coefficients of a FIR, that of the newest sample first")):
        one = which.add_parser(name, help=what, parents=[filters], allow_abbrev=False)
        one.add_argument("file", metavar="FILE", help=".npy, or text with a row a line; - is the standard input")


def add_others(which: Subparsers) -> None:
    """What has no response."""
    one = which.add_parser("tone", help="detectors, a channel each, with one shift for all", parents=[common_options()], allow_abbrev=False)
    one.add_argument("frequencies", type=float, nargs="+", metavar="HZ")
    one.add_argument("--frame", type=int, default=205, metavar="N", help="samples of a frame, 1 to 1024 (205)")
    one.add_argument("--shift", type=int, metavar="S", help="samples are divided by 2 to the S; else the least for which no full-scale tone of these frequencies saturates")
    one = which.add_parser("gain", help="a gain in dB (gateway_console)", parents=[place_options()], allow_abbrev=False)
    one.add_argument("decibels", type=float, metavar="DB", help="up to 18.06")
    one = which.add_parser("level", help="a level meter (gateway_console)", parents=[place_options()], allow_abbrev=False)
    one.add_argument("--frame", type=int, default=160, metavar="N", help="samples of a frame, 1 to 1024 (160)")
    one.add_argument("--shift", type=int, metavar="S", help="samples are shifted to the right by so many bits; else the least for which no frame saturates")
    one = which.add_parser("dtmf", help="a detector of dialled digits, for 8,000 samples a second (gateway_console)", parents=[place_options()], allow_abbrev=False)
    one.add_argument("--set", choices=("a", "b"), default="a", help="a finds tokens of 40 ms, b takes none of 23 ms for a digit (a)")
    one = which.add_parser("signal", help="tones by name: keys of a telephone, as 0123, or us-dial, us-busy, us-congestion, eu-dial, .. (gateway_console)", parents=[common_options()], allow_abbrev=False)
    one.add_argument("names", metavar="NAME", help="keys out of 123A456B789C*0#D, or a call progress tone")
    one.add_argument("--level", type=float, default=-10.0, metavar="DB", help="the peak of each tone in dB of full scale (-10)")
    one.add_argument("--on", type=float, metavar="MS", help="how long it sounds (as the name has it)")
    one.add_argument("--off", type=float, metavar="MS", help="how long it doesn't")
    one = which.add_parser("echo", help="a line echo canceller over pairs, the far end first (gateway_console)", parents=[common_options()], allow_abbrev=False)
    one.add_argument("--ms", type=float, default=16.0, metavar="MS", help="how late an echo may be (16)")
    one.add_argument("--step", type=float, default=0.25, metavar="X", help="how fast it learns, 0 to 1 (0.25)")
    one.add_argument("--loud", type=float, default=0.5, metavar="X", help="the near end talks where it is louder than this share of the far end, 0 to 1 (0.5)")
    one.add_argument("--hold", type=float, default=30.0, metavar="MS", help="for how long it doesn't learn once the near end talks (30)")
    one = which.add_parser("activity", help="a detector of voice activity (gateway_console)", parents=[common_options()], allow_abbrev=False)
    one.add_argument("--ms", type=float, default=10.0, metavar="MS", help="how long a frame is (10)")
    one.add_argument("--margin", type=float, default=9.0, metavar="DB", help="how far above the floor speech is (9)")
    one.add_argument("--rise", type=float, default=3.0, metavar="DB", help="how fast the floor rises in a second (3)")
    one.add_argument("--least", type=float, default=-70.0, metavar="DB", help="the least floor in dB of full scale (-70)")
    one.add_argument("--hang", type=float, default=150.0, metavar="MS", help="for how long speech lasts behind its last frame (150)")


def made_of(given: argparse.Namespace) -> Made:
    """What the command line asks for."""
    from .. import design

    if given.what == "tone":
        return design.tones(given.frequencies, given.frame, given.shift, given.rate)
    if given.what == "notch":
        return design.notch(given.frequency, given.width, given.rate, given.scale)
    if given.what == "fir":
        return design.fir(given.kind, given.edges, given.taps, given.rate, given.scale)
    if given.what == "sos":
        return design.biquads(design.numbers_of(given.file, 6), given.rate, given.scale)
    if given.what == "taps":
        return design.taps(design.numbers_of(given.file, 1), given.rate, given.scale)
    if given.what == "gain":
        return design.gain(given.decibels)
    if given.what == "level":
        return design.level(given.frame, given.shift)
    if given.what == "dtmf":
        return design.dtmf(given.set)
    if given.what == "signal":
        return design.signal(given.names, given.level, given.rate, *(None if it is None else it / 1000 for it in (given.on, given.off)))
    if given.what == "echo":
        return design.echo(given.ms, given.step, given.loud, given.hold, given.rate)
    if given.what == "activity":
        return design.activity(given.ms, given.margin, given.rise, given.least, given.hang, given.rate)
    if given.what == "decim":
        return design.decim(given.factor, given.taps, given.edge, given.rate, given.scale)
    return design.band_of({"low": "lowpass", "high": "highpass", "band": "bandpass"}[given.what], given.edges, given.order, given.rate, given.ripple, given.scale)


def points(given: argparse.Namespace) -> list[float]:
    """The frequencies at which the response is told: the edges, and some that most look at."""
    own = [*(getattr(given, "edges", None) or []), *([given.frequency] if given.what == "notch" else [])]
    if given.what == "decim":
        own += [given.rate / given.factor / 2]
    usual = [given.rate * it for it in (0, 1 / 160, 1 / 80, 1 / 40, 1 / 16, 1 / 8, 1 / 4, 3 / 8, 0.425, 0.4875)]
    return sorted({round(it, 3) for it in (*own, *usual) if 0 <= it < given.rate / 2})


def tell(given: argparse.Namespace, made: Made) -> None:
    """Writes the response, and what saturates, to the standard error."""
    from ..design import Activity, Biquads, Digits, Echo, Fir, Gain, Level, Signals, Tones, decibels

    told: list[str] = []
    if isinstance(made, Tones):
        told = ["      Hz   k is of   width  shift  level at 1000, at full scale"]
        told += [f"{one.asked:8.1f}  {one.frequency:8.1f}  {one.width:6.1f}  {one.shift:5}  {one.level(1000):13.1f}  {min(32767.0, one.level(32767)):12.1f}" for one in made.detectors]
    elif isinstance(made, (Biquads, Fir)):
        where = points(given)
        told = ["      Hz  words dB  designed dB"]
        told += [f"{at:8.1f}  {words:8.2f}  {designed:11.2f}" for at, words, designed in zip(where, decibels(made.response(where)), decibels(made.designed_response(where)))]
    elif isinstance(made, Gain):
        told = [f"the word has {made.decibels:.2f} dB of {made.asked:g} dB; what is too loud behind it saturates"]
    elif isinstance(made, Level):
        told = [f"a value for each {made.frame} samples: a root of the mean square of x has (x / {2**made.shift})^2 * {made.frame} / 32768"]
    elif isinstance(made, Digits):
        told = [f"a code for each {made.words[0]} samples: a digit counts once {made.frames_on} frames in a row have its code, and again once {made.frames_off} haven't"]
    elif isinstance(made, Signals):
        told = [f"{one.name}: {' and '.join(f'{it:.2f}' for it in one.frequencies)} Hz, {one.words[4]} samples on and {one.words[5]} off" for one in dict.fromkeys(made.parts)]
        told += [f"the input is the clock: it has {made.samples} samples or more"] if len(made.parts) > 1 else []
    elif isinstance(made, Echo):
        told = [f"{made.words[0]} coefficients, for echoes up to {made.milliseconds:g} ms; its input is pairs of samples, that of the far end first, as a stereo file has them"]
    elif isinstance(made, Activity):
        told = [f"1 or 0 for each {made.words[0]} samples: speech is {made.margin:.1f} dB above the floor, which rises by {made.rise:.2f} dB a second and is at least {made.least:.1f} dB of full scale"]
    print("\n".join(told), file=sys.stderr)
    for text in made.warnings():
        print(f"{NAME}: {text}", file=sys.stderr)


def main(words: Sequence[str] | None = None) -> int:
    """The command: its exit status."""
    given = parser().parse_args(words)
    return ended(NAME, lambda: serve(given))


def serve(given: argparse.Namespace) -> int:
    """Designs what the command line asks for. Nothing is printed on the standard output where that fails."""
    need("numpy", "scipy", *(["matplotlib"] if getattr(given, "plot", None) else []))
    made = made_of(given)
    share = {"share": True} if given.share else {}
    lines = made.lines(given.first, given.group, given.channel, **share)
    if longest := [line for line in lines if len(line) > 1024]:
        raise RokdaumError(f"a line has more than 1,024 bytes: {longest[0][:60]}..")
    if getattr(given, "plot", None):
        from .. import plot
        from ..design import Biquads, Fir

        assert isinstance(made, (Biquads, Fir))  # nothing else has --plot
        plot.save(plot.design(made), given.plot)
    print("\n".join(lines))
    sys.stdout.flush()
    tell(given, made)
    return 0
