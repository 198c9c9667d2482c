# SPDX-License-Identifier: Apache-2.0
"""Scripts of `dsp_console` with comments and feeds to the end of the input, run by the program as it is.

What a script may have here beside the commands of docs/SCRIPTS.md:

- `# ..`, a comment, to the end of its line;
- `feed C all [BLOCK]`, which feeds channel C to the end of its input in blocks of BLOCK samples (1 to 1,024, 1,024 if nothing is said),
  the last one being what is left;
- `feed * all [BLOCK]`, all channels block by block in turn.

Each is sent as lines that the program knows, through a pipe, and its replies are those of the program. A `feed .. all` has one reply,
`ok K` with all the samples that were written, or the first refusal among its feeds.
"""

from __future__ import annotations

import itertools
import os
import re
import shlex
import shutil
import signal
import subprocess
import threading
from collections.abc import Callable, Iterator, Sequence
from contextlib import contextmanager
from dataclasses import dataclass, field
from pathlib import Path
from typing import TYPE_CHECKING

from .errors import CantRead, OutOfRange, ProgramFailed, ProgramMissing, ScriptError
from .explain import GATEWAY_KINDS, LONGEST_FEED, LONGEST_LINE, SPACES, Circuit, Instance, hint, is_number, notes_on_channel
from .maps import History, Said, parse_map, parse_stat
from .memory import room_needed
from .ports import Pair, Settings, Staged, look_at_files

if TYPE_CHECKING:
    import numpy

LONGEST_SCRIPT = 1_000_000_000
DEFAULT_RATE = 8000.0
HIGHEST_RATE = 1_000_000
NOT_SERVED = 70
# Lines that are sent before their replies are read: a pipe holds them whatever the program does meanwhile, so neither side waits for the other.
LINES_AHEAD = 64
BYTES_AHEAD = 4096

REPOSITORY = Path(__file__).resolve().parent.parent.parent


@dataclass(frozen=True)
class Line:
    """A line of a script that gets a reply. `number` counts all lines of the file from 1, `text` is the line without its comment."""

    file: str
    number: int
    text: str

    @property
    def too_long(self) -> bool:
        """Whether the line has more bytes than the program takes."""
        return len(self.text.encode("utf-8", "surrogateescape")) > LONGEST_LINE

    @property
    def words(self) -> tuple[str, ...]:
        """The words of the line, as the program cuts it."""
        return tuple(re.findall(r"[^ \t]+", self.text.removesuffix("\r")))

    @property
    def place(self) -> str:
        """`FILE:LINE`."""
        return f"{self.file}:{self.number}"

    @property
    def feeds_all(self) -> bool:
        """Whether the line is a `feed .. all`."""
        return not self.too_long and self.words[:1] == ("feed",) and self.words[2:3] == ("all",)

    @property
    def block(self) -> int:
        """The samples of each feed of a `feed .. all`."""
        return int(self.words[3]) if len(self.words) == 4 else LONGEST_FEED


@dataclass(frozen=True)
class Answer:
    """A line and its reply. `why` says what a refused line needs, or nothing."""

    line: Line
    reply: str
    why: str = ""

    @property
    def refused(self) -> bool:
        """Whether the line was refused."""
        return self.reply.startswith("no ")

    def __str__(self) -> str:
        """`FILE:LINE: TEXT: REPLY`."""
        text = " ".join(self.line.words)
        return f"{self.line.place}: {text if len(text) <= 100 else text[:97] + '..'}: {self.reply}"


@dataclass
class Result:
    """What a run gave: a reply for each line, in order, what is odd about it, and the exit status of the program.

    `stopped` says that a strict run ended at a refused line: then no output was changed. `rates` has the samples a second of each
    channel's output, and `unfed` the samples of each input that no line fed, None where the input has no length.
    """

    answers: list[Answer] = field(default_factory=list)
    notes: list[str] = field(default_factory=list)
    status: int = 0
    stopped: bool = False
    rates: list[float] = field(default_factory=list)
    unfed: list[int | None] = field(default_factory=list)
    history: History | None = None

    @property
    def replies(self) -> list[str]:
        """The replies alone."""
        return [answer.reply for answer in self.answers]

    @property
    def refused(self) -> list[Answer]:
        """The refused lines."""
        return [answer for answer in self.answers if answer.refused]


def parse(text: str, file: str = "script") -> list[Line]:
    """The lines of a script that get a reply: not the blank ones, and not those of a comment alone.

    Raises ScriptError for a `feed .. all` that isn't one.
    """
    found = []
    for number, raw in enumerate(text.split("\n"), 1):
        kept, mark, _ = raw.partition("#")
        # A line is sent as it is, so that the program judges it; what stood before a comment loses the spaces at its end.
        line = Line(file, number, kept.rstrip() if mark else kept)
        if line.feeds_all:
            look_at_feed(line)
        if line.words or line.too_long:
            found.append(line)
    return found


def look_at_feed(line: Line) -> None:
    """Raises ScriptError where a `feed .. all` has another form."""
    words = line.words
    if len(words) > 4 or not (words[1] == "*" or words[1].isascii() and words[1].isdigit()):
        raise ScriptError(line.file, line.number, line.text, "a line is feed C all [BLOCK] or feed * all [BLOCK]")
    if len(words) == 4 and not (is_number(words[3]) and 1 <= int(words[3]) <= LONGEST_FEED):
        raise ScriptError(line.file, line.number, line.text, f"a block has 1 to {LONGEST_FEED} samples")


def read_script(path: str | os.PathLike[str]) -> list[Line]:
    """The lines of a script in a file. Raises CantRead and ScriptError."""
    try:
        with open(path, "rb") as file:
            octets = file.read(LONGEST_SCRIPT + 1)
    except OSError as why:
        raise CantRead(f"{path}: {why.strerror}") from None
    if len(octets) > LONGEST_SCRIPT:
        raise CantRead(f"{path} has more than {LONGEST_SCRIPT:,} bytes: `feed C all` stands for all feeds of a file")
    return parse(octets.decode("utf-8", "surrogateescape"), str(path))


def written_by(reply: str) -> int:
    """How many samples a feed has written, by its reply. Raises ProgramFailed where it is none."""
    found = re.fullmatch(r"ok ([0-9]+)", reply)
    if not found:
        raise ProgramFailed(NOT_SERVED, f"the program has answered a feed by {reply[:60]!r}, which is no reply of dsp_console; no output was changed")
    return int(found[1])


def names_gateway_kinds(lines: Sequence[Line]) -> bool:
    """Whether a line creates an instance of a kind that `gateway_console` alone has."""
    return any(len(line.words) > 2 and line.words[0] == "create" and line.words[2] in GATEWAY_KINDS for line in lines)


def find_program(named: str | None = None, name: str = "dsp_console") -> list[str]:
    """The words that start `dsp_console`, or `gateway_console`: those named, else those of DSP_CONSOLE (GATEWAY_CONSOLE), else the command of this
    repository, else the one on PATH.

    Raises ProgramMissing where there is none.
    """
    words = shlex.split(named or os.environ.get(name.upper()) or "")
    if not words and os.access(REPOSITORY / name, os.X_OK):
        words = [str(REPOSITORY / name)]
    words = words or [name]
    if not shutil.which(words[0]):
        raise ProgramMissing(f"{words[0]}: there is no such program: name {name} by --program or by {name.upper()}")
    return words


def look_at_descriptors() -> None:
    """Refuses a machine where a program can't open its standard input by name, as the script is handed to it. Raises CantRead."""
    if not os.path.isdir("/dev/fd"):
        raise CantRead("no /proc: the program gets its script as /dev/stdin, which leads there: mount -t proc proc /proc")


@contextmanager
def holding_signals() -> Iterator[None]:
    """Holds SIGINT and SIGTERM back, and then lets them come. In another thread than the main one Python has none of them come."""
    came: list[int] = []
    held = (signal.SIGINT, signal.SIGTERM) if threading.current_thread() is threading.main_thread() else ()
    before = {number: signal.signal(number, lambda number, _: came.append(number)) for number in held}
    try:
        yield
    finally:
        for number, handler in before.items():
            signal.signal(number, signal.SIG_DFL if handler is None else handler)
        for late in came:
            signal.raise_signal(late)


class Session:
    """A running `dsp_console` whose script is a pipe: `with Session(words) as session`. However that ends, the program has ended then."""

    def __init__(self, words: Sequence[str], kept: Sequence[int] = ()) -> None:
        self.words, self.kept = words, kept
        self.sent = 0

    def __enter__(self) -> Session:
        # A signal between the start and its note here would leave a program behind, which makes its outputs anew.
        try:
            with holding_signals():
                self.process = subprocess.Popen(self.words, stdin=subprocess.PIPE, stdout=subprocess.PIPE, pass_fds=self.kept)
                assert self.process.stdin and self.process.stdout  # both are pipes
                self.lines, self.said = self.process.stdin, self.process.stdout
        except BaseException:
            self.__exit__()
            raise
        return self

    def __exit__(self, *_: object) -> None:
        if hasattr(self, "said"):
            if self.process.poll() is None:
                self.process.kill()
            self.end()

    def ask(self, lines: Sequence[str]) -> list[str]:
        """Sends lines, none of them blank, and reads their replies. Raises ProgramFailed where the program ends before."""
        octets = "".join(f"{line}\n" for line in lines).encode("utf-8", "surrogateescape")
        self.sent += len(octets)
        if self.sent > LONGEST_SCRIPT:
            raise OutOfRange(f"the feeds make a script of more than {LONGEST_SCRIPT:,} bytes: take larger blocks")
        replies: list[str] = []
        try:
            self.lines.write(octets)
            self.lines.flush()
        except BrokenPipeError:
            pass
        for _ in lines:
            reply = self.said.readline()
            if not reply.endswith(b"\n"):
                status = self.process.wait()
                # 0 and 1 are the statuses of a script that was served to its end.
                raise ProgramFailed(NOT_SERVED if status in (0, 1) else status, f"dsp_console ended with status {status} at: {lines[len(replies)][:80]}; no output was changed")
            replies.append(reply[:-1].decode("utf-8", "surrogateescape"))
        return replies

    def end(self) -> int:
        """Ends the script, and waits for the program. Its exit status."""
        try:
            self.lines.close()
        except BrokenPipeError:
            pass
        if not self.said.closed:
            self.said.read()
            self.said.close()
        return self.process.wait()


class Run:
    """A script on its way through a session."""

    def __init__(self, session: Session, staged: Staged, watch: Callable[[int, int], None] | None, history: History | None) -> None:
        self.session, self.staged, self.watch, self.history = session, staged, watch, history
        self.left = list(staged.counts)
        self.fed = self.total = 0
        self.circuit = Circuit()
        self.noted: dict[str, None] = {}
        self.groups: set[int] = set()

    def serve(self, lines: Sequence[Line], strict: bool) -> Iterator[Answer]:
        """The answer to each line, as it comes. In a strict run no line is sent before the answer to the one before it was taken."""
        self.total = self.expected(lines)
        one_by_one = strict or self.history is not None or bool(self.staged.relays)
        batch: list[Line] = []
        for line in lines:
            size = sum(4 * len(it.text) + 1 for it in batch) + 4 * len(line.text)
            # A creation ends its batch: where it has no room, the maps behind it are asked for.
            if batch and (one_by_one or line.feeds_all or len(batch) == LINES_AHEAD or size > BYTES_AHEAD or batch[-1].words[:1] == ("create",)):
                yield from self.several(batch)
                batch = []
            if line.feeds_all:
                yield self.feed_all(line)
            else:
                batch.append(line)
        yield from self.several(batch)

    def expected(self, lines: Sequence[Line]) -> int:
        """About how many samples will be fed."""
        left, total = [count or 0 for count in self.left], 0
        for line in lines:
            for channel in self.channels_of(line):
                count = left[channel] if line.feeds_all else min(left[channel], max(0, int(line.words[2])))
                left[channel] -= count
                total += count
        return total

    def channels_of(self, line: Line) -> list[int]:
        """The channels that a line feeds, of those that are there."""
        words = line.words
        if line.too_long or words[:1] != ("feed",) or len(words) < 3 or not (line.feeds_all or len(words) == 3 and is_number(words[2])):
            return []
        if words[1] == "*":
            return list(range(len(self.left)))
        return [int(words[1])] if is_number(words[1]) and 0 <= int(words[1]) < len(self.left) else []

    def several(self, batch: Sequence[Line]) -> list[Answer]:
        """The answers to lines that are sent as they are."""
        for line in batch if self.staged.relays else ():
            for channel in self.channels_of(line):
                self.put_ahead(channel, int(line.words[2]))
        replies = self.session.ask([line.text for line in batch]) if batch else []
        return [self.answered(line, reply) for line, reply in zip(batch, replies)]

    def put_ahead(self, channel: int, count: int) -> int | None:
        """Puts the samples of a feed into the pipe of a channel that reads a stream; how many are there, None where it reads none. Where there
        are fewer, the program sees the end of the stream, once it has surely opened its files."""
        relay = self.staged.relays.get(channel)
        if relay is None or not 1 <= count <= LONGEST_FEED:
            return None
        there = relay.ahead(count)
        if there < count:
            self.session.ask(["stat 0"])
            relay.end()
        return there

    def answered(self, line: Line, reply: str) -> Answer:
        """Takes note of a reply, and says what a refused line needs."""
        for channel in self.channels_of(line):
            self.took(channel, int(line.words[2]), reply)
        return self.told(line, line.words, reply)

    def told(self, line: Line, words: tuple[str, ...], reply: str) -> Answer:
        """The answer to a line, with what is odd about it."""
        why = self.room_needed(words) if reply == "no 7 room" else ""
        why = why or (hint(words, reply, self.circuit) if reply.startswith("no ") else "")
        self.circuit.follow(words, reply, f"line {line.number}")
        for channel in self.channels_of(line):
            ports = self.staged.settings
            for note in notes_on_channel(self.circuit, channel, bool(ports.in8 >> channel & 1), bool(ports.out8 >> channel & 1)):
                self.noted.setdefault(note)
        if self.history is not None:
            self.history.said.append(Said(line.number, line.text.strip(), reply, why))
            self.look(line, self.history)
        return Answer(line, reply, why)

    def room_needed(self, words: tuple[str, ...]) -> str:
        """What a creation lacks that has just been refused for want of room, by the maps that it has left as they were."""
        maps = [parse_map(reply, self.staged.settings.size_of(space)) for space, reply in zip(SPACES, self.session.ask([f"map {space}" for space in SPACES]))]
        return room_needed(self.circuit.instances, dict(zip(SPACES, maps)), Instance(words[2], int(words[3]), tuple(int(it) for it in words[4:])), int(words[1]))

    def took(self, channel: int, count: int, reply: str) -> None:
        """Counts what a feed has taken from its input: all that it asked for, or what was left where it was short."""
        left, relay = self.left[channel], self.staged.relays.get(channel)
        if reply.startswith("ok"):
            used = count
        elif reply.endswith(" short"):
            used = relay.held // relay.width if relay else left or 0
        else:
            return
        if relay:
            relay.took(used)
        self.fed += used
        self.left[channel] = None if left is None else max(0, left - used)
        if self.watch:
            self.watch(self.fed, self.total)

    def feed_all(self, line: Line) -> Answer:
        """The answer to a `feed .. all`: all that was written, or the first refusal."""
        channels = self.channels_of(line)
        if not channels:
            number = line.words[1]
            return self.told(line, ("feed", number, "1"), self.session.ask([f"feed {number} 1"])[0])
        for channel in channels:
            if self.left[channel] is None and channel not in self.staged.relays:
                raise ScriptError(line.file, line.number, line.text, f"{self.staged.pairs[channel].source} is a device, and has no length: feed it by `feed {channel} N`")
        written, feeds = 0, self.feeds(channels, line.block)
        # What a stream has is only known when its turn comes.
        ahead = 1 if any(channel in self.staged.relays for channel in channels) else LINES_AHEAD
        while batch := list(itertools.islice(feeds, ahead)):
            replies = self.session.ask([f"feed {channel} {count}" for channel, count in batch])
            for (channel, count), reply in zip(batch, replies):
                self.took(channel, count, reply)
            for (channel, count), reply in zip(batch, replies):
                if reply.startswith("no "):
                    return self.told(line, ("feed", str(channel), str(count)), reply)
                written += written_by(reply)
        for channel in channels:
            self.circuit.follow(("feed", str(channel), "1"), "ok", "")
        return self.told(line, ("map", "daram"), f"ok {written}")

    def feeds(self, channels: Sequence[int], block: int) -> Iterator[tuple[int, int]]:
        """The feeds to the end of the channels' inputs, in turn. It has its own count: replies come later than the lines."""
        left = {channel: self.left[channel] or 0 for channel in channels}
        streams = {channel: self.staged.relays[channel] for channel in channels if channel in self.staged.relays}
        while streams or any(left.values()):
            for channel in channels:
                if channel in streams:
                    count = min(block, streams[channel].ahead(block))
                    if not count:
                        del streams[channel]
                        continue
                else:
                    count = min(block, left[channel])
                    left[channel] -= count
                if count:
                    yield channel, count

    def look(self, line: Line, history: History) -> None:
        """Asks where all blocks stand and who is active. Neither command changes anything."""
        maps = self.session.ask([f"map {space}" for space in SPACES])
        self.groups |= {it.group for it in self.circuit.instances.values()}
        groups = sorted(self.groups)
        stats = self.session.ask([f"stat {group}" for group in groups]) if groups else []
        history.add(line.number, line.text, dict(zip(SPACES, maps)), dict(zip(groups, map(parse_stat, stats))))


def run(
    script: str | os.PathLike[str] | Sequence[Line],
    pairs: Sequence[Pair],
    settings: Settings = Settings(),
    *,
    program: str | None = None,
    strict: bool = False,
    rate: float = DEFAULT_RATE,
    watch: Callable[[int, int], None] | None = None,
    tell: Callable[[Answer], None] | None = None,
    history: bool = False,
) -> Result:
    """Runs a script, a file or parsed lines, over pairs of files, 1 to 16.

    The name of a file says its form: `.wav`, `.flac`, `.au` and `.aiff` are files of sound, `call.wav:1` is the second channel of one, `.ul` and `.al` are
    codes of G.711, which are decoded and encoded; others have words of 16 bits, or bytes by `settings`. `/dev/stdin`, named pipes and sockets are
    streams. Each output is whole or stays as it was: it takes its place when the run has ended with status 0 or 1. `strict` stops at the first
    refused line, and no output is changed then. `rate` is the samples a second of inputs that are no WAV files, in Hz.

    `tell` is called with each answer as it comes, `watch` with the samples fed and about how many there will be. With `history` the maps of all
    spaces and the active member of each group are asked for behind each line.

    Raises CantRead, CantWrite, SameFile, WrongWave, ScriptError and ProgramMissing first, and ProgramFailed if the program ends early. No output is changed then.
    """
    if not 1 <= rate <= HIGHEST_RATE:
        raise OutOfRange(f"a rate is 1 to {HIGHEST_RATE:,} samples a second, and {rate:g} is asked for")
    path = Path(script) if isinstance(script, (str, os.PathLike)) else None
    look_at_descriptors()
    look_at_files(path, pairs)
    lines = list(script) if not isinstance(script, (str, os.PathLike)) else read_script(script)
    name = "gateway_console" if names_gateway_kinds(lines) else "dsp_console"
    words = [*find_program(program, name), *settings.arguments(), "/dev/stdin"]
    result = Result(history=History({space: settings.size_of(space) for space in SPACES}) if history else None)
    with Staged(pairs, settings) as staged, Session([*words, *staged.names()], staged.kept) as session:
        going = Run(session, staged, watch, result.history)
        serve(going, lines, strict, tell, result)
        finish(result, going, rate)
        if not result.stopped:
            staged.commit(result.rates)
    return result


def serve(going: Run, lines: Sequence[Line], strict: bool, tell: Callable[[Answer], None] | None, result: Result) -> None:
    """Takes each answer of a run into its result, and ends the program."""
    for answer in going.serve(lines, strict):
        result.answers.append(answer)
        if tell:
            tell(answer)
        if strict and answer.refused:
            result.stopped = True
            break
    result.status = going.session.end()


def finish(result: Result, going: Run, rate: float) -> None:
    """Fills in what is known at the end of a run. Raises ProgramFailed where the program has failed."""
    if result.status not in (0, 1):
        raise ProgramFailed(result.status, f"dsp_console ended with status {result.status}; no output was changed")
    result.unfed = list(going.left)
    for channel, pair in enumerate(going.staged.pairs):
        own = going.staged.rates[channel] or rate
        if own != rate:
            going.noted.setdefault(f"{pair.source} has {own:g} samples a second: words that were designed for {rate:g} have other frequencies there; --rate {own:g} says that they are for it")
        divisors = going.circuit.divided.get(channel) or {going.circuit.divides_by(channel)}
        result.rates.append(own / min(divisors))
        if len(divisors) > 1:
            going.noted.setdefault(f"{pair.target} has samples of several rates: its channel was made anew with another decimator")
        if left := going.left[channel]:
            going.noted.setdefault(f"{pair.source} has {left:,} samples that no line fed: `feed {channel} all` feeds what is left")
    result.notes = list(going.noted)


def process(
    script: str, *inputs: numpy.ndarray, settings: Settings = Settings(), program: str | None = None, strict: bool = True
) -> tuple[list[numpy.ndarray], Result]:
    """Runs a script over arrays: input c is channel c's, and its output is the c-th of the list.

    Inputs have shape (samples,) and whole numbers of 16 bits, or 0 to 255 where bit c of `settings.in8` is set; outputs are int16, or uint8 where
    bit c of `settings.out8` is set. Of a strict run that stopped the list is empty. Raises FloatsRefused, OutOfRange, and what `run` raises.
    """
    # Only here, so that runs over files need Python alone.
    import tempfile

    import numpy as np

    from .samples import as_words

    with tempfile.TemporaryDirectory(prefix="rokdaum-") as folder:
        pairs = [Pair(Path(folder, f"in{c}"), Path(folder, f"out{c}")) for c in range(len(inputs))]
        for c, (pair, given) in enumerate(zip(pairs, inputs)):
            pair.source.write_bytes(as_words(given, octets=bool(settings.in8 >> c & 1)).tobytes())
        result = run(parse(script), pairs, settings, program=program, strict=strict)
        if result.stopped:
            return [], result
        kinds = ["u1" if settings.out8 >> c & 1 else "<i2" for c in range(len(inputs))]
        return [np.fromfile(pair.target, kind).astype(np.uint8 if kind == "u1" else np.int16) for pair, kind in zip(pairs, kinds)], result
