# SPDX-License-Identifier: Apache-2.0
"""Random scripts with their inputs and what they answer.

A script is written line by line against a living session, so that most lines mean something: instances are there, channels
are fed with what is left of their inputs, spaces are small enough that `room` comes up. Some lines are broken on purpose.
"""

from __future__ import annotations

import random
from dataclasses import dataclass
from typing import Callable, Optional, TypeVar, Union

from .console import Config, Served, Session, Undetermined
from .gateway import GATEWAY
from .gateway_states import STATEFUL
from .kinds import FEED_MAX
from .memory import valid_space
from .ports import TapeIn, TapeOut
from .random_inputs import random_config, random_input
from .script import VERBS
from .sets import HOSTED

ODD_WORDS = (b"+1", b"1_0", b"0x10", b"1.0", b"--1", b"-", b"1-", b"9" * 40, b"-32769", b"32768", b"256", b"-1", b"\xc2\xb2",
             b"\xd9\xa3", b"1\0", b"\0", b"1\x0b2", b"\x0c", b"1\r", b"\xff", b"1e3", b"set", b"fir", b"daram", b"-0",
             b"00000255")
Drawn = TypeVar("Drawn")
BLANKS = (" ", "  ", "\t", " \t ", "\t\t", "     ")


@dataclass
class Script:
    """A script with what each line answered, None for a blank one."""

    lines: list[bytes]
    answers: list[Optional[str]]
    last_lf: bool = True

    def data(self) -> bytes:
        """The script's bytes."""
        text = b"".join(line + b"\n" for line in self.lines)
        return text if self.last_lf else text[:-1]


@dataclass
class RandomCase:
    """A random run with its result."""

    config: Config
    script: Script
    inputs: list[bytes]
    served: Served
    undetermined: Undetermined


class Writer:
    """Writes the lines of one script and serves each, so as to know what is there."""

    def __init__(self, rng: random.Random, config: Config, inputs: list[bytes]):
        self.rng, self.config = rng, config
        self.tapes = [TapeIn(data) for data in inputs]
        self.outs, self.replies = [TapeOut() for _ in inputs], TapeOut()
        self.session = Session(config, self.tapes, self.outs, self.replies)
        self.console = self.session.console
        self.host, self.channels = self.console.host, self.console.channels
        self.ports = len(inputs)
        self.lines: list[bytes] = []
        self.answers: list[Optional[str]] = []
        self.kind_names = [name.decode() for name in self.console.grammar.kinds]
        self.groups = rng.choice((1, 2, 2, 3, 8))
        self.numbers = rng.choice((4, 8, 12, 64))
        self.crlf = rng.random() < 0.12
        self.broken_share = rng.choice((0.0, 0.02, 0.08, 0.25))
        self.odd_share = rng.choice((0.0, 0.05, 0.3))
        self.queue: list[bytes] = []                       # lines that come next
        self.earlier: dict[int, tuple[str, list[int]]] = {}   # what a number was before

    # Words of lines

    def number(self, value: int) -> str:
        """A number, now and then with leading zeros or a minus before zero."""
        if self.rng.random() >= self.odd_share:
            return str(value)
        if value == 0 and self.rng.random() < 0.5:
            return self.rng.choice(("-0", "00", "-000", "0000000"))
        zeros = "0" * self.rng.choice((1, 1, 2, 30))
        return ("-" if value < 0 else "") + zeros + str(abs(value))

    def join(self, *words: Union[str, int]) -> bytes:
        """A line of words and numbers, now and then with odd blanks."""
        texts = [w if isinstance(w, str) else self.number(w) for w in words]
        if self.rng.random() >= self.odd_share:
            return " ".join(texts).encode()
        line = "".join(t + self.rng.choice(BLANKS) for t in texts)
        if self.rng.random() < 0.5:
            line = self.rng.choice(BLANKS) + line
        return (line.rstrip(" \t") if self.rng.random() < 0.5 else line).encode()

    def mostly(self, good: Drawn, bad: Drawn, share: float = 0.06) -> Drawn:
        """The first, now and then the second."""
        return bad if self.rng.random() < share else good

    # Parameters

    def coefficient(self) -> int:
        """A coefficient, often an extreme or a round one."""
        return self.rng.choice((self.rng.randint(-32768, 32767), self.rng.randint(-3000, 3000),
                                self.rng.choice((8192, 16384, -16384, 0, 1, -1, 32767, -32768))))

    def coefficients(self, n: int) -> list[int]:
        """Coefficients of one manner."""
        manner = self.rng.random()
        if manner < 0.3:
            return self.rng.choices((16384, 8192, -8192, 0), k=n)
        if manner < 0.5:
            return self.rng.choices((32767, -32768), k=n)
        return [self.coefficient() for _ in range(n)]

    def taps(self) -> int:
        """A number of coefficients."""
        return self.rng.choice((1, 1, 2, 2, 3, 5, 8, 9, 16, 63, 64))

    def parameters(self, kind: str) -> list[int]:
        """Parameters, mostly such as the kind takes; now and then those of a living instance."""
        rng = self.rng
        alike = [i for i in self.host.instances.values() if i.kind.name == kind]
        if alike and rng.random() < 0.2:
            return list(rng.choice(alike).parameters)
        if rng.random() < 0.05:
            return self.coefficients(rng.choice((0, 1, 2, 3, 4, 5, 6, 64, 65, 66, 71, 72)))
        if kind == "fir":
            return self.coefficients(self.taps())
        if kind == "decim":
            every = self.mostly(rng.choice((1, 2, 2, 3, 4, 7, 15, 16)), rng.choice((0, 17, -1)), 0.04)
            return [every] + self.coefficients(self.taps())
        if kind == "biquad":
            return self.coefficients(5)
        if kind == "tone":
            frame = self.mostly(rng.choice((1, 2, 3, 4, 5, 8, 20, 60, 1024)), rng.choice((0, 1025, -4)), 0.04)
            return [self.coefficient(), frame, self.mostly(rng.choice((0, 0, 1, 3, 8, 15)), rng.choice((16, -1)), 0.04)]
        if kind == "g711":
            return [self.mostly(rng.randint(0, 1), rng.choice((2, -1)), 0.04), rng.randint(0, 1)]
        if kind in GATEWAY:
            return self.gateway_parameters(kind)
        if kind in STATEFUL:
            return self.stateful_parameters(kind)
        return []   # the kinds that break the laws take none

    def gateway_parameters(self, kind: str) -> list[int]:
        """Parameters of a gain, a meter or a detector of digits."""
        rng = self.rng
        if kind == "gain":
            return [self.mostly(self.coefficient(), rng.choice((4096, 1)), 0.2)]
        most, shifts = (1024, (0, 0, 1, 3, 8, 15)) if kind == "level" else (127, (0, 3, 7, 7, 8, 14))
        frame = self.mostly(rng.choice((1, 2, 3, 5, 8, 20, 60, 102, most)), rng.choice((0, most + 1, -4)), 0.04)
        head = [frame, self.mostly(rng.choice(shifts), rng.choice((shifts[-1] + 1, -1)), 0.04)]
        if kind == "level":
            return head
        return head + rng.choice(([91, 2920, 7336, 5827, 22938], [0, 0, 0, 32767, 0], self.coefficients(5)))

    def stateful_parameters(self, kind: str) -> list[int]:
        """Parameters of an echo canceller, an ADPCM coder, a generator of tones or a detector of voice activity."""
        rng = self.rng
        if kind == "echo":
            taps = self.mostly(rng.choice((1, 2, 3, 5, 8, 16, 33, 128, 256)), rng.choice((0, 257, -1)), 0.04)
            return [taps] + rng.choice(([8192, 16384, 240], [8192, 0, 3], [32767, 32767, 0], self.coefficients(3)))
        if kind == "adpcm":
            return [self.mostly(rng.choice((16, 24, 32, 40)), rng.choice((0, 8, 64, -16)), 0.04), self.mostly(rng.randint(0, 1), rng.choice((2, -1)), 0.04)]
        if kind == "activity":
            frame = self.mostly(rng.choice((1, 2, 3, 5, 8, 20, 80, 160, 1024)), rng.choice((0, 1025, -1)), 0.04)
            bits = [self.mostly(rng.choice((0, 0, 1, 3, 6, 15)), rng.choice((16, -1)), 0.02) for _ in range(3)]
            return [frame, *bits, self.mostly(rng.choice((0, 0, 1, 320, 32767)), -1, 0.02), self.mostly(rng.choice((0, 1, 2, 5, 32767)), -1, 0.02)]
        tones = rng.choice(([26956, 4660, 16325, 7102], [27980, 3000, 0, 0], self.coefficients(4)))
        return tones + [rng.choice((0, 1, 3, 8, 40, 400, 32767)), rng.choice((0, 1, 2, 8, 60, 32767, -3)), rng.choice((0, 0, 1, 2, 5, -1))]

    # Numbers of things

    def some_instance(self, wanted: Optional[Callable[[int], bool]] = None) -> int:
        """A living instance, now and then any number."""
        living = [i for i in self.host.instances if wanted is None or wanted(i)]
        if not living or self.rng.random() < 0.06:
            return self.rng.choice((self.rng.randrange(self.numbers), 63, 64, 255, 256, -1))
        return self.rng.choice(living)

    def some_channel(self, chained: bool) -> int:
        """A channel that is there, or one that isn't, now and then any number."""
        found = [c for c in range(self.ports) if (c in self.channels.members) == chained]
        if not found or self.rng.random() < 0.05:
            return self.rng.choice((self.rng.randrange(self.ports), self.ports, 255, 256, -1))
        return self.rng.choice(found)

    def some_group(self) -> int:
        """A group, now and then any number."""
        return self.mostly(self.rng.randrange(self.groups), self.rng.choice((7, 8, 255, 256, -1)), 0.04)

    def some_space(self) -> str:
        """A space, mostly the one with scratch."""
        return self.rng.choice(("daram", "daram", "saram", "external"))

    # Lines

    def create(self) -> bytes:
        """A creation, now and then with more than one reason for a refusal."""
        free = [i for i in range(self.numbers) if i not in self.host.instances]
        i = self.rng.choice(free) if free and self.rng.random() > 0.06 else self.some_instance()
        if i in self.earlier and self.rng.random() < 0.3:
            kind, parameters = self.earlier[i]
        else:
            kind = self.rng.choice(self.kind_names)
            parameters = self.parameters(kind)
        self.earlier[i] = kind, parameters
        group = self.some_group()
        if self.rng.random() < 0.04:
            group = self.rng.choice((8, 9, 255))
            i = self.rng.choice(list(self.host.instances) or [64])
            none: list[int] = []
            parameters = self.rng.choice((none, parameters))
        return self.join("create", i, kind, group, *parameters)

    def chain(self) -> bytes:
        """A channel of idle instances, now and then with more than one reason for a refusal."""
        rng = self.rng
        free = [i for i in self.host.instances if self.channels.channel_of(i) is None]
        members = rng.sample(free, min(len(free), rng.choice((1, 2, 3, 4, 8))))
        if self.config.mixed:
            members.sort(key=lambda i: self.host.instances[i].kind.name in ("forger", "babbler"))
        if not members or rng.random() < 0.06:
            members = members + [self.some_instance() for _ in range(rng.choice((1, 1, 2, 9)))]
            rng.shuffle(members)
        if members and rng.random() < 0.06:
            members[rng.randrange(len(members))] = rng.choice((64, 63, members[0], self.numbers))
            return self.join("chain", self.some_channel(rng.random() < 0.5), *members)
        return self.join("chain", self.some_channel(False), *members)

    def left(self, c: int) -> int:
        """The samples that are left on a channel's input."""
        return (len(self.tapes[c].data) - self.tapes[c].at) // self.console.width_in(c)

    def is_done(self) -> bool:
        """Whether no input has a sample left."""
        return not any(self.left(c) for c in range(self.ports))

    def feed(self) -> bytes:
        """A feed, mostly of no more than is left; sometimes of all that is left."""
        rng = self.rng
        ready = [c for c in self.channels.members if self.left(c)]
        c = rng.choice(ready) if ready and rng.random() < 0.96 else self.some_channel(True)
        n = rng.choice((1, 1, 2, 3, rng.randint(1, 20), rng.randint(1, 60), rng.randint(1, 100), 256))
        if rng.random() < 0.03:
            n = rng.randint(257, FEED_MAX)
        left = min(self.left(c), FEED_MAX) if c in ready else 0
        if left and (n > left and rng.random() < 0.9):
            n = rng.randint(1, left)
        if left and rng.random() < 0.03:
            n = left
        if left and left < 256 and rng.random() < 0.02:
            n = rng.randint(left + 1, 256)
            self.queue.append(self.join("feed", c, rng.randint(1, left)))
        if rng.random() < 0.03:
            n = rng.choice((0, -1, FEED_MAX, FEED_MAX + 1, 257, 65536, 10**30))
        return self.join("feed", c, n)

    def control(self) -> bytes:
        """A control, often followed by a feed."""
        rng = self.rng
        i = self.some_instance()
        verb = rng.choice(("set", "set", "get", "get", "reset"))
        if verb != "set":
            return self.join("control", i, verb)
        instance = self.host.instances.get(i)
        n = rng.choice((0, 1, 5, 72))
        if instance is not None and rng.random() > 0.1:
            n = {"fir": len(instance.parameters), "biquad": 5, "tone": 1, "gain": 1}.get(instance.kind.name, n)
            c = self.channels.channel_of(i)
            if c is not None and self.left(c) and rng.random() < 0.6:
                self.queue.append(self.join("feed", c, rng.randint(1, min(self.left(c), 40))))
        return self.join("control", i, verb, *self.coefficients(n))

    def delete(self) -> bytes:
        """A deletion, mostly of an instance that is in no channel."""
        def free(i: int) -> bool:
            return self.channels.channel_of(i) is None
        return self.join("delete", self.some_instance(free if self.rng.random() < 0.8 else None))

    def unchain(self) -> bytes:
        """The end of a channel."""
        return self.join("unchain", self.some_channel(True))

    def release(self) -> bytes:
        """A group's member is put to rest."""
        return self.join("release", self.some_group())

    def stat(self) -> bytes:
        """A question for a group's state."""
        return self.join("stat", self.some_group())

    def map(self) -> bytes:
        """A question for a space's blocks."""
        return self.join("map", self.some_space())

    def step(self) -> bytes:
        """One move."""
        return self.join("step", self.some_space())

    def compact(self) -> bytes:
        """All moves."""
        return self.join("compact", self.some_space())

    def blank(self) -> bytes:
        """A line without words."""
        return self.rng.choice((b"", b" ", b"\t", b"   \t ", b"\r", b" \r", b" " * 1024))

    def good(self) -> bytes:
        """A line that may well be granted."""
        if len(self.host.instances) < 2 and self.rng.random() < 0.6:
            return self.create()
        if len(self.channels.members) < min(2, self.ports) and self.rng.random() < 0.4:
            return self.chain()
        weights = {"create": 14, "chain": 7, "feed": 34, "control": 12, "delete": 5, "unchain": 3, "release": 3, "stat": 5,
                   "map": 6, "step": 4, "compact": 3}
        if not any(self.left(c) for c in self.channels.members):
            weights["feed"] = 2
        if len(self.channels.members) == self.ports:
            weights["chain"] = 1
        if len(self.host.instances) >= self.numbers:
            weights["create"] = 1
        verb = self.rng.choices(VERBS, [weights[v] for v in VERBS])[0]
        return getattr(self, verb)()

    def broken(self) -> bytes:
        """A line with something wrong in it, or at the edge of it."""
        return break_line(self.rng, self.good())

    def line(self) -> None:
        """Writes one line and serves it."""
        draw = self.rng.random()
        if self.queue:
            line = self.queue.pop()
        elif draw < self.broken_share:
            line = self.broken()
        elif draw < self.broken_share + 0.02:
            line = self.blank()
        else:
            line = self.good()
        if self.crlf and self.rng.random() < 0.95:
            line += b"\r"
        self.lines.append(line)
        self.answers.append(self.session.serve(line))


def break_line(rng: random.Random, line: bytes) -> bytes:
    """A line with something wrong in it, or at the edge of it."""
    words = line.split() or [b"feed"]
    at = rng.randrange(len(words))
    way = rng.randrange(11)
    if way == 0:
        words[at] = rng.choice(ODD_WORDS)
    elif way == 1:
        del words[at]
    elif way == 2:
        words.insert(at, rng.choice(ODD_WORDS))
    elif way == 3:
        words.insert(at, words[at])
    elif way == 4:
        words[at] = words[at].upper() if rng.random() < 0.5 else words[at].title()
    elif way == 5:
        words[at] = words[at][:-1]
    elif way == 6:
        words += [b"1"] * rng.choice((1, 8, 69, 70, 71, 72, 73))
    elif way == 7:
        return b" ".join(words).ljust(rng.choice((1023, 1024, 1025, 1500)))
    elif way == 8:
        return b" ".join(words).ljust(rng.choice((1022, 1023, 1024))) + rng.choice((b"\r", b"\t", b"\r\r"))
    elif way == 9:
        return rng.choice((b"a", b" ", b"\0", b"1")) * rng.choice((1025, 4096, 4097, 9000))
    else:
        return rng.choice((b"\xef\xbb\xbf", b"\0", b"\r", b"\x0b", b"#", b"'")) + line
    return b" ".join(words)


def refused_case(config: Config, inputs: list[bytes]) -> RandomCase:
    """A run whose sizes are refused."""
    served = Served(b"", [b"" for _ in inputs], 0, 2)
    return RandomCase(config, Script([b"create 0 fir 0 1"], ["ok"]), inputs, served, Undetermined())


def random_case(rng: random.Random, kinds: str = HOSTED) -> RandomCase:
    """A random run over 1 to 16 pairs of ports."""
    config = random_config(rng, kinds)
    inputs = [random_input(rng) for _ in range(rng.choice((1, 1, 1, 2, 2, 2, 3, 4, 16)))]
    if not all(valid_space(words) for words in config.sizes):
        return refused_case(config, inputs)
    writer = Writer(rng, config, inputs)
    for _ in range(rng.choice((0, 3, 10, 20, 30, 40, 60, 90, 250))):
        writer.line()
        if len(writer.lines) > 20 and writer.is_done() and rng.random() < 0.05:
            break
    # A last line without its LF is the end of the script only where it isn't empty.
    last_lf = not writer.lines or rng.random() < 0.75
    session = writer.session
    served = Served(writer.replies.held, [tape.held for tape in writer.outs], session.refused, 1 if session.refused else 0)
    return RandomCase(config, Script(writer.lines, writer.answers, last_lf), inputs, served, session.undetermined)
