# SPDX-License-Identifier: Apache-2.0
"""A run: a script is served over ports, line by line."""

from __future__ import annotations

import struct
from dataclasses import dataclass, field
from typing import Callable, Iterator, NamedTuple, Optional, Sequence

from .machine import PORTS_MAX, UNSETTLED, Channels, Host
from .memory import SPACE_WORDS_MAX, TALLY_MAX, valid_space
from .ports import In, Out, PortFault, TapeIn, TapeOut
from .refusals import Refusal, Refused
from .script import LINE_MAX, Command, Grammar
from .sets import GATEWAY_SET, HOSTED, MIXED
from .voices import Unknown

SCRIPT_BYTES_MAX = 1_000_000_000
SCRIPT_BUFFER = 4096


@dataclass(frozen=True)
class Config:
    """What a run is asked for besides its ports. `form` chooses between histories and delay lines, which give the same;
    `kinds` is the set of kinds that a script may name."""

    daram: int = SPACE_WORDS_MAX
    saram: int = SPACE_WORDS_MAX
    external: int = SPACE_WORDS_MAX
    poison: Optional[int] = None      # a word, -32768 to 32767
    in8: int = 0
    out8: int = 0
    kinds: str = HOSTED
    form: str = "history"
    script_bytes_max: int = SCRIPT_BYTES_MAX

    @property
    def mixed(self) -> bool:
        """Whether there are kinds that break the laws."""
        return self.kinds == MIXED

    @property
    def sizes(self) -> tuple[int, int, int]:
        """The sizes of the spaces in their order."""
        return self.daram, self.saram, self.external


class Fault(Exception):
    """A run that didn't come to the script's end: `size`, `memory`, `read` or `write`."""

    def __init__(self, cause: str):
        super().__init__(cause)
        self.cause = cause


@dataclass
class Undetermined:
    """What the definitions leave open in a run with unlawful kinds: numbers of replies, and of each output ranges of bytes (to
    the end where it is None)."""

    replies: list[int] = field(default_factory=list)
    outputs: dict[int, list[tuple[int, Optional[int]]]] = field(default_factory=dict)


class Console:
    """The engine without its ports: commands in, replies and output blocks out."""

    def __init__(self, config: Config, ports: int):
        if not all(valid_space(words) for words in config.sizes):
            raise Fault("size")
        self.config = config
        self.grammar = Grammar(config.kinds)
        self.host = Host(config.sizes, config.poison, "history" if config.mixed else config.form)
        self.channels = Channels(self.host, ports)

    def width_in(self, c: int) -> int:
        """Bytes a sample of a channel's input."""
        return 1 if self.config.in8 >> c & 1 else 2

    def width_out(self, c: int) -> int:
        """Bytes a sample of a channel's output."""
        return 1 if self.config.out8 >> c & 1 else 2

    def samples(self, c: int, data: bytes) -> list[int]:
        """The samples that an input's bytes are."""
        if self.width_in(c) == 1:
            return list(data)
        return list(struct.unpack("<%dh" % (len(data) // 2), data))

    def data(self, c: int, samples: Sequence[int]) -> bytes:
        """The bytes that an output's samples are."""
        if self.width_out(c) == 1:
            return bytes(x & 255 for x in samples)
        return struct.pack("<%dh" % len(samples), *samples)

    def reply(self, command: Command) -> str:
        """Serves every command but a feed; `*` stands for a word that isn't determined."""
        verb, arguments = command
        host, channels = self.host, self.channels
        if verb == "control":
            words = host.control(*arguments)
            return " ".join(["ok"] + ["*" if w is None else str(w) for w in words])
        if verb == "compact":
            return f"ok {host.compact(*arguments)}"
        if verb == "step":
            return f"ok {int(host.step(*arguments))}"
        if verb == "release":
            was = host.release(*arguments)
            return "ok *" if was is None else f"ok {int(was)}"
        if verb == "stat":
            active, count = host.stat(*arguments)
            shown = "-" if active is None else "*" if active is UNSETTLED else active
            return f"ok {shown} {'*' if count is None else count}"
        if verb == "map":
            return " ".join(["ok"] + [f"{b.owner}@{b.place}+{b.size}" for b in host.map(*arguments)])
        silent: dict[str, Callable[..., None]] = {
            "create": host.create, "delete": channels.delete, "chain": channels.chain, "unchain": channels.unchain}
        silent[verb](*arguments)
        return "ok"


def _get_all(port: In, wanted: int) -> bytes:
    """Bytes of an input, fewer only at its end."""
    got = b""
    while len(got) < wanted:
        try:
            part = port.get(wanted - len(got))
        except PortFault:
            raise Fault("read") from None
        if not part:
            break
        got += part
    return got


def _put_all(port: Out, data: bytes) -> None:
    while data:
        try:
            data = data[port.put(data):]
        except PortFault:
            raise Fault("write") from None


def script_lines(port: In, most: int = SCRIPT_BYTES_MAX) -> Iterator[bytes]:
    """The lines of a script as they come in, the unfinished last one at its end. Of a line that is too long only so much is
    kept that this is known."""
    pending, total = b"", 0
    while True:
        try:
            part = port.get(min(SCRIPT_BUFFER, most + 1 - total))
        except PortFault:
            raise Fault("read") from None
        if not part:
            break
        total += len(part)
        over = total > most
        *lines, pending = (pending + (part[:-1] if over else part)).split(b"\n")
        yield from lines
        if over:
            raise Fault("read")
        pending = pending[:LINE_MAX + 1]
    if pending:
        yield pending


class Session:
    """A run line by line: each is served over the ports before the next."""

    def __init__(self, config: Config, inputs: Sequence[In], outputs: Sequence[Out], replies: Out,
                 undetermined: Optional[Undetermined] = None):
        assert len(inputs) == len(outputs) and 1 <= len(inputs) <= PORTS_MAX
        self.console = Console(config, len(inputs))
        self.inputs, self.outputs, self.replies = inputs, outputs, replies
        self.undetermined = undetermined if undetermined is not None else Undetermined()
        self.refused = self.served = 0
        self.written = [0] * len(outputs)

    def serve(self, line: bytes) -> Optional[str]:
        """Serves a line, without its LF; its reply, None for a blank line."""
        try:
            command = self.console.grammar.parse(line)
            if command is None:
                return None
            text = self._feed(*command.arguments) if command.verb == "feed" else self.console.reply(command)
        except Refused as refused:
            self.refused = min(self.refused + 1, TALLY_MAX)
            text = refused.text()
        if "*" in text:
            self.undetermined.replies.append(self.served)
        self.served += 1
        _put_all(self.replies, text.encode() + b"\n")
        return text

    def _feed(self, c: int, n: int) -> str:
        """A feed: the bytes come in, the block goes through, the bytes go out."""
        console = self.console
        console.channels.ready(c)
        wanted = n * console.width_in(c)
        data = _get_all(self.inputs[c], wanted)
        if len(data) < wanted:
            raise Refused(Refusal.SHORT)
        block = console.channels.feed(c, console.samples(c, data))
        if isinstance(block, Unknown):
            self._mark(c, self.written[c], None)
            return "ok *"
        width = console.width_out(c)
        for at, x in enumerate(block):
            if x is None:
                start = self.written[c] + at * width
                self._mark(c, start, start + width)
        out = console.data(c, [0 if x is None else x for x in block])
        self.written[c] += len(out)
        _put_all(self.outputs[c], out)
        return f"ok {len(block)}"

    def _mark(self, c: int, start: int, end: Optional[int]) -> None:
        self.undetermined.outputs.setdefault(c, []).append((start, end))

    def finish(self) -> None:
        """Flushes the outputs in ascending number, then the replies."""
        try:
            for port in self.outputs:
                port.flush()
            self.replies.flush()
        except PortFault:
            raise Fault("write") from None


def run(config: Config, script: In, inputs: Sequence[In], outputs: Sequence[Out], replies: Out,
        undetermined: Optional[Undetermined] = None) -> int:
    """Serves a script over ports; the number of refusals. Raises `Fault`."""
    session = Session(config, inputs, outputs, replies, undetermined)
    for line in script_lines(script, config.script_bytes_max):
        session.serve(line)
    session.finish()
    return session.refused


FAULT_STATUS = {"size": 2, "read": 3, "write": 4, "memory": 5}
PROGRAM_NAMES = {HOSTED: "dsp_console", MIXED: "mixed_console", GATEWAY_SET: "gateway_console"}
FAULT_TEXT = {
    "ports": "ports come in pairs, 1 to 16",
    "utf8": "an argument isn't UTF-8",
    "size": "a space is 0 to 65536 words, a multiple of 4",
    "read": "read failed",
    "write": "write failed",
    "memory": "out of memory",
}


def status_line(cause: str, kinds: str = HOSTED) -> str:
    """The line on the standard error by which the program of a set of kinds says why it ended."""
    return f"{PROGRAM_NAMES[kinds]}: {FAULT_TEXT[cause]}"


class Served(NamedTuple):
    """The result of a run over whole inputs."""

    replies: bytes
    outputs: list[bytes]
    refused: int
    status: int


def serve_with_undetermined(config: Config, script: bytes, inputs: Sequence[bytes]) -> tuple[Served, Undetermined]:
    """A run over whole inputs, and what of its result isn't determined."""
    tapes = [TapeOut() for _ in inputs]
    replies, undetermined = TapeOut(), Undetermined()
    try:
        refused = run(config, TapeIn(script), [TapeIn(data) for data in inputs], tapes, replies, undetermined)
        status = 1 if refused else 0
    except Fault as fault:
        refused, status = 0, FAULT_STATUS[fault.cause]
    return Served(replies.held, [tape.held for tape in tapes], refused, status), undetermined


def serve(config: Config, script: bytes, inputs: Sequence[bytes]) -> Served:
    """The result of a run over whole inputs."""
    return serve_with_undetermined(config, script, inputs)[0]
