# SPDX-License-Identifier: Apache-2.0
"""Scripts turned into calls of `rokdaum.Host`, which answer as `dsp_console` answers the lines, beside the independent model."""

from __future__ import annotations

import random
from collections import Counter
from collections.abc import Sequence

import library_case  # noqa: F401  (it puts the package and the model on the path)
import numpy as np
from rokdaum_model.console import Config
from rokdaum_model.random_scripts import RandomCase, random_case
from rokdaum_model.script import words_of
from rokdaum_model.sets import HOSTED

from rokdaum import Host
from rokdaum.errors import BadLength, BadSize, Refused

NAMES = {3: "range", 4: "taken", 5: "missing", 6: "params", 7: "room", 8: "busy", 9: "command"}
# What only a line of a script can be refused for.
OF_LINES = ("no 1 long", "no 2 syntax")
LONGEST_FEED = 1024


class Short(Exception):
    """An input has fewer samples left than a feed asks for."""


class Calls:
    """A host with an input for each channel. `given` has the blocks that each channel gave."""

    def __init__(self, host: Host, inputs: Sequence[np.ndarray]) -> None:
        self.host, self.inputs = host, list(inputs)
        self.given: list[list[np.ndarray]] = [[] for _ in inputs]

    def reply(self, verb: str, words: Sequence[int | str]) -> str:
        """Makes the call that a line of a script stands for; what dsp_console would answer."""
        try:
            return " ".join(["ok", *map(str, getattr(self, verb)(*words))])
        except BadLength:
            return "no 3 range"
        except Refused as why:
            return f"no {why.code} {NAMES[why.code]}"
        except Short:
            return "no 10 short"

    def create(self, number: int, kind: str, group: int, *words: int) -> Sequence:
        self.host.create(kind, group, words, number)
        return ()

    def control(self, number: int, what: str, *words: int) -> Sequence:
        one = self.host.instance(number)
        if what == "get":
            return one.get().tolist()
        one.set(words) if what == "set" else one.reset()
        return ()

    def delete(self, number: int) -> Sequence:
        self.host.instance(number).delete()
        return ()

    def chain(self, channel: int, *members: int) -> Sequence:
        self.host.chain(*members, channel=channel)
        return ()

    def unchain(self, channel: int) -> Sequence:
        self.host.line(channel).unchain()
        return ()

    def feed(self, channel: int, count: int) -> Sequence:
        line = self.host.line(channel)
        block, self.inputs[channel] = self.inputs[channel][:count], self.inputs[channel][count:]
        if len(block) < count:
            raise Short
        self.given[channel].append(line.feed(block))
        return (len(self.given[channel][-1]),)

    def step(self, space: str) -> Sequence:
        return (int(self.host.step(space)),)

    def compact(self, space: str) -> Sequence:
        return (self.host.compact(space),)

    def map(self, space: str) -> Sequence:
        return [f"{it.owner}@{it.place}+{it.size}" for it in self.host.map(space).blocks]

    def release(self, group: int) -> Sequence:
        return (int(self.host.release(group)),)

    def stat(self, group: int) -> Sequence:
        found = self.host.stat(group)
        return ("-" if found.active is None else found.active, found.activations)


def agrees(reply: str, wanted: str, verb: str) -> bool:
    """Whether a call answers what the line is answered. `set` looks for the instance before it looks at the words, a line the other way round."""
    return reply == wanted or (verb, wanted, reply) == ("control", "no 3 range", "no 5 missing")


def samples_of(config: Config, channel: int, data: bytes) -> np.ndarray:
    """The samples of an input's bytes."""
    return np.frombuffer(data, np.uint8) if config.in8 >> channel & 1 else np.frombuffer(data[: len(data) // 2 * 2], "<i2")


def bytes_of(config: Config, channel: int, blocks: Sequence[np.ndarray]) -> bytes:
    """The bytes of an output's blocks."""
    return b"".join((it & 255).astype(np.uint8).tobytes() if config.out8 >> channel & 1 else it.astype("<i2").tobytes() for it in blocks)


def differences(made: RandomCase, counted: Counter[str]) -> list[str]:
    """What calls answer otherwise than the model. `counted` counts what was called, and what was refused."""
    config = made.config
    try:
        host = Host(config.daram, config.saram, config.external, len(made.inputs), config.poison)
    except BadSize:
        return [] if made.served.status == 2 else ["the sizes are refused"]
    found = []
    with host:
        calls = Calls(host, [samples_of(config, channel, data) for channel, data in enumerate(made.inputs)])
        for line, wanted in zip(made.script.lines, made.script.answers):
            if wanted is None or wanted in OF_LINES:
                continue
            verb, *texts = [word.decode() for word in words_of(line)]
            words: list[int | str] = [int(it) if it.lstrip("-").isdigit() else it for it in texts]
            if verb == "feed" and not 1 <= int(texts[1]) <= LONGEST_FEED:
                continue  # a call takes any number of samples
            reply = calls.reply(verb, words)
            counted.update([verb, "refused" if reply.startswith("no") else "granted"])
            if verb == "create" and reply == "ok":
                counted[texts[1]] += 1
            if not agrees(reply, wanted, verb):
                found.append(f"{line!r}: {reply}, and the model says {wanted}")
        for channel, data in enumerate(made.served.outputs):
            if bytes_of(config, channel, calls.given[channel]) != data:
                found.append(f"the output of channel {channel}")
    return found + (["the sizes aren't refused"] if made.served.status == 2 else [])


def random_differences(seed: str, cases: int, kinds: str = HOSTED) -> tuple[list[str], Counter[str]]:
    """What calls answer otherwise than the model over random scripts of a set of kinds, and how many calls of each sort were made."""
    counted: Counter[str] = Counter()
    found = [f"case {seed}/{number}: {text}" for number in range(cases) for text in differences(random_case(random.Random(f"{seed}/{number}"), kinds), counted)]
    return found, counted
