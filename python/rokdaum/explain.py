# SPDX-License-Identifier: Apache-2.0
"""What a refused line needs, in a sentence, and what is odd about a line that was accepted.

The program answers a refusal by a number and a name. What is wrong follows from the line and from what was accepted before it.
"""

from __future__ import annotations

import difflib
import re
from collections.abc import Callable, Sequence
from dataclasses import dataclass, field

LONGEST_LINE = 1024
LONGEST_FEED = 1024
# The kinds of dsp_console, and those that gateway_console and the C library have beside them.
KINDS = ("fir", "decim", "biquad", "tone", "g711")
GATEWAY_KINDS = ("gain", "level", "dtmf", "echo", "adpcm", "signal", "activity")
SPACES = ("daram", "saram", "external")
FORMS = {
    "create": "create I KIND G W ..",
    "control": "control I set W .., control I reset, control I get",
    "delete": "delete I",
    "chain": "chain C I ..",
    "unchain": "unchain C",
    "feed": "feed C N",
    "compact": "compact SPACE",
    "step": "step SPACE",
    "release": "release G",
    "stat": "stat G",
    "map": "map SPACE",
}
PARAMETERS = {
    "fir": "1 to 64 coefficients in Q15",
    "decim": "M, 1 to 16, and then 1 to 64 coefficients in Q15",
    "biquad": "the five words b0 b1 b2 a1 a2 in Q14",
    "tone": "k, N (1 to 1024) and s (0 to 15)",
    "g711": "the law (0 A, 1 mu) and the direction (0 encodes, 1 decodes)",
    "gain": "one word, the factor in Q12",
    "level": "N (1 to 1024) and s (0 to 15)",
    "dtmf": "N (1 to 127), s (0 to 14), the threshold, the limits of twist down and up, the dominance and the share",
    "echo": "N (1 to 256), the step in Q15, the share in Q15 and the pairs of a hold",
    "adpcm": "the kbit/s (16, 24, 32 or 40) and the direction (0 encodes, 1 decodes)",
    "signal": "the seven words k1 s1 k2 s2 on off count",
    "activity": "N (1 to 1024), s, the margin and the rise (0 to 15 each), the least floor and the frames of the hangover",
}
SET_TAKES = {"fir": "as many coefficients as it has", "biquad": "five words", "tone": "one word, k", "gain": "one word, the factor"}
# Where the words of a kind that divides have the samples that it takes for one that it gives.
DIVISOR_AT = {"decim": 0, "tone": 1, "level": 0, "dtmf": 0, "activity": 0}
# A kind that takes samples by pairs.
PAIRS = ("echo",)


@dataclass(frozen=True)
class Instance:
    """An instance that was accepted: its kind, its group and its parameters."""

    kind: str
    group: int
    words: tuple[int, ...]

    @property
    def divides_by(self) -> int:
        """How many samples it takes for one that it gives: M of a decimator, N of a detector or a meter, 2 of an echo canceller, else 1."""
        if self.kind in PAIRS:
            return 2
        return self.words[DIVISOR_AT[self.kind]] if self.kind in DIVISOR_AT else 1


@dataclass
class Circuit:
    """The instances and channels that the accepted lines have made, and where creations were refused."""

    instances: dict[int, Instance] = field(default_factory=dict)
    channels: dict[int, tuple[int, ...]] = field(default_factory=dict)
    refused: dict[int, str] = field(default_factory=dict)
    unmade: dict[int, str] = field(default_factory=dict)
    divided: dict[int, set[int]] = field(default_factory=dict)

    def follow(self, words: Sequence[str], reply: str, where: str) -> None:
        """Takes note of a line and its reply. `where` is what the line is called."""
        accepted = reply.split()[:1] == ["ok"]
        if not words:
            return
        if words[0] == "create" and len(words) >= 4 and is_number(words[1]):
            number = int(words[1])
            if accepted:
                self.instances[number] = Instance(words[2], int(words[3]), tuple(int(it) for it in words[4:]))
                self.refused.pop(number, None)
            elif number not in self.instances:
                self.refused[number] = where
        elif words[0] == "chain" and len(words) >= 3 and is_number(words[1]):
            if accepted:
                self.channels[int(words[1])] = tuple(int(it) for it in words[2:])
            else:
                self.unmade[int(words[1])] = where
        elif accepted and words[0] == "unchain":
            self.channels.pop(int(words[1]), None)
        elif accepted and words[0] == "delete":
            self.instances.pop(int(words[1]), None)
        elif accepted and words[0] == "feed":
            channel = int(words[1])
            self.divided.setdefault(channel, set()).add(self.divides_by(channel))

    def members(self, channel: int) -> list[Instance]:
        """The instances that a channel goes through, in order."""
        return [self.instances[it] for it in self.channels.get(channel, ()) if it in self.instances]

    def divides_by(self, channel: int) -> int:
        """How many samples a channel takes for one that it gives."""
        product = 1
        for member in self.members(channel):
            product *= member.divides_by
        return product


def is_number(word: str) -> bool:
    """Whether a word is a number of a script: digits, a `-` before them where it is negative."""
    return re.fullmatch(r"-?[0-9]+", word) is not None


def odd_word(word: str) -> str:
    """What is wrong with a word that stands where a number should, or nothing."""
    if is_number(word):
        return ""
    if re.fullmatch(r"\+[0-9]+", word):
        return f"write {word[1:]} for {word}: a number has no + before it"
    try:
        value = float(word)
    except ValueError:
        return f"{word} is no number"
    if not abs(value) < 1e6:
        return f"{word} is no whole number"
    return (
        f"{word} is no whole number. A coefficient in Q15 is 32768 times its value, here {round(value * 32768)}; "
        f"one of a biquad, in Q14, is 16384 times its value, here {round(value * 16384)}"
    )


def nearest(word: str, known: Sequence[str]) -> str:
    """A question for the known word that is meant, or the list of them."""
    close = [word.lower()] if word.lower() in known else difflib.get_close_matches(word.lower(), known, 1)
    return f"write {close[0]}, in lower case" if close and close[0] == word.lower() else f"is it {close[0]}?" if close else "it is one of " + ", ".join(known)


def why_syntax(words: Sequence[str], circuit: Circuit) -> str:
    """What makes a line none of the commands."""
    if words[0] not in FORMS:
        return f"no command is named {words[0]}: {nearest(words[0], tuple(FORMS))}"
    form = f"a line is {FORMS[words[0]]}"
    if words[0] in ("compact", "step", "map"):
        return f"no space is named {words[1]}: {nearest(words[1], SPACES)}" if len(words) == 2 else form
    if words[0] == "create" and len(words) > 2 and words[2] in GATEWAY_KINDS:
        return f"dsp_console has no {words[2]}: gateway_console and rokdaum.Host have one"
    if words[0] == "create" and len(words) > 2 and words[2] not in KINDS and not is_number(words[2]):
        return f"no kind is named {words[2]}: {nearest(words[2], KINDS)}"
    numbers = [*words[1:2], *words[3:]] if words[0] in ("create", "control") else words[1:]
    for word in numbers:
        if wrong := odd_word(word):
            return wrong
    return form


def why_range(words: Sequence[str], circuit: Circuit) -> str:
    """Which number of a line isn't in its range."""
    command, first = words[0], int(words[1])
    top = {"feed": "", "chain": "", "unchain": "", "release": "group", "stat": "group"}.get(command, "instance")
    if command == "feed" and not 1 <= int(words[2]) <= LONGEST_FEED:
        return f"a feed has 1 to {LONGEST_FEED} samples, and `feed {first} all` has as many as are left, block by block"
    if top and not 0 <= first <= (7 if top == "group" else 63):
        return f"{'a group is 0 to 7' if top == 'group' else 'an instance is 0 to 63'}, and {first} isn't"
    if command == "create" and not 0 <= int(words[3]) <= 7:
        return f"a group is 0 to 7, and {words[3]} isn't"
    if command in ("create", "control"):
        given = [int(it) for it in (words[4:] if command == "create" else words[3:])]
        for value in given:
            if not -32768 <= value <= 32767:
                near = f", and in Q14 it would be {value / 16384:.2f}, where a biquad takes -2 to just below 2: halve b0, b1 and b2, or let dsp_design scale the section" if abs(value) < 65536 else ""
                return f"a word is -32768 to 32767, and {value} isn't{near}"
        return f"a line has at most 72 words, and here are {len(given)}"
    if command == "chain" and len(words) > 10:
        return f"a channel has 1 to 8 members, and here are {len(words) - 2}"
    return f"there is no channel {first}: channel 0 is the first pair IN OUT, channel 1 the second, up to 15"


def why_missing(words: Sequence[str], circuit: Circuit) -> str:
    """Which instance or members aren't there, and where they were refused."""
    first = int(words[1])
    if words[0] in ("feed", "unchain"):
        if first in circuit.unmade:
            return f"channel {first} has no members: the chain of {circuit.unmade[first]} was refused"
        return f"channel {first} has no members: chain {first} I .. gives it some"
    wanted = [int(it) for it in words[2:]] if words[0] == "chain" else [first]
    for number in wanted:
        if number not in circuit.instances:
            refused = circuit.refused.get(number)
            return f"instance {number} isn't there: " + (f"its creation in {refused} was refused" if refused else "no line before has created it")
    return ""


def why_taken(words: Sequence[str], circuit: Circuit) -> str:
    """What is there already."""
    if words[0] == "chain":
        return f"channel {words[1]} has members: unchain {words[1]} comes first"
    return f"instance {words[1]} is there: take another number, or delete {words[1]} first"


def why_busy(words: Sequence[str], circuit: Circuit) -> str:
    """Which channel an instance is in."""
    wanted = [int(it) for it in words[2:]] if words[0] == "chain" else [int(words[1])]
    for number in wanted:
        for channel, members in circuit.channels.items():
            if number in members:
                return f"instance {number} is in channel {channel}: unchain {channel} comes first"
    return "an instance is named twice"


def why_room(words: Sequence[str], circuit: Circuit) -> str:
    """What a creation without room can do."""
    return (
        "no gap is large enough for its memory: `map daram`, `map saram` and `map external` show where it is full, `compact` joins gaps, "
        "a larger --daram, --saram or --external (at most 65536) gives more, and so does creating the largest member of a group first"
    )


def why_command(words: Sequence[str], circuit: Circuit) -> str:
    """Which control an instance takes."""
    instance = circuit.instances.get(int(words[1]))
    if instance is None or instance.kind not in SET_TAKES:
        return "`set` isn't taken by a decimator, a coder, a meter or a detector of digits: create another one"
    return f"`set` of a {instance.kind} takes {SET_TAKES[instance.kind]}, and here are {len(words) - 3}"


def why_params(words: Sequence[str], circuit: Circuit) -> str:
    """Which parameters a kind takes."""
    return f"a {words[2]} takes {PARAMETERS.get(words[2], 'others')}"


def why_long(words: Sequence[str], circuit: Circuit) -> str:
    """How long a line may be."""
    return f"a line has at most {LONGEST_LINE} bytes"


def why_short(words: Sequence[str], circuit: Circuit) -> str:
    """How to feed what is left."""
    return f"the input had fewer samples left, and they are used up: `feed {words[1]} all` feeds what is left"


WHY: dict[str, Callable[[Sequence[str], Circuit], str]] = {
    "long": why_long,
    "syntax": why_syntax,
    "range": why_range,
    "taken": why_taken,
    "missing": why_missing,
    "params": why_params,
    "room": why_room,
    "busy": why_busy,
    "command": why_command,
    "short": why_short,
}


def hint(words: Sequence[str], reply: str, circuit: Circuit) -> str:
    """What a refused line needs, in a sentence, or nothing where nothing is known. Never raises: the reply stands on its own."""
    name = reply.split()[-1] if reply.split() else ""
    try:
        return WHY[name](words, circuit)
    except (KeyError, IndexError, ValueError):
        return ""


def notes_on_channel(circuit: Circuit, channel: int, reads_bytes: bool, writes_bytes: bool) -> list[str]:
    """What is odd about the ports of a channel that is fed: codes of G.711 in files of words."""
    members = circuit.members(channel)
    found = []
    if members and members[0].kind == "g711" and members[0].words[1:] == (1,) and not reads_bytes:
        found.append(f"channel {channel} begins with a decoder and reads words of 16 bits: for a file of codes, a byte each, say --in8={1 << channel}")
    if members and members[-1].kind == "g711" and members[-1].words[1:] == (0,) and not writes_bytes:
        found.append(f"channel {channel} ends with a coder and writes words of 16 bits: for a file of codes, a byte each, say --out8={1 << channel}")
    return found
