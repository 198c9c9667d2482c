# SPDX-License-Identifier: Apache-2.0
"""The eight loads by which programs are compared: a script each, with its inputs, the same bytes at each making."""
from __future__ import annotations

import random
import struct
from collections.abc import Callable, Iterable
from dataclasses import dataclass
from pathlib import Path

FEED = 256
CHANNELS, INSTANCES = 16, 64
# A block of noise is so long at most, and is then repeated: a prime, so that no load falls into step with it.
NOISE_LENGTH = 65521
# Of `creations`: so many live at a time, and after so many pairs each space is compacted.
LIVING, PAIRS_A_COMPACTION = 40, 16


@dataclass(frozen=True)
class Load:
    """A run of the program: what it does, in how many units, and all that it is given."""

    name: str
    what: str
    unit: str
    units: int
    script: str
    inputs: tuple[bytes, ...]
    options: tuple[str, ...] = ()

    @property
    def arguments(self) -> list[str]:
        """The words of the command line, in the folder that `write` fills."""
        ports = [word for c in range(len(self.inputs)) for word in (f"in{c}", f"out{c}")]
        return [*self.options, "script", *ports]

    def write(self, folder: Path) -> None:
        """Puts the script and the inputs into a folder."""
        (folder / "script").write_text(self.script)
        for channel, data in enumerate(self.inputs):
            (folder / f"in{channel}").write_bytes(data)


def noise(seed: int, count: int, amplitude: int) -> bytes:
    """Samples of even distribution, as the bytes of a file."""
    source = random.Random(seed)
    block = [source.randint(-amplitude, amplitude) for _ in range(min(count, NOISE_LENGTH))]
    data = struct.pack(f"<{len(block)}h", *block)
    return (data * (2 * count // max(len(data), 1) + 1))[: 2 * count]


def coefficients(seed: int, count: int, magnitudes: int) -> str:
    """Random coefficients whose magnitudes come to about so much: up to 32,767 no sum of theirs can saturate."""
    source = random.Random(seed)
    raw = [source.uniform(-1, 1) for _ in range(count)]
    factor = magnitudes / sum(abs(v) for v in raw)
    return " ".join(str(max(-32768, min(32767, int(v * factor)))) for v in raw)


def feeds(channels: int, count: int) -> str:
    """Feeds of 256 samples, all channels by turns, until each has had so many samples."""
    whole = "".join(f"feed {c} {FEED}\n" for c in range(channels)) * (count // FEED)
    return whole + "".join(f"feed {c} {count % FEED}\n" for c in range(channels) if count % FEED)


def scaled(count: int, scale: float) -> int:
    return max(1, int(count * scale))


def fir(scale: float) -> Load:
    """Coefficients of which no sum can saturate."""
    n = scaled(4_000_000, scale)
    script = f"create 0 fir 0 {coefficients(1, 64, 32000)}\nchain 0 0\n{feeds(1, n)}"
    return Load("fir", "a FIR of 64 taps of which no sum can saturate", "sample", n, script, (noise(1, n, 32000),))


def fir_loud(scale: float) -> Load:
    """Large coefficients over full-scale noise: sums do saturate."""
    n = scaled(4_000_000, scale)
    script = f"create 0 fir 0 {coefficients(1, 64, 900000)}\nchain 0 0\n{feeds(1, n)}"
    return Load("fir_loud", "a FIR of 64 taps whose sums saturate", "sample", n, script, (noise(1, n, 32767),))


def sixteen_lines(scale: float) -> Load:
    """Sixteen channels of three instances, two channels a group."""
    n, script = scaled(1_000_000, scale), ""
    for c in range(CHANNELS):
        first, group = 3 * c, c % 8
        script += f"create {first} fir {group} {coefficients(c, 64, 32000)}\ncreate {first + 1} biquad {group} 8192 4096 2048 -8192 4096\n"
        script += f"create {first + 2} g711 {group} 1 0\nchain {c} {first} {first + 1} {first + 2}\n"
    inputs = tuple(noise(c, n, 20000) for c in range(CHANNELS))
    return Load("sixteen_lines", "16 channels of a FIR of 64 taps, a biquad and a mu-law encoder", "sample", CHANNELS * n, script + feeds(CHANNELS, n), inputs)


def decoder(scale: float) -> Load:
    """Codes of mu-law, which stand in words."""
    n = scaled(16_000_000, scale)
    return Load("decoder", "a mu-law decoder", "sample", n, f"create 0 g711 0 1 1\nchain 0 0\n{feeds(1, n)}", (noise(3, n, 32767),))


def by_turns(scale: float) -> Load:
    """64 filters of one group, and feeds of one sample: each feed activates four of them anew."""
    rounds = scaled(200_000 // CHANNELS, scale)
    script = "".join(f"create {i} fir 0 {coefficients(i, 16, 32000)}\n" for i in range(INSTANCES))
    script += "".join(f"chain {c} {' '.join(str(c + CHANNELS * k) for k in range(4))}\n" for c in range(CHANNELS))
    script += "".join(f"feed {c} 1\n" for c in range(CHANNELS)) * rounds
    inputs = tuple(noise(c, rounds, 20000) for c in range(CHANNELS))
    return Load("by_turns", "feeds of one sample by turns, through 4 FIRs of 16 taps of one group", "feed", CHANNELS * rounds, script, inputs)


def lines(scale: float) -> Load:
    """The least that a line can ask."""
    n = scaled(300_000, scale)
    return Load("lines", "lines `stat 0`", "line", n, "stat 0\n" * n, (b"",))


def texts_of_creations(source: random.Random, count: int) -> list[str]:
    """Creations of mixed kinds without the instance's number, with `{g}` for the group."""

    def one() -> str:
        kind, seed = source.randrange(5), source.randrange(1 << 30)
        if kind == 0:
            return f"fir {{g}} {coefficients(seed, source.choice((1, 2, 8, 33, 64)), 30000)}"
        if kind == 1:
            return f"decim {{g}} {source.randint(1, 16)} {coefficients(seed, source.choice((1, 4, 17, 64)), 30000)}"
        if kind == 2:
            return "biquad {g} 8192 0 0 -4096 0"
        if kind == 3:
            return "tone {g} 16384 205 4"
        return f"g711 {{g}} {source.randint(0, 1)} {source.randint(0, 1)}"

    return [one() for _ in range(count)]


def creations(scale: float) -> Load:
    """Instances come and go: about 40 live, of mixed kinds in 8 groups, and each space is compacted now and then."""
    n, source = scaled(100_000, scale), random.Random(6)
    texts = texts_of_creations(source, 512)
    living: list[int] = []
    script: list[str] = []
    for pair in range(n):
        number = source.choice(sorted(set(range(INSTANCES)) - set(living)))
        script.append(f"create {number} {texts[pair % len(texts)].format(g=source.randint(0, 7))}\n")
        living.append(number)
        if len(living) > LIVING:
            script.append(f"delete {living.pop(source.randrange(len(living)))}\n")
        if pair % PAIRS_A_COMPACTION == PAIRS_A_COMPACTION - 1:
            script.append("compact daram\ncompact saram\ncompact external\n")
    script += [f"delete {i}\n" for i in living]
    return Load("creations", "a creation and a deletion beside some 40 instances, with compactions", "pair", n, "".join(script), (b"",))


def decimator_and_tone(scale: float) -> Load:
    """One tone of a band that was sampled too often."""
    n = scaled(4_000_000, scale)
    script = f"create 0 decim 0 8 {coefficients(7, 64, 32000)}\ncreate 1 tone 0 27980 205 7\nchain 0 0 1\n{feeds(1, n)}"
    return Load("decimator_and_tone", "a decimator by 8 of 64 taps and a tone detector", "sample", n, script, (noise(7, n, 20000),))


MAKERS: dict[str, Callable[[float], Load]] = {
    it.__name__: it for it in (fir, fir_loud, sixteen_lines, decoder, by_turns, lines, creations, decimator_and_tone)
}


def loads(names: Iterable[str], scale: float) -> Iterable[Load]:
    """The loads of these names, one after the other: `scale` 1 has millions of samples."""
    for name in names:
        yield MAKERS[name](scale)
