# SPDX-License-Identifier: Apache-2.0
"""The channels of the example: 64, each with an input, filters and a length of its own, so that no two may be mistaken for each other."""
from __future__ import annotations

import random
from pathlib import Path

CHANNELS, A_JOB = 64, 16
RATE, BLOCK = 8000, 160
# A channel is a FIR, a second-order section and a coder of mu-law.
MEMBERS = 3
GROUPS = 8


def samples(channel: int, seconds: float) -> bytes:
    """A channel's input: noise of its own, of a length of its own."""
    return random.Random(channel).randbytes(2 * (round(seconds * RATE) + 37 * channel))


def set_up(channel: int, port: int) -> list[str]:
    """The lines that make a channel the one of this number in a process."""
    chance = random.Random(f"filters of {channel}")
    taps = [chance.randint(-900, 900) for _ in range(8 + channel % 25)]
    first = MEMBERS * port
    return [
        f"create {first} fir {port % GROUPS} {' '.join(map(str, taps))}",
        f"create {first + 1} biquad {port % GROUPS} 4096 {-64 * channel} 4096 {-16000 + 400 * channel} 8000",
        f"create {first + 2} g711 {port % GROUPS} {channel % 2} 0",
        f"chain {port} {first} {first + 1} {first + 2}",
    ]


def script(inputs: dict[int, int]) -> str:
    """A script for the channels of one process: by the number of each, how many samples its input has. Feeds of 20 ms take turns."""
    ports = list(enumerate(inputs.items()))
    lines = [line for port, (channel, _) in ports for line in set_up(channel, port)]
    for done in range(0, max(inputs.values()), BLOCK):
        lines += [f"feed {port} {min(BLOCK, count - done)}" for port, (_, count) in ports if count > done]
    return "\n".join(lines) + "\n"


def write_job(folder: Path, channels: range, seconds: float) -> None:
    """Makes the folder of one process."""
    folder.mkdir(parents=True)
    inputs = {}
    for port, channel in enumerate(channels):
        heard = samples(channel, seconds)
        (folder / f"in{port}.raw").write_bytes(heard)
        inputs[channel] = len(heard) // 2
    (folder / "script").write_text(script(inputs))


def write_jobs(folder: Path, seconds: float) -> None:
    """Makes the folders job0, job1, .. of all channels."""
    for job in range(CHANNELS // A_JOB):
        write_job(folder / f"job{job}", range(A_JOB * job, A_JOB * (job + 1)), seconds)
