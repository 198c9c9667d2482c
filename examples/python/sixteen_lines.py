#!/usr/bin/python3
# SPDX-License-Identifier: Apache-2.0
"""The memory of sixteen lines, a FIR filter of 64 coefficients each: a scratch group for every two lines, and one group for all.

    sixteen_lines.py [PICTURE]      draws both over time, in a file that ends in .svg, .png or .pdf
"""

from __future__ import annotations

import sys
from pathlib import Path

sys.path.insert(0, str(Path(__file__).resolve().parents[2] / "python"))

import numpy as np  # noqa: E402  (the package's folder has to be on the path first)
import rokdaum  # noqa: E402

LINES, GROUPS, TAPS = 16, 8, 64


def run(groups: int) -> tuple[rokdaum.maps.History, int, np.ndarray]:
    """Opens sixteen lines over some groups and feeds each 20 ms: the history of memory, the activations, and what the lines gave."""
    given = np.random.default_rng(1).integers(-8000, 8001, (LINES, 160)).astype(np.int16)
    with rokdaum.Host() as host:
        history, lines = rokdaum.maps.History(host.sizes), []
        for number in range(LINES):
            fir = host.create("fir", number % groups, [512 - 8 * number] * TAPS)
            lines.append(host.chain(fir))
            history.moments.append(host.moment(number + 1, f"line {number}"))
        out = np.array([line.feed(block) for line, block in zip(lines, given)])
        history.last = LINES
        return history, sum(host.stat(group).activations for group in range(GROUPS)), out


def draw(path: str, histories: list[rokdaum.maps.History]) -> None:
    """Draws the scratch memory of runs beside each other, with the same scale."""
    axes = rokdaum.plot.new_axes()
    both = axes.figure.subplots(1, len(histories), sharey=True)
    axes.remove()
    for one, history, title in zip(both, histories, ("a group for every two lines", "one group for all")):
        rokdaum.plot.memory(history, "daram", one)
        used = history.moments[-1].maps["daram"].used
        one.set(xlabel="lines that are open", title=f"{title}: {used:,} words of daram")
    both[1].set_ylabel("")
    both[0].set_ylim(0, 1.05 * max(history.moments[-1].maps["daram"].used for history in histories))
    rokdaum.plot.save(both[0], path)


def main(files: list[str]) -> int:
    """Prints what both take, and draws them."""
    try:
        runs = [run(groups) for groups in (GROUPS, 1)]
        if files:
            draw(files[0], [history for history, _, _ in runs])
    except rokdaum.RokdaumError as why:
        print(f"sixteen_lines.py: {why}", file=sys.stderr)
        return 1
    for groups, (history, activations, _) in zip((GROUPS, 1), runs):
        used = {space: history.moments[-1].maps[space].used for space in rokdaum.maps.SPACES}
        print(f"{groups} scratch group{'s' if groups > 1 else ''}: {used['daram']} words of daram, {used['saram']} of saram, {used['external']} of external, {activations} activations")
    print("the outputs are the same" if (runs[0][2] == runs[1][2]).all() else "the outputs differ")
    return 0


if __name__ == "__main__":
    sys.exit(main(sys.argv[1:]))
