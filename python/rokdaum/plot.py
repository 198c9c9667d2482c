# SPDX-License-Identifier: Apache-2.0
"""Pictures of memory over a run, of responses, of sounds, and of the levels of tones. matplotlib draws them.

Each function draws on `axes`, or on axes of its own, and returns them; `save` writes their figure by the ending of its name (.png, .svg, .pdf).
"""

from __future__ import annotations

import os
from collections.abc import Sequence
from pathlib import Path
from typing import TYPE_CHECKING

import numpy as np

from .design import Biquads, Fir, decibels
from .errors import MissingPackage, OutOfRange
from .maps import Block, History

FULL_SCALE = 32768.0
# Below this a spectrogram is black, and a designed gain is no longer compared; in dB.
FAINTEST, QUIETEST = -90.0, -60.0
COLUMNS = 1200
LABEL = {"facecolor": "white", "alpha": 0.75, "linewidth": 0, "pad": 1}
# The samples that a spectrogram takes at least.
FEWEST = 4

if TYPE_CHECKING:
    from matplotlib.axes import Axes


def new_axes() -> Axes:
    """Axes of a figure that no window shows. Raises MissingPackage where matplotlib isn't installed."""
    try:
        from matplotlib.backends.backend_agg import FigureCanvasAgg
        from matplotlib.figure import Figure
    except ImportError:
        raise MissingPackage("matplotlib") from None
    figure = Figure(figsize=(10, 5), layout="constrained")
    FigureCanvasAgg(figure)
    return figure.add_subplot()


def save(axes: Axes, path: str | os.PathLike[str]) -> None:
    """Writes the figure of axes to a file, whole. Raises OutOfRange for an ending that matplotlib doesn't know."""
    target = Path(path)
    part = target.with_name(f".{target.stem}.{os.getpid()}{target.suffix}")
    try:
        axes.figure.savefig(part)
        os.replace(part, target)
    except ValueError as why:
        raise OutOfRange(f"{target}: {why}") from None
    finally:
        part.unlink(missing_ok=True)


def response(made: Biquads | Fir, axes: Axes | None = None) -> Axes:
    """The gain of the words, in dB over Hz up to half of the rate, over the designed one, which is drawn broad so that both are seen."""
    axes = axes or new_axes()
    frequencies = np.linspace(made.rate / 4096, made.rate / 2, 2048)
    axes.plot(frequencies, decibels(made.designed_response(frequencies)), label="designed", linewidth=5, alpha=0.35, color="C1")
    axes.plot(frequencies, decibels(made.response(frequencies)), label="rounded words", linewidth=1.2, color="C0")
    axes.set(xlabel="Hz", ylabel="gain, dB", ylim=(-100, 10), xlim=(0, made.rate / 2))
    axes.grid(alpha=0.3)
    axes.legend()
    return axes


def difference(made: Biquads | Fir, axes: Axes | None = None) -> Axes:
    """By how much the gain of the words is above the designed one, in dB over Hz, where the designed one is above -60 dB."""
    axes = axes or new_axes()
    frequencies = np.linspace(made.rate / 4096, made.rate / 2, 2048)
    designed = decibels(made.designed_response(frequencies))
    off = np.where(designed > QUIETEST, decibels(made.response(frequencies)) - designed, np.nan)
    axes.plot(frequencies, off, color="C0")
    reach = max(0.1, 1.2 * float(np.nanmax(np.abs(off), initial=0.0)))
    axes.set(xlabel="Hz", ylabel="difference, dB", ylim=(-reach, reach), xlim=(0, made.rate / 2))
    axes.grid(alpha=0.3)
    axes.axhline(0, color="C1", linewidth=1)
    return axes


def design(made: Biquads | Fir) -> Axes:
    """The response, and below it the difference of the words from it. These are the axes of the response."""
    upper, lower = below(new_axes())
    response(made, upper)
    upper.set(xlabel="")
    difference(made, lower)
    return upper


def below(axes: Axes, heights: tuple[float, float] = (2.0, 1.0)) -> tuple[Axes, Axes]:
    """Two axes above each other, with one abscissa, in the figure of axes that go away."""
    figure = axes.figure
    axes.remove()
    upper, lower = figure.subplots(2, 1, sharex=True, height_ratios=heights)
    return upper, lower


def spectrogram(samples: np.ndarray, rate: float, axes: Axes | None = None, title: str = "", beside: Sequence[Axes] | None = None) -> Axes:
    """The power of samples over time and frequency, in dB below a sine of full scale. `samples` has shape (samples,).

    Each segment of some 32 ms is shown where its middle is. The scale stands beside the axes `beside`, its own where nothing is said, or nowhere where
    there are none of them. Raises OutOfRange where there are fewer than four samples.
    """
    given = np.asarray(samples, np.float64)
    if given.ndim != 1 or len(given) < FEWEST:
        raise OutOfRange(f"a spectrogram takes samples of shape (samples,), four of them or more, and these have {given.shape}")
    axes = axes or new_axes()
    size = min(1 << max(int(rate * 0.032) - 1, 15).bit_length(), 1 << (len(given).bit_length() - 1))
    hop = max(size // 4, -(-(len(given) - size) // COLUMNS))
    at = np.arange(0, len(given) - size + 1, max(hop, 1))
    window = np.hanning(size + 2)[1:-1]
    columns = [np.abs(np.fft.rfft(given[first : first + size] * window)) * 2 / window.sum() / FULL_SCALE for first in at]
    power = np.maximum(20 * np.log10(np.maximum(np.array(columns).T, 1e-9)), FAINTEST)
    edge = hop / rate / 2
    reach = (at[0] + size / 2) / rate - edge, (at[-1] + size / 2) / rate + edge
    shown = axes.imshow(power, origin="lower", aspect="auto", extent=(*reach, 0, rate / 2), vmin=FAINTEST, vmax=0, cmap="magma", interpolation="nearest")
    axes.set(xlabel="s", ylabel="Hz", xlim=(0, len(given) / rate), title=title, facecolor="black")
    if scaled := [axes] if beside is None else list(beside):
        axes.figure.colorbar(shown, ax=scaled, label="dB of full scale", pad=0.01)
    return axes


def spectrograms(rows: Sequence[Sequence[tuple[str, np.ndarray, float]]], axes: Axes | None = None) -> Axes:
    """Spectrograms of (title, samples, rate) side by side, a row for each channel, on one scale of frequency and of time: what went in, and what came out."""
    sounds = [it for row in rows for it in row]
    if not sounds or len({len(row) for row in rows}) > 1:
        raise OutOfRange("spectrograms are in rows of one length, and there is one at least")
    first = axes or new_axes()
    figure = first.figure
    first.remove()
    figure.set_size_inches(10, max(4.0, 2.6 * len(rows)))
    grid = figure.subplots(len(rows), len(rows[0]), sharex=True, sharey=True, squeeze=False)
    for one, (title, samples, rate) in zip(grid.ravel(), sounds):
        spectrogram(samples, rate, one, title, grid.ravel().tolist() if one is grid[0, 0] else [])
        one.label_outer()
    grid[0, 0].set(ylim=(0, max(rate for _, _, rate in sounds) / 2), xlim=(0, max(len(samples) / rate for _, samples, rate in sounds)))
    return grid[0, 0]


def latency(milliseconds: Sequence[float] | np.ndarray, limit: float, axes: Axes | None = None) -> Axes:
    """How many blocks took how long, in ms, with the median, 99 of 100, the longest, and the limit by which each has to be back."""
    took = np.asarray(milliseconds, np.float64)
    if took.ndim != 1 or not len(took) or took.min() <= 0:
        raise OutOfRange("latencies are positive milliseconds, one or more")
    axes = axes or new_axes()
    edges = np.geomspace(took.min() / 1.1, max(limit, took.max()) * 1.3, 60)
    axes.hist(took, bins=edges, color="C0", alpha=0.75)
    for value, name, style in ((np.median(took), "median", "-"), (np.percentile(took, 99), "99 of 100", "--"), (took.max(), "longest", ":")):
        axes.axvline(float(value), color="0.2", linestyle=style, linewidth=1.2, label=f"{name}: {value:.2f} ms")
    axes.axvline(limit, color="C3", linewidth=2, label=f"a block lasts {limit:g} ms")
    axes.set(xscale="log", xlabel="ms until a block came back", ylabel="blocks", xlim=(edges[0], edges[-1]))
    ticks = [it for it in (0.02, 0.05, 0.1, 0.2, 0.5, 1, 2, 5, 10, 20, 50, 100, 200, 500) if edges[0] <= it <= edges[-1]]
    axes.set_xticks(ticks, [f"{it:g}" for it in ticks])
    axes.minorticks_off()
    axes.legend(loc="upper center")
    return axes


def levels(found: Sequence[Sequence[int]], frequencies: Sequence[float], frame: int, rate: float = 8000.0, axes: Axes | None = None) -> Axes:
    """The levels of tones over time. `found` has shape (tones, frames), `frame` is in samples and `rate` in samples a second."""
    shown = np.asarray(found)
    if shown.ndim != 2 or len(shown) != len(frequencies):
        raise OutOfRange(f"levels have shape (tones, frames), here ({len(frequencies)}, frames), and these have {shown.shape}")
    axes = axes or new_axes()
    ends = (np.arange(shown.shape[1]) + 1) * frame / rate
    for row, frequency in zip(shown, frequencies):
        axes.step(ends, row, where="pre", label=f"{frequency:g} Hz")
    axes.set(xlabel="s", ylabel="level")
    axes.set_yscale("symlog", linthresh=1)
    axes.legend(loc="upper right", ncols=2)
    return axes


def colour(block: Block) -> str:
    """A colour for each instance and each group."""
    return f"C{block.number % 10}"


def whole_numbers(axes: Axes, first: int, end: int) -> None:
    """Puts the number of a line below the middle of its column, from `first` to the one before `end`: of some of them where they are many."""
    every = next(it * ten for ten in (1, 10, 100, 1000, 10**4, 10**5, 10**6, 10**7) for it in (1, 2, 5) if (end - first) / (it * ten) <= 24)
    named = [it for it in range(first, end) if it % every == 0 or every == 1]
    axes.set_xticks([it + 0.5 for it in named], [str(it) for it in named])


def memory(history: History, space: str, axes: Axes | None = None) -> Axes:
    """A space over a run: lines of the script to the right, words upwards. White is free; a group's scratch memory is hatched and names who is active.

    Raises OutOfRange where no map of the space is known.
    """
    shown = [moment for moment in history.moments if space in moment.maps]
    if not shown:
        raise OutOfRange(f"no map of {space} is known here: there are {', '.join(history.spaces()) or 'none'}")
    axes = axes or new_axes()
    top = max([block.end for moment in shown for block in moment.maps[space].blocks], default=4)
    ends = [moment.line for moment in shown[1:]] + [history.last + 1]
    named: dict[int, str] = {}
    for moment, end in zip(shown, ends):
        for block in moment.maps[space].blocks:
            hatch = "///" if block.is_scratch else None
            axes.bar(moment.line, block.size, width=end - moment.line, bottom=block.place, align="edge", color=colour(block), edgecolor="white", linewidth=0.3, hatch=hatch, alpha=0.8)
            member = moment.active.get(block.number) if block.is_scratch else None
            label = f"{block.owner}: i{member}" if member is not None else block.owner
            # Named anew where another block, or another member's turn, begins.
            if named.get(block.place) != label and block.size > top / 60:
                named[block.place] = label
                axes.text(moment.line + 0.05, block.place + block.size / 2, label, fontsize=7, va="center", clip_on=True, bbox=LABEL)
    whole_numbers(axes, shown[0].line, history.last + 1)
    axes.set(xlabel="line of the script", ylabel="word", title=f"{space}, {history.sizes[space]} words", xlim=(shown[0].line, history.last + 1), ylim=(0, top * 1.05))
    return axes
