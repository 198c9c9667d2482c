# SPDX-License-Identifier: Apache-2.0
"""How far a long command is, on the standard error: how many are done, how many a second, and what is left."""

from __future__ import annotations

import sys
import time


class Progress:
    """A count on its way to a total. On a terminal one line is written over; else there is a line every half minute."""

    def __init__(self, total: int, what: str, rated: bool = True):
        self.total, self.what, self.rated, self.done, self.failed = total, what, rated, 0, 0
        self.began = self.said = time.monotonic()
        self.terminal = sys.stderr.isatty()

    def rate(self) -> float:
        """How many a second, on the whole."""
        return self.done / max(time.monotonic() - self.began, 1e-9)

    def seconds(self) -> float:
        """How long it has taken."""
        return time.monotonic() - self.began

    def add(self, done: int, failed: int = 0) -> None:
        """Counts more, and says so now and then."""
        self.done += done
        self.failed += failed
        now = time.monotonic()
        if now - self.said >= (0.5 if self.terminal else 30.0):
            self.said = now
            self._say("\r" if self.terminal else "", "" if self.terminal else "\n")

    def _say(self, before: str, behind: str) -> None:
        left = (self.total - self.done) / max(self.rate(), 1e-9)
        rate = f"{self.rate():.0f} a second, " if self.rated else ""
        print(f"{before}{self.done:,} of {self.total:,} {self.what}, {self.failed} differ, {rate}{left:.0f} s left  ",
              end=behind, file=sys.stderr, flush=True)

    def end(self) -> None:
        """Ends the line on a terminal."""
        if self.terminal:
            print(file=sys.stderr)
