# SPDX-License-Identifier: Apache-2.0
"""Processes that work side by side."""

from __future__ import annotations

import multiprocessing
import signal
from multiprocessing.pool import Pool


def ignore_interrupts() -> None:
    """Leaves an interrupt from the keyboard to the process that shows the progress."""
    signal.signal(signal.SIGINT, signal.SIG_IGN)


def pool(jobs: int) -> Pool:
    """So many processes."""
    return multiprocessing.Pool(jobs, ignore_interrupts)
