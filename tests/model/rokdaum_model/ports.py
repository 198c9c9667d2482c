# SPDX-License-Identifier: Apache-2.0
"""Ports: what a run reads from and writes to, over memory and over files."""

from __future__ import annotations

import os
from typing import Optional, Protocol


class PortFault(Exception):
    """A device has failed."""


class In(Protocol):
    """What a run reads from."""

    def get(self, n: int) -> bytes:
        """Up to n bytes, none at the end. Raises `PortFault`."""


class Out(Protocol):
    """What a run writes to."""

    def put(self, data: bytes) -> int:
        """Takes some of the bytes; how many. Raises `PortFault`."""

    def flush(self) -> None:
        """Passes on what waits. Raises `PortFault`."""


class TapeIn:
    """An input over memory: at most `step` bytes a call, a fault at the call numbered `fuse`, from 0. Where `ends` is given, the
    end is answered so many times, and then there is a fault."""

    def __init__(self, data: bytes, step: Optional[int] = None, fuse: Optional[int] = None, ends: Optional[int] = None):
        self.data, self.at, self.step, self.fuse, self.ends, self.calls = data, 0, step, fuse, ends, 0

    def get(self, n: int) -> bytes:
        """Up to n bytes, none at the end."""
        at_end = self.at == len(self.data)
        if self.calls == self.fuse or (at_end and self.ends == 0):
            raise PortFault
        if at_end and self.ends is not None:
            self.ends -= 1
        self.calls += 1
        taken = self.data[self.at:self.at + (n if self.step is None else min(n, self.step))]
        self.at += len(taken)
        return taken


class TapeOut:
    """An output over memory, with `step` and `fuse` as above; puts and flushes are counted together."""

    def __init__(self, step: Optional[int] = None, fuse: Optional[int] = None):
        self._held = bytearray()
        self.step, self.fuse, self.calls = step, fuse, 0

    def _call(self) -> None:
        if self.calls == self.fuse:
            raise PortFault
        self.calls += 1

    def put(self, data: bytes) -> int:
        """Takes some of the bytes; how many."""
        self._call()
        n = len(data) if self.step is None else min(len(data), self.step)
        self._held += data[:n]
        return n

    def flush(self) -> None:
        """Passes on what waits: nothing, here."""
        self._call()

    @property
    def held(self) -> bytes:
        """All that was taken."""
        return bytes(self._held)


class FileIn:
    """An input over an open file."""

    def __init__(self, handle: int):
        self.handle = handle

    def get(self, n: int) -> bytes:
        """Up to n bytes, none at the end."""
        try:
            return os.read(self.handle, n)
        except OSError:
            raise PortFault from None


class FileOut:
    """An output over an open file."""

    def __init__(self, handle: int):
        self.handle = handle

    def put(self, data: bytes) -> int:
        """Writes some of the bytes; how many."""
        try:
            return os.write(self.handle, data)
        except OSError:
            raise PortFault from None

    def flush(self) -> None:
        """Nothing waits."""
