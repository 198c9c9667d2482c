# SPDX-License-Identifier: Apache-2.0
"""The one order of all that a run writes: of each line first its output, then its reply. What a run that was cut short may
have written."""

from __future__ import annotations

from typing import NamedTuple, Sequence

from .console import Config, Fault, run
from .ports import TapeIn, TapeOut

REPLIES = -1
"""The port of the replies; an output has its channel's number."""


class Written(NamedTuple):
    """Bytes that a run writes at once."""

    port: int
    data: bytes


class _Witness(TapeOut):
    """An output that also keeps the one order of all bytes."""

    def __init__(self, port: int, order: list[Written]):
        super().__init__()
        self.port, self.order = port, order

    def put(self, data: bytes) -> int:
        self.order.append(Written(self.port, data))
        return super().put(data)


def order_of(config: Config, script: TapeIn, inputs: Sequence[TapeIn]) -> list[Written]:
    """All that a run writes, in its order, up to its end or to a fault of an input."""
    order: list[Written] = []
    try:
        run(config, script, inputs, [_Witness(c, order) for c in range(len(inputs))], _Witness(REPLIES, order))
    except Fault as fault:
        if fault.cause != "read":
            raise
    return order


def whole(order: Sequence[Written], ports: int) -> dict[int, bytes]:
    """What each port holds at the end."""
    held = {port: bytearray() for port in range(REPLIES, ports)}
    for port, data in order:
        held[port] += data
    return {port: bytes(data) for port, data in held.items()}


def is_one_prefix(order: Sequence[Written], held: dict[int, bytes]) -> bool:
    """Whether the ports together hold one prefix of the order."""
    left = sum(map(len, held.values()))
    seen = {port: bytearray() for port in held}
    for port, data in order:
        seen[port] += data[:left]
        left -= min(left, len(data))
    return left == 0 and all(bytes(seen[port]) == held[port] for port in held)


def tells_truth(order: Sequence[Written], held: dict[int, bytes]) -> bool:
    """Whether each port holds a prefix of what it would have got, and no byte of a reply is there without all samples that come
    before it in the order."""
    at = dict.fromkeys(held, 0)
    there = True   # whether all samples so far are there
    for port, data in order:
        got = held[port][at[port]:at[port] + len(data)]
        if got != data[:len(got)] or (port == REPLIES and got and not there):
            return False
        there = there and (port == REPLIES or len(got) == len(data))
        at[port] += len(data)
    return all(len(held[port]) <= at[port] for port in held)
