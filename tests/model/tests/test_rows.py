# SPDX-License-Identifier: Apache-2.0
"""The worked rows, and runs over ports that give little or fail."""

from __future__ import annotations

import unittest
from dataclasses import replace
from typing import Any, Optional

from rokdaum_model.console import Config, Fault, run, serve
from rokdaum_model.order import REPLIES, is_one_prefix, order_of, tells_truth
from rokdaum_model.ports import TapeIn, TapeOut
from rokdaum_model.rows import POISON, Row, check_row, config_of, inputs_of, read_rows, row_case, script_of

# How a port is limited: `step`, `fuse` and `ends` of TapeIn and TapeOut.
Limits = Optional[dict[str, Any]]
FIRST = b"create 0 fir 0 16384\nchain 0 0\nfeed 0 2\n"


def named(name: str) -> Row:
    """The row of a name."""
    return next(row for row in read_rows() if row["name"] == name)


class Rows(unittest.TestCase):
    """What was computed by hand."""

    def test_every_row(self) -> None:
        for row in read_rows():
            with self.subTest(row=row["name"]):
                self.assertEqual(check_row(row), [])

    def test_a_poison_word_does_not_show(self) -> None:
        for row in read_rows():
            if "kinds" not in row:
                plain = serve(config_of(row), script_of(row), inputs_of(row))
                self.assertEqual(serve(replace(config_of(row), poison=POISON), script_of(row), inputs_of(row)), plain)

    def test_what_the_hand_says_is_compared(self) -> None:
        """Also where the model leaves open what a rogue gives: of a case none of it is free."""
        case = row_case(named("a filter beside forger"))
        self.assertEqual((case.any_replies, case.any_outputs), ([], {}))
        self.assertEqual(case.outputs[1], b"\x05\x00\x0f\x00")

    def test_names_are_told_apart(self) -> None:
        names = [row["name"] for row in read_rows()]
        self.assertEqual(len(set(names)), len(names))

    def test_a_row_that_is_wrong_is_found(self) -> None:
        row = named("half of two samples")
        wrongs: tuple[Row, ...] = (
            {"replies": ["ok", "ok", "ok 3"]}, {"outputs": [{"samples": [1, 1]}]}, {"status": 1}, {"last_reply": "ok"}, {"copied": 1},
            {"lacking": "daram"})
        for wrong in wrongs:
            self.assertNotEqual(check_row({**row, **wrong}), [])


def run_over(script: TapeIn, inputs: list[TapeIn], outputs: list[TapeOut], replies: TapeOut,
             config: Config = Config()) -> Optional[str]:
    """A run over ports; the cause of its fault, if there is one."""
    try:
        run(config, script, inputs, outputs, replies)
        return None
    except Fault as fault:
        return fault.cause


class Ports(unittest.TestCase):
    """Ports that give little or fail."""

    def first(self, script: Limits = None, in_port: Limits = None, out_port: Limits = None) -> tuple[Optional[str], bytes, bytes]:
        """The first row's run; the fault, the replies and the output."""
        out, replies = TapeOut(**(out_port or {})), TapeOut()
        fault = run_over(TapeIn(FIRST, **(script or {})), [TapeIn(b"\1\0\xff\xff", **(in_port or {}))], [out], replies)
        return fault, replies.held, out.held

    def test_single_faults(self) -> None:
        self.assertEqual(self.first(out_port={"fuse": 0}), ("write", b"ok\nok\n", b""))
        self.assertEqual(self.first(in_port={"step": 1, "fuse": 1}), ("read", b"ok\nok\n", b""))
        self.assertEqual(self.first(script={"step": 1, "fuse": 30}), ("read", b"ok\n", b""))
        self.assertEqual(self.first(script={"step": 4096, "fuse": 2}), (None, b"ok\nok\nok 2\n", b"\1\0\0\0"))
        self.assertEqual(self.first(in_port={"ends": 0}), (None, b"ok\nok\nok 2\n", b"\1\0\0\0"))
        self.assertEqual(self.first(script={"ends": 0})[0], "read")

    def test_a_script_in_pieces(self) -> None:
        row = named("two share scratch")
        whole = serve(config_of(row), script_of(row), inputs_of(row))
        for step in range(1, 41):
            outs, replies = [TapeOut(), TapeOut()], TapeOut()
            fault = run_over(TapeIn(script_of(row), step), [TapeIn(data) for data in inputs_of(row)], outs, replies,
                             config_of(row))
            self.assertEqual((fault, replies.held, [out.held for out in outs]), (None, whole.replies, whole.outputs))

    def test_a_script_that_is_too_long(self) -> None:
        for most, fault in ((len(FIRST), None), (len(FIRST) - 1, "read")):
            outs, replies = [TapeOut()], TapeOut()
            got = run_over(TapeIn(FIRST), [TapeIn(bytes(4))], outs, replies, Config(script_bytes_max=most))
            self.assertEqual((got, replies.held), (fault, b"ok\nok\nok 2\n" if fault is None else b"ok\nok\n"))

    def test_each_single_fault_leaves_one_prefix(self) -> None:
        row = named("two share scratch")
        script, inputs = script_of(row), inputs_of(row)
        order = order_of(config_of(row), TapeIn(script), [TapeIn(data) for data in inputs])
        for port in ("script", "in0", "in1", "out0", "out1", "replies"):
            fuse = 0
            fault: Optional[str] = "some"
            while fault is not None:
                def told(name: str) -> dict[str, Any]:
                    return {"step": 1, "fuse": fuse} if name == port else {}
                outs = [TapeOut(**told("out0")), TapeOut(**told("out1"))]
                replies = TapeOut(**told("replies"))
                fault = run_over(TapeIn(script, **told("script")),
                                 [TapeIn(data, **told(f"in{c}")) for c, data in enumerate(inputs)], outs, replies,
                                 config_of(row))
                held = {REPLIES: replies.held, 0: outs[0].held, 1: outs[1].held}
                self.assertTrue(is_one_prefix(order, held) and tells_truth(order, held), f"{port}, fuse {fuse}")
                if fault is not None:
                    self.assertEqual(fault, "write" if port in ("out0", "out1", "replies") else "read")
                fuse += 1

    def test_what_is_no_prefix(self) -> None:
        order = order_of(Config(), TapeIn(FIRST), [TapeIn(b"\1\0\xff\xff")])
        for replies, output, prefix, truth in ((b"ok\nok\nok 2\n", b"\1\0\0\0", True, True), (b"ok\nok\n", b"\1", True, True),
                                               (b"ok\nok\no", b"\1\0\0", False, False), (b"ok\n", b"\1\0", False, True),
                                               (b"ok\nno\n", b"", False, False), (b"", b"\2", False, False),
                                               (b"ok\nok\nok 2\nx", b"\1\0\0\0", False, False)):
            held = {REPLIES: replies, 0: output}
            self.assertEqual((is_one_prefix(order, held), tells_truth(order, held)), (prefix, truth), held)


if __name__ == "__main__":
    unittest.main()
