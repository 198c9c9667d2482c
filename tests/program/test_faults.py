# SPDX-License-Identifier: Apache-2.0
"""What is told and what is kept where a file can't be read or written any more."""

from __future__ import annotations

import errno
import os
import tempfile
import unittest
from pathlib import Path

from console_case import HALF, READ_FAILED, WRITE_FAILED, ConsoleCase, words

from rokdaum_model.preload import build_library

TWO = b"create 0 fir 0 16384\ncreate 1 fir 1 16384\nchain 0 0\nchain 1 1\n"
TWO_DONE = b"ok\n" * 4
THREE = TWO + b"create 2 fir 2 16384\nchain 2 2\n"


class FullDevices(ConsoleCase):
    """No reply tells of a sample that a full OUT lost."""

    def test_a_full_output(self) -> None:
        ended = self.run_program("script", "in", "/dev/full")
        self.assertEqual((ended.end, ended.replies), (WRITE_FAILED, b"ok\nok\n"))

    def test_a_full_output_where_the_script_is_a_pipe(self) -> None:
        ended = self.run_program("/dev/stdin", "in", "/dev/full", stdin=HALF + b"feed 0 1\nstat 0\n")
        self.assertEqual((ended.end, ended.replies), (WRITE_FAILED, b"ok\nok\n"))

    def test_great_feeds_to_a_full_output(self) -> None:
        ports = self.pairs([words(2) * 3000] * 2)
        ports[1] = "/dev/full"
        for feeds in (b"feed 0 1024\nfeed 1 1024\n", b"feed 0 60\nfeed 1 1024\n", b"feed 0 1\nfeed 1 1\n"):
            ended = self.run_script(TWO + feeds, *ports)
            self.assertEqual((ended.end, ended.replies), (WRITE_FAILED, TWO_DONE), feeds)

    def test_a_long_reply_behind_a_full_output(self) -> None:
        ports = self.pairs([words(2) * 10] * 2)
        ports[1] = "/dev/full"
        for line in (b"map external\n", b"map saram\n", b"control 1 get\n", b"no such line\n"):
            ended = self.run_script(TWO + b"feed 0 1\n" + line + b"feed 1 1\n", *ports)
            self.assertEqual((ended.end, ended.replies), (WRITE_FAILED, TWO_DONE), line)

    def test_what_came_before_the_lost_sample_is_told(self) -> None:
        """The second OUT is full: replies in front of its first feed are printed, and the first OUT has their samples."""
        ports = self.pairs([words(2, 4, 6)] * 3)
        ports[3] = "/dev/full"
        ended = self.run_script(THREE + b"feed 0 1\nfeed 2 2\nfeed 1 1\nfeed 0 1\n", *ports)
        self.assertEqual((ended.end, ended.replies), (WRITE_FAILED, b"ok\n" * 6 + b"ok 1\nok 2\n"))
        self.assertEqual(self.read("out0")[:2], words(1))
        self.assertEqual(self.read("out2")[:4], words(1, 2))

    def test_full_replies(self) -> None:
        with open("/dev/full", "wb") as full:
            self.assertEqual(self.run_program("script", "in", "out", stdout=full).end, WRITE_FAILED)

    def test_devices_that_take_everything(self) -> None:
        self.assertEqual(self.run_program("script", "in", "/dev/null"), (0, b"ok\nok\nok 2\nok 1\n", b""))
        self.assertEqual(self.run_program("script", "/dev/zero", "out").status, 0)
        self.assertEqual(self.read("out"), bytes(6))
        self.assertEqual(self.run_program("script", "/dev/null", "out").replies, b"ok\nok\nno 10 short\nno 10 short\n")


class ReadFaults(ConsoleCase):
    """What was served before a file can't be read is passed on: every sample and every reply."""

    def test_an_input_that_cannot_be_read(self) -> None:
        ports = self.pairs([words(2, 4, 6)] * 3)
        ports[2] = "."
        ended = self.run_script(THREE + b"feed 0 2\nfeed 2 1\nfeed 1 1\nfeed 0 1\n", *ports)
        self.assertEqual((ended.end, ended.replies), (READ_FAILED, b"ok\n" * 6 + b"ok 2\nok 1\n"))
        self.assertEqual(self.read("out0"), words(1, 2))
        self.assertEqual(self.read("out1"), b"")
        self.assertEqual(self.read("out2"), words(1))

    def test_both_an_input_and_an_output_fail(self) -> None:
        ports = self.pairs([words(2, 4, 6), b""])
        ports[1:3] = ["/dev/full", "."]
        ended = self.run_script(TWO + b"feed 0 1\nfeed 1 1\n", *ports)
        self.assertEqual((ended.end, ended.replies), (WRITE_FAILED, TWO_DONE))


class ShortCalls(ConsoleCase):
    """Devices that give and take a part of what they are asked for, by a library that is put before the program."""

    library: Path

    @classmethod
    def setUpClass(cls) -> None:
        folder = tempfile.TemporaryDirectory(prefix="rokdaum-")
        cls.addClassCleanup(folder.cleanup)
        cls.library = build_library(folder.name)

    def short(self, **told: object) -> dict[str, str]:
        """The environment for the library."""
        return {"LD_PRELOAD": str(self.library), **{key: str(value) for key, value in told.items()}}

    def test_a_write_that_takes_a_part(self) -> None:
        samples = os.urandom(2 * 9000)
        self.write("in", samples)
        script = b"create 0 fir 0 32767\nchain 0 0\n" + b"feed 0 1000\n" * 9
        self.assertEqual(self.run_script(script, "in", "whole").status, 0)
        for told in ({"FAULT_ONE": 1}, {"FAULT_SHORT": 256, "FAULT_SEED": 5}):
            ended = self.run_script(script, "in", "out", environment=self.short(**told))
            self.assertEqual(ended, (0, b"ok\nok\n" + b"ok 1000\n" * 9, b""))
            self.assertEqual(self.read("out"), self.read("whole"))

    def test_a_write_that_takes_nothing(self) -> None:
        ended = self.run_program("script", "in", "out", environment=self.short(FAULT_AT=3, FAULT_ERRNO=0))
        self.assertEqual((ended.end, ended.replies), (WRITE_FAILED, b"ok\nok\n"))

    def test_an_interrupted_read(self) -> None:
        ended = self.run_program("script", "in", "out", environment=self.short(FAULT_AT=1, FAULT_ERRNO=4))
        self.assertEqual((ended.end, ended.replies), (READ_FAILED, b"ok\nok\n"))

    def test_an_error_when_a_file_is_closed(self) -> None:
        """It isn't seen, as SCRIPTS.md says: what was written stands in OUT."""
        for error in (errno.EDQUOT, errno.EIO):
            ended = self.run_program("script", "in", "out", environment=self.short(FAULT_CLOSE=error))
            self.assertEqual(ended, (0, b"ok\nok\nok 2\nok 1\n", b""))
            self.assertEqual(self.read("out"), words(1, 2, 3))


if __name__ == "__main__":
    unittest.main()
