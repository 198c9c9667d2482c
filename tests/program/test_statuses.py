# SPDX-License-Identifier: Apache-2.0
"""The exit status, and the line on the standard error."""

from __future__ import annotations

import resource
import unittest

from console_case import (HALF, NO_MEMORY, NOT_UTF8, READ_FAILED, WRITE_FAILED, WRONG_PORTS, WRONG_SIZE, ConsoleCase, words)

DONE = b"ok\nok\nok 2\nok 1\n"


class Statuses(ConsoleCase):
    """One test for each row of the table of statuses in docs/SCRIPTS.md, with its line."""

    def test_all_granted(self) -> None:
        ended = self.run_program("script", "in", "out")
        self.assertEqual(ended, (0, DONE, b""))
        self.assertEqual(self.read("out"), words(1, 2, 3))

    def test_some_line_refused(self) -> None:
        ended = self.run_script(HALF + b"feed 0 4\n", "in", "out")
        self.assertEqual(ended, (1, b"ok\nok\nno 10 short\n", b""))

    def test_each_refusal_is_printed(self) -> None:
        script = (b"a" * 1025 + b"\nfly\nfeed 0 0\ncreate 0 fir 0 1\ncreate 0 fir 0 1\ncontrol 1 get\ncreate 1 fir 0\n"
                  b"create 1 fir 1 1\nchain 0 0\ndelete 0\ncontrol 0 set 1 2\nfeed 0 4\n")
        ended = self.run_script(script, "--daram=1028", "in", "out")
        self.assertEqual(ended.replies, b"no 1 long\nno 2 syntax\nno 3 range\nok\nno 4 taken\nno 5 missing\nno 6 params\n"
                         b"no 7 room\nok\nno 8 busy\nno 9 command\nno 10 short\n")
        self.assertEqual(ended.end, (1, b""))

    def test_help(self) -> None:
        for option in ("--help", "-h"):
            ended = self.run_program(option)
            self.assertEqual(ended.end, (0, b""))
            for name in (b"--daram", b"--saram", b"--external", b"--poison", b"--in8", b"--out8", b"SCRIPT"):
                self.assertIn(name, ended.replies)

    def test_wrong_options(self) -> None:
        for option in (["--flute"], ["-x"], ["--voices", "3"], ["--daram"], ["--daram", "x"], ["--dar", "8"],
                       ["--daram", "8", "--daram", "8"], ["--in8=1", "--in8=1"]):
            with self.subTest(option=option):
                ended = self.run_program("script", "in", "out", *option)
                self.assertEqual((ended.status, ended.replies), (2, b""))
                self.assertIn(option[0].split("=")[0].encode(), ended.stderr)
                self.assertFalse(self.exists("out"))

    def test_wrong_options_come_before_wrong_ports(self) -> None:
        ended = self.run_program("script", *("in", "out") * 6, "--flute")
        self.assertEqual((ended.status, ended.replies), (2, b""))
        self.assertIn(b"--flute", ended.stderr)

    def test_a_command_line_without_words(self) -> None:
        ended = self.run_program()
        self.assertEqual((ended.status, ended.replies), (2, b""))
        self.assertIn(b"SCRIPT", ended.stderr)

    def test_numbers_that_no_option_takes(self) -> None:
        for option in ("--daram", "--saram", "--external", "--poison", "--in8", "--out8"):
            for value in ("-1", "", " 1", "1 ", "0x10", "1.0", "1e3", "abc", "4294967296", "99999999999999999999", "\u0663"):
                with self.subTest(option=option, value=value):
                    ended = self.run_program(option + "=" + value, "script", "in", "out")
                    self.assertEqual((ended.status, ended.replies), (2, b""))
                    self.assertIn(option.encode(), ended.stderr)
                    self.assertFalse(self.exists("out"))

    def test_words_and_masks_past_the_greatest(self) -> None:
        for option in ("--poison", "--in8", "--out8"):
            self.assertEqual(self.run_program(option, "65535", "script", "in", "out").status in (0, 1), True)
            ended = self.run_program(option, "65536", "script", "in", "out")
            self.assertEqual((ended.status, ended.replies), (2, b""))
            self.assertIn(b"65536", ended.stderr)

    def test_ports_that_are_no_pairs(self) -> None:
        many = [f"{way}{c}" for c in range(17) for way in ("in", "out")]
        wrong: tuple[list[str], ...] = ([], ["in"], ["in", "out", "in"], many, many[:31], many[:33], ["x"] * 20000)
        for ports in wrong:
            with self.subTest(count=len(ports)):
                self.assertEqual(self.run_program("script", *ports).end, WRONG_PORTS)
        self.assertFalse(self.exists("out"))

    def test_wrong_ports_come_before_wrong_sizes_and_absent_files(self) -> None:
        self.assertEqual(self.run_program("--daram", "6", "absent", "in").end, WRONG_PORTS)

    def test_an_argument_that_is_not_utf8(self) -> None:
        self.assertEqual(self.run_program(b"\xff", "in", "out").end, NOT_UTF8)
        self.assertEqual(self.run_program("script", "in", b"\xfe\xff").end, NOT_UTF8)

    def test_wrong_sizes(self) -> None:
        for option in ("--daram", "--saram", "--external"):
            for size in ("6", "2", "65537", "65540", "70000", "4294967295"):
                with self.subTest(option=option, size=size):
                    ended = self.run_program(option, size, "script", "in", "out")
                    self.assertEqual((ended.end, ended.replies), (WRONG_SIZE, b""))

    def test_sizes_at_their_ends(self) -> None:
        for size in ("0", "65536", "+65536", "0065536"):
            ended = self.run_program("--daram", size, "script", "in", "out")
            self.assertEqual(ended.end, (1, b"") if size == "0" else (0, b""))

    def test_files_that_cannot_be_opened_or_read(self) -> None:
        for ports in (["absent", "in", "out"], ["script", "absent", "out"], ["script", "in", "out", "absent", "out1"],
                      ["", "in", "out"], ["script", "", "out"], [".", "in", "out"], ["in/script", "in", "out"]):
            with self.subTest(ports=ports):
                ended = self.run_program(*ports)
                self.assertEqual((ended.end, ended.replies), (READ_FAILED, b""))

    def test_an_input_that_is_a_folder(self) -> None:
        ended = self.run_program("script", ".", "out")
        self.assertEqual((ended.end, ended.replies), (READ_FAILED, b"ok\nok\n"))

    def test_outputs_that_cannot_be_made(self) -> None:
        for ports in (["script", "in", "absent/out"], ["script", "in", "."], ["script", "in", ""],
                      ["script", "in", "out", "in", "absent/out"]):
            with self.subTest(ports=ports):
                ended = self.run_program(*ports)
                self.assertEqual((ended.end, ended.replies), (WRITE_FAILED, b""))

    def test_no_memory_at_the_start(self) -> None:
        def little() -> None:
            resource.setrlimit(resource.RLIMIT_DATA, (300 * 1024, 300 * 1024))
        ended = self.run_program("script", "in", "out", preexec_fn=little)
        self.assertEqual((ended.end, ended.replies), (NO_MEMORY, b""))


if __name__ == "__main__":
    unittest.main()
