# SPDX-License-Identifier: Apache-2.0
"""What `--explain` says on the standard error, and `--help` and `--version`."""

from __future__ import annotations

import re
import tempfile
import unittest
from pathlib import Path
from typing import Any

from console_case import GATEWAY, HALF, READ_FAILED, WRITE_FAILED, ConsoleCase, Word, words

from rokdaum_model.preload import build_library

TOP = Path(__file__).resolve().parents[2]


class Refusals(ConsoleCase):
    """A line on the standard error for each line that is refused, in order."""

    def explained(self, script: bytes, *options: str, pairs: int = 1) -> list[str]:
        """What is said of a script; the replies are those that come without being asked for reasons."""
        ports = self.pairs([words(2, 4, 6)] * pairs)
        plain = self.run_script(script, *options, *ports)
        told = self.run_script(script, "--explain", *options, *ports)
        self.assertEqual((told.status, told.replies), (plain.status, plain.replies))
        self.assertEqual(plain.stderr, b"")
        return told.stderr.decode().splitlines()

    def test_nothing_is_said_where_nothing_is_refused(self) -> None:
        self.assertEqual(self.explained(HALF + b"feed 0 3\n"), [])

    def test_each_refusal(self) -> None:
        script = (b"a" * 1025 + b"\nfly\nfeed 0 0\ncreate 0 fir 0 1\ncreate 0 fir 0 1\ncontrol 1 get\ncreate 1 fir 0\n"
                  b"create 1 fir 1 1\nchain 0 0\ndelete 0\ncontrol 0 set 1 2\nfeed 0 4\n")
        self.assertEqual(self.explained(script, "--daram=1028"), [
            "given:1: " + "a" * 72 + "..: no 1 long: a line has at most 1024 bytes",
            "given:2: fly: no 2 syntax: no command is called fly",
            "given:3: feed 0 0: no 3 range: N is 1 to 1024, here 0",
            "given:5: create 0 fir 0 1: no 4 taken: the instance is there already",
            "given:6: control 1 get: no 5 missing: the instance isn't there",
            "given:7: create 1 fir 0: no 6 params: the kind doesn't take these parameters",
            "given:8: create 1 fir 1 1: no 7 room: no place is free for its memory",
            "given:10: delete 0: no 8 busy: the instance is in a channel",
            "given:11: control 0 set 1 2: no 9 command: the instance doesn't take this control",
            "given:12: feed 0 4: no 10 short: fewer samples are left on the channel's input",
        ])

    def test_refusals_of_channels(self) -> None:
        script = b"chain 0 3\nunchain 0\nfeed 0 1\n" + HALF + b"chain 0 0\nchain 1 0\n"
        self.assertEqual(self.explained(script, pairs=2), [
            "given:1: chain 0 3: no 5 missing: a member isn't there",
            "given:2: unchain 0: no 5 missing: the channel has no members",
            "given:3: feed 0 1: no 5 missing: the channel has no members",
            "given:6: chain 0 0: no 4 taken: the channel has members already",
            "given:7: chain 1 0: no 8 busy: a member is in a channel already, or is named twice",
        ])

    def test_how_much_of_a_line_is_shown(self) -> None:
        """Up to 72 bytes are shown whole; of a longer line as many, and two dots."""
        told = self.explained(b"".join(b"x" * count + b"\n" for count in (71, 72, 73, 74)))
        self.assertEqual([line.split(": ")[1] for line in told], ["x" * 71, "x" * 72, "x" * 72 + "..", "x" * 72 + ".."])

    def test_each_range(self) -> None:
        rows = {
            "create 64 fir 0 1": "I is 0 to 63, here 64",
            "create -1 fir 0 1": "I is 0 to 63, here -1",
            "create 0 fir 8 1": "G is 0 to 7, here 8",
            "create 0 fir 0 1 32768": "W is -32768 to 32767, here 32768",
            "create 0 fir 0 -32769 99999": "W is -32768 to 32767, here -32769",
            "create 0 fir 0 " + "9" * 40: "W is -32768 to 32767, here " + "9" * 40,
            "create 0 fir 0" + " 1" * 73: "there are at most 72 W",
            "control 200 get": "I is 0 to 63, here 200",
            "control 0 set 40000": "W is -32768 to 32767, here 40000",
            "delete 64": "I is 0 to 63, here 64",
            "chain 2 0": "C is 0 to 1, here 2",
            "chain 0 0 64": "I is 0 to 63, here 64",
            "chain 0 0 1 2 3 4 5 6 7 8": "a channel has at most 8 members",
            "unchain 16": "C is 0 to 1, here 16",
            "feed 2 1": "C is 0 to 1, here 2",
            "feed 0 1025": "N is 1 to 1024, here 1025",
            "release 8": "G is 0 to 7, here 8",
            "stat -7": "G is 0 to 7, here -7",
        }
        told = self.explained("".join(line + "\n" for line in rows).encode(), pairs=2)
        self.assertEqual([line.rsplit(": no 3 range: ", 1)[1] for line in told], list(rows.values()))

    def test_forms(self) -> None:
        rows = {
            "create 0 flute 0 1": "create I KIND G W ..",
            "control 0 hold": "control I set W .., control I reset or control I get",
            "delete": "delete I",
            "chain 0": "chain C I ..",
            "unchain x": "unchain C",
            "feed 0": "feed C N",
            "compact sram": "compact SPACE",
            "step": "step SPACE",
            "map x": "map SPACE",
            "release 0 0": "release G",
            "stat": "stat G",
        }
        told = self.explained("".join(line + "\n" for line in rows).encode())
        self.assertEqual([line.rsplit(": it is written ", 1)[1] for line in told], list(rows.values()))

    def test_numbers_of_lines(self) -> None:
        """Blank lines count and get no reply; a long line is one line; the last may lack its end."""
        script = b"\n \t\n\r\nfly\n" + b" " * 1025 + b"\n" + b"x" * 100_000 + b"\n\nfly\r\n" + HALF + b"fly"
        told = self.explained(script)
        self.assertEqual([int(line.split(":")[1]) for line in told], [4, 5, 6, 8, 11])

    def test_many_lines(self) -> None:
        lines = [b"feed 0 1" if n % 3 == 0 else b"" if n % 3 == 1 else b"stat 0" for n in range(30_000)]
        told = self.explained(b"\n".join(lines) + b"\n")
        self.assertEqual([int(line.split(":")[1]) for line in told], [n + 1 for n in range(0, 30_000, 3)])

    def test_no_control_character_is_written(self) -> None:
        told = self.run_script(b"\x1b[2J\xc3\xa4\0 \x7f\n", "--explain", "in", "out").stderr
        self.assertEqual(told, b"given:1: \\x1b[2J\\xc3\\xa4\\x00 \\x7f: no 2 syntax: no command is called \\x1b[2J\\xc3\\xa4\\x00\n")

    def test_a_script_by_a_pipe(self) -> None:
        ended = self.run_program("--explain", "/dev/stdin", "in", "out", stdin=HALF + b"\nfeed 0 4\n")
        self.assertEqual(ended, (1, b"ok\nok\nno 10 short\n",
                                 b"/dev/stdin:4: feed 0 4: no 10 short: fewer samples are left on the channel's input\n"))


class Files(ConsoleCase):
    """Which file failed, and why, before the line that is always written."""

    def told(self, *given: str, status: tuple[int, bytes]) -> str:
        """What is said beside the line of the status."""
        ended = self.run_program("--explain", *given)
        self.assertEqual(ended.status, status[0])
        self.assertTrue(ended.stderr.endswith(status[1]), ended.stderr)
        return ended.stderr[:-len(status[1])].decode()

    def test_files_that_cannot_be_opened(self) -> None:
        absent = "No such file or directory (os error 2)\n"
        self.assertEqual(self.told("absent", "in", "out", status=READ_FAILED), "dsp_console: SCRIPT: absent: " + absent)
        self.assertEqual(self.told("script", "absent", "out", status=READ_FAILED), "dsp_console: the IN of channel 0: absent: " + absent)
        self.assertEqual(self.told("script", "in", "a/b", status=WRITE_FAILED), "dsp_console: the OUT of channel 0: a/b: " + absent)
        self.assertEqual(self.told("script", "in", "out", "in", ".", status=WRITE_FAILED),
                         "dsp_console: the OUT of channel 1: .: Is a directory (os error 21)\n")

    def test_files_that_fail_later(self) -> None:
        self.assertEqual(self.told(".", "in", "out", status=READ_FAILED), "dsp_console: SCRIPT: .: Is a directory (os error 21)\n")
        self.assertEqual(self.told("script", ".", "out", status=READ_FAILED),
                         "dsp_console: the IN of channel 0: .: Is a directory (os error 21)\n")
        self.assertEqual(self.told("script", "in", "/dev/full", status=WRITE_FAILED),
                         "dsp_console: the OUT of channel 0: /dev/full: No space left on device (os error 28)\n")

    def test_the_first_of_two_files_that_fail(self) -> None:
        script = b"create 0 fir 0 1\ncreate 1 fir 1 1\nchain 0 0\nchain 1 1\nfeed 0 1\nfeed 1 1\n"
        for outs, first in ((("/dev/full", "/dev/full"), 0), (("out", "/dev/full"), 1)):
            ended = self.run_script(script, "--explain", "in", outs[0], "in", outs[1])
            self.assertEqual(ended.stderr.decode(), f"dsp_console: the OUT of channel {first}: /dev/full: No space left on device (os error 28)\ndsp_console: write failed\n")
        # An IN that can't be read and an OUT that is full: the status is that of the OUT, and so is the reason.
        ended = self.run_script(script, "--explain", "in", "/dev/full", ".", "out")
        self.assertEqual(ended.stderr.decode(), "dsp_console: the OUT of channel 0: /dev/full: No space left on device (os error 28)\ndsp_console: write failed\n")

    def test_a_write_that_takes_nothing(self) -> None:
        with tempfile.TemporaryDirectory(prefix="rokdaum-") as folder:
            faulty = {"LD_PRELOAD": str(build_library(folder)), "FAULT_AT": "3", "FAULT_ERRNO": "0"}
            ended = self.run_program("--explain", "script", "in", "out", environment=faulty)
        self.assertEqual(ended.end, (4, b"dsp_console: the OUT of channel 0: out: write zero\n" + WRITE_FAILED[1]))

    def test_a_script_that_is_too_long(self) -> None:
        """A thousand million bytes and one more, of which a file has no block."""
        with open(self.folder / "long", "wb") as long:
            long.truncate(1_000_000_001)
        ended = self.run_program("--explain", "long", "in", "out")
        self.assertTrue(ended.stderr.endswith(b"dsp_console: SCRIPT: long: it is too long\n" + READ_FAILED[1]), ended.stderr[-300:])
        self.assertEqual(ended.status, READ_FAILED[0])

    def test_full_replies(self) -> None:
        with open("/dev/full", "wb") as full:
            ended = self.run_program("--explain", "script", "in", "out", stdout=full)
        self.assertEqual(ended.end, (4, b"dsp_console: the standard output: No space left on device (os error 28)\n" + WRITE_FAILED[1]))

    def test_files_that_would_be_written_over(self) -> None:
        self.assertEqual(self.told("script", "in", "in", status=WRITE_FAILED),
                         "dsp_console: the OUT of channel 0: in: it is the IN of channel 0 too\n")
        self.assertEqual(self.told("script", "in", "script", status=WRITE_FAILED),
                         "dsp_console: the OUT of channel 0: script: it is SCRIPT too\n")
        self.assertEqual(self.told("script", "in", "mid", "mid", "out", status=WRITE_FAILED),
                         "dsp_console: the OUT of channel 0: mid: it is the IN of channel 1 too\n")
        self.assertEqual(self.told("script", "in", "out", "in", "out", status=WRITE_FAILED),
                         "dsp_console: the OUT of channel 1: out: it is the OUT of channel 0 too\n")

    def test_files_that_are_where_the_replies_go(self) -> None:
        """The standard output has no path to tell."""
        with open(self.folder / "script", "ab") as script:
            ended = self.run_program("--explain", "script", "in", "out", stdout=script)
        self.assertEqual(ended.end, (4, b"dsp_console: the standard output: it is SCRIPT too\n" + WRITE_FAILED[1]))
        self.assertEqual(self.told("script", "in", "/dev/stdout", status=WRITE_FAILED),
                         "dsp_console: the OUT of channel 0: /dev/stdout: it is the standard output too\n")
        with open(self.folder / "log", "wb") as log:
            ended = self.run_program("--explain", "script", "in", "log", stdout=log)
        self.assertEqual(ended.end, (4, b"dsp_console: the OUT of channel 0: log: it is the standard output too\n" + WRITE_FAILED[1]))


class Version(ConsoleCase):
    """`--version` and `--help`."""

    def test_version(self) -> None:
        number = (TOP / "VERSION").read_text().strip()
        kit = re.findall(r"^    (rattle-kit-\w+ logic [0-9a-f]+)$", (TOP / "README.md").read_text(), re.M)[-1]
        for option in ("--version", "-V"):
            self.assertEqual(self.run_program(option), (0, f"dsp_console {number}, proved with {kit}\n".encode(), b""))

    def test_help(self) -> None:
        kept = (TOP / "docs" / "dsp_console.txt").read_bytes()
        for option in ("--help", "-h"):
            self.assertEqual(self.run_program(option), (0, kept, b""))

    def test_of_a_gateway(self) -> None:
        kept = (TOP / "docs" / "gateway_console.txt").read_bytes()
        number = (TOP / "VERSION").read_text().strip()
        self.assertEqual(self.run_program("--help", program=GATEWAY), (0, kept, b""))
        self.assertTrue(self.run_program("--version", program=GATEWAY).replies.startswith(f"gateway_console {number}, ".encode()))


class OwnName(ConsoleCase):
    """The program with the kinds of a gateway says its own name, in the line of each status and before each reason."""

    def end(self, *given: Word, **how: Any) -> tuple[int, str]:
        """The status and what is said."""
        ended = self.run_program(*given, program=GATEWAY, **how)
        return ended.status, ended.stderr.decode()

    def test_the_line_of_each_status(self) -> None:
        self.assertEqual(self.end("script", "in"), (2, "gateway_console: ports come in pairs, 1 to 16\n"))
        self.assertEqual(self.end("script", b"\xff", "out"), (2, "gateway_console: an argument isn't UTF-8\n"))
        self.assertEqual(self.end("--daram=3", "script", "in", "out"), (2, "gateway_console: a space is 0 to 65536 words, a multiple of 4\n"))
        self.assertEqual(self.end("absent", "in", "out"), (3, "gateway_console: read failed\n"))
        self.assertEqual(self.end("script", "in", "/dev/full"), (4, "gateway_console: write failed\n"))

    def test_each_reason(self) -> None:
        absent = "No such file or directory (os error 2)\n"
        self.assertEqual(self.end("--explain", "absent", "in", "out"), (3, f"gateway_console: SCRIPT: absent: {absent}gateway_console: read failed\n"))
        with open("/dev/full", "wb") as full:
            self.assertEqual(self.end("--explain", "script", "in", "out", stdout=full),
                             (4, "gateway_console: the standard output: No space left on device (os error 28)\ngateway_console: write failed\n"))

    def test_a_name_in_what_is_said_stays(self) -> None:
        """What a file is called isn't taken for the program's name."""
        self.assertEqual(self.end("--explain", "dsp_console", "in", "out")[1].splitlines()[0],
                         "gateway_console: SCRIPT: dsp_console: No such file or directory (os error 2)")


if __name__ == "__main__":
    unittest.main()
