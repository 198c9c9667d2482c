# SPDX-License-Identifier: Apache-2.0
"""Odd scripts, odd files and closed descriptors."""

from __future__ import annotations

import os
import random
import resource
import signal
import subprocess
import unittest
from typing import Callable, Optional

from console_case import HALF, PATIENCE, PROGRAM, READ_FAILED, WRITE_FAILED, ConsoleCase, piped, words

DONE = b"ok\nok\nok 2\nok 1\n"
BILLION = 1_000_000_000
EVERY_COMMAND = b"""\
create 0 fir 0 16384 8192
create 1 decim 0 2 16384 16384
create 2 biquad 1 8192 0 0 0 0
create 3 tone 1 27980 64 4
create 4 g711 2 0 0
create 5 g711 2 1 1
chain 0 0 2 1
chain 1 5 4
feed 0 100
feed 1 64
control 0 set 16384 4096
control 2 get
control 1 reset
unchain 1
delete 5
create 5 g711 3 1 0
stat 0
map daram
map saram
map external
step daram
compact saram
compact external
release 0
chain 1 5 3
feed 1 64
unknown
"""
# What docs/SCRIPTS.md says that a run takes, in bytes.
STACK = 128 * 1024
ADDRESS_SPACE = 8 * 1024 * 1024


class Closed(ConsoleCase):
    """Runs whose standard descriptors are closed. No reply and no message ever lands in an OUT."""

    def closed(self, which: tuple[int, ...], *given: str) -> tuple[int, bytes, bytes]:
        """Runs the program with some of the descriptors 0, 1 and 2 closed; the status and what came to the others."""
        def close() -> None:
            for descriptor in which:
                os.close(descriptor)
        done = subprocess.run([PROGRAM, *given], cwd=self.folder, stdin=subprocess.DEVNULL, capture_output=True,
                              timeout=PATIENCE, preexec_fn=close)
        return done.returncode, done.stdout, done.stderr

    def test_no_standard_input(self) -> None:
        self.assertEqual(self.closed((0,), "script", "in", "out"), (0, DONE, b""))
        self.assertEqual(self.read("out"), words(1, 2, 3))

    def test_no_standard_output(self) -> None:
        self.assertEqual(self.closed((1,), "script", "in", "out"), (4, b"", WRITE_FAILED[1]))
        self.assertEqual(self.read("out"), words(1, 2, 3))

    def test_no_standard_error(self) -> None:
        self.assertEqual(self.closed((2,), "absent", "in", "out"), (3, b"", b""))
        self.assertEqual(self.closed((2,), "script", "in", "out"), (0, DONE, b""))

    def test_several_at_once(self) -> None:
        for which in ((0, 1), (0, 2), (1, 2), (0, 1, 2)):
            with self.subTest(closed=which):
                self.assertEqual(self.closed(which, "script", "in", "out")[0], 4 if 1 in which else 0)
                self.assertEqual(self.read("out"), words(1, 2, 3))
        self.assertEqual(self.closed((0, 1, 2), "absent", "in", "out")[0], 3)
        self.assertEqual(self.read("out"), words(1, 2, 3))


class Outputs(ConsoleCase):
    """Standard outputs and limits that no one thinks of."""

    def test_help_that_cannot_be_written(self) -> None:
        for option in ("--help", "--version"):
            with open("/dev/full", "wb") as full:
                self.assertEqual(self.run_program(option, stdout=full).end, WRITE_FAILED)

    def test_a_standard_output_that_does_not_wait(self) -> None:
        """Replies that find a pipe full whose writer mustn't wait are a write that failed: OUT has what they tell of."""
        self.write("in", words(2) * 100_000)
        self.write("long", HALF + b"feed 0 1\n" * 100_000)
        reader, writer = os.pipe()
        os.set_blocking(writer, False)
        with open(self.folder / "told", "wb") as told:
            done = subprocess.run([PROGRAM, "long", "in", "out"], cwd=self.folder, stdin=subprocess.DEVNULL, stdout=writer,
                                  stderr=told, timeout=PATIENCE)
        os.close(writer)
        with os.fdopen(reader, "rb") as pipe:
            replies = pipe.read().split(b"\n")[:-1]
        self.assertEqual((done.returncode, self.read("told")), WRITE_FAILED)
        self.assertGreaterEqual(len(self.read("out")) // 2, len(replies) - 2)

    def test_a_limit_of_a_file_s_size(self) -> None:
        """Where the caller ignores the signal it is a write that failed, else the signal ends the program: OUT has what the replies tell of."""
        self.write("in", words(2) * 100_000)
        self.write("long", HALF + b"feed 0 1000\n" * 100)
        for ignored, status in ((signal.SIG_IGN, 4), (signal.SIG_DFL, -signal.SIGXFSZ)):
            def limit() -> None:
                signal.signal(signal.SIGXFSZ, ignored)
                resource.setrlimit(resource.RLIMIT_FSIZE, (16384, 16384))
            ended = self.run_program("long", "in", "out", preexec_fn=limit, restore_signals=False)
            self.assertEqual(ended.status, status)
            told = ended.replies.count(b"ok 1000\n")
            self.assertGreaterEqual(len(self.read("out")), 2000 * told)


class Files(ConsoleCase):
    """Names and files."""

    def test_names_of_every_sort(self) -> None:
        for name in ("a name", "a\nname", "\u00e4\u65e5", "'", "*", "name.", "n" * 255, "=", "--", "\\"):
            with self.subTest(name=name):
                self.write(name, self.read("in"))
                self.assertEqual(self.run_program("--", "script", name, "out").status, 0)
                self.assertEqual(self.read("out"), words(1, 2, 3))
        self.assertEqual(self.run_program("script", "n" * 256, "out").end, READ_FAILED)
        self.assertEqual(self.run_program("script", "in", "n" * 256).end, WRITE_FAILED)

    def test_a_file_may_be_read_twice(self) -> None:
        script = b"create 0 fir 0 16384\ncreate 1 fir 0 16384\nchain 0 0\nchain 1 1\nfeed 0 3\nfeed 1 3\n"
        self.assertEqual(self.run_script(script, "in", "out", "in", "out1").status, 0)
        self.assertEqual((self.read("out"), self.read("out1")), (words(1, 2, 3), words(1, 2, 3)))

    def test_a_script_may_be_an_input(self) -> None:
        self.assertEqual(self.run_program("script", "script", "out").status, 0)

    @unittest.skipIf(os.geteuid() == 0, "nothing is forbidden to root")
    def test_files_without_leave(self) -> None:
        self.write("locked", b"")
        os.chmod(self.folder / "locked", 0)
        self.assertEqual(self.run_program("locked", "in", "out").end, READ_FAILED)
        self.assertEqual(self.run_program("script", "in", "locked").end, WRITE_FAILED)


class Scripts(ConsoleCase):
    """Scripts that no one would write."""

    def test_random_bytes(self) -> None:
        """Each line is answered: nothing but refusals, and none for a blank line."""
        data = random.Random(11).randbytes(3_000_000)
        ended = self.run_script(data, "in", "out")
        lines = data.split(b"\n")
        answered = [line for line in lines if len(line) > 1024
                    or line.removesuffix(b"\r").replace(b"\t", b" ").strip(b" ")]
        wanted = [b"no 1 long" if len(line) > 1024 else b"no 2 syntax" for line in answered]
        self.assertEqual(ended.end, (1, b""))
        self.assertEqual(ended.replies.split(b"\n")[:-1], wanted)

    def test_lines_at_the_limit(self) -> None:
        for line, reply in ((b"stat 0" + b" " * 1018, b"ok - 0\n"), (b"stat 0" + b" " * 1019, b"no 1 long\n"),
                            (b"stat 0" + b" " * 1017 + b"\r", b"ok - 0\n"), (b" " * 1025, b"no 1 long\n"), (b" " * 1024, b""),
                            (b"x" * 5000, b"no 1 long\n"), (b"\xef\xbb\xbfstat 0", b"no 2 syntax\n"),
                            (b"feed 0\0 1", b"no 2 syntax\n"), (b"\tstat\t\t0 ", b"ok - 0\n"), (b"stat -0", b"ok - 0\n")):
            for end in (b"\n", b""):
                with self.subTest(line=line[:20], end=end):
                    self.assertEqual(self.run_script(line + end, "in", "out").replies, reply)

    def test_each_byte_as_a_line(self) -> None:
        """A blank, a tab, a line feed and a carriage return ask for nothing."""
        lines = [bytes([byte]) for byte in range(256)]
        refused = [line for line in lines if line not in (b" ", b"\t", b"\n", b"\r")]
        ended = self.run_script(b"".join(line + b"\n" for line in lines), "in", "out")
        self.assertEqual(ended, (1, b"no 2 syntax\n" * len(refused), b""))
        for line in (b"\0", b" ", b"\r", b"\xff"):
            self.assertEqual(self.run_script(line, "in", "out").replies, b"no 2 syntax\n" if line in refused else b"")

    def test_numbers_that_begin_with_zeros_and_signs(self) -> None:
        for line, reply in ((b"feed -0 1", b"no 5 missing\n"), (b"create 00 fir 0 032767", b"ok\n"), (b"feed +0 1", b"no 2 syntax\n"),
                            (b"feed 0-0 1", b"no 2 syntax\n"), (b"stat\0 0", b"no 2 syntax\n"), (b"create 0 f\0ir 0 1", b"no 2 syntax\n"),
                            (b"feed 0 1\xff", b"no 2 syntax\n")):
            with self.subTest(line=line):
                self.assertEqual(self.run_script(line, "in", "out").replies, reply)

    def zeros(self, count: int, head: bytes = b"", tail: bytes = b"") -> tuple[int, bytes, bytes]:
        """A script by a pipe of `count` bytes: a head, NULs, a tail."""
        process = subprocess.Popen([PROGRAM, "/dev/stdin", "in", "out"], cwd=self.folder, stdin=subprocess.PIPE,
                                   stdout=subprocess.PIPE, stderr=subprocess.PIPE)
        script, replies, stderr = piped(process.stdin), piped(process.stdout), piped(process.stderr)
        try:
            script.write(head)
            left = count - len(head) - len(tail)
            while left:
                left -= script.write(bytes(min(left, 1 << 20)))
            script.write(tail)
            script.close()
        except BrokenPipeError:
            pass
        status = process.wait(2 * PATIENCE)
        found = status, replies.read(), stderr.read()
        for pipe in (replies, stderr):
            pipe.close()
        return found

    def test_a_script_of_the_greatest_length(self) -> None:
        self.assertEqual(self.zeros(BILLION), (1, b"no 1 long\n", b""))

    def test_a_script_that_is_a_byte_too_long(self) -> None:
        self.assertEqual(self.zeros(BILLION + 1), (3, b"", READ_FAILED[1]))

    def test_lines_before_the_limit_are_served(self) -> None:
        head, feed = HALF + b"#", b"\nfeed 0 1"
        self.assertEqual(self.zeros(BILLION, head, feed), (1, b"ok\nok\nno 1 long\nok 1\n", b""))
        self.assertEqual(self.zeros(BILLION + 1, head, feed + b"\n"), (3, b"ok\nok\nno 1 long\n", READ_FAILED[1]))


def under(what: int, limit: int) -> Callable[[], None]:
    """What gives a run a limit of the system."""
    return lambda: resource.setrlimit(what, (limit, limit))


class Memory(ConsoleCase):
    """What a run takes and gives back."""

    def most_memory(self, script: Optional[bytes]) -> int:
        """The most memory that a run has, in KiB."""
        self.write("given", script or b"")
        done = subprocess.run(["/usr/bin/env", "python3", "-c", "import resource, subprocess, sys\n"
                               "subprocess.run(sys.argv[1:], stdout=subprocess.DEVNULL)\n"
                               "print(resource.getrusage(resource.RUSAGE_CHILDREN).ru_maxrss)", PROGRAM, "given", "in", "out"],
                              cwd=self.folder, capture_output=True, timeout=PATIENCE, check=True)
        return int(done.stdout)

    def test_a_long_script_takes_no_more(self) -> None:
        lines = b"create 0 fir 0 1\nmap daram\nstat 0\ndelete 0\n"
        self.assertLess(self.most_memory(lines * 50000), self.most_memory(lines) + 512)

    def test_each_access_is_right_and_all_goes_back(self) -> None:
        """Under valgrind, over every command, each kind and both widths of ports, with a poison word and without one."""
        ports = self.pairs([words(*range(0, 1000, 7)) * 2, bytes(range(256))])
        for options in ((), ("--poison=21845",), ("--in8=2", "--out8=2"), ("--daram=0", "--saram=1024")):
            with self.subTest(options=options):
                plain = self.run_script(EVERY_COMMAND, *options, *ports)
                watched = subprocess.run(["valgrind", "-q", "--error-exitcode=99", "--leak-check=full", "--show-leak-kinds=all", "--errors-for-leak-kinds=all",
                                          PROGRAM, *options, "given", *ports], cwd=self.folder, capture_output=True, timeout=PATIENCE)
                self.assertEqual((watched.returncode, watched.stdout, watched.stderr), plain)

    def test_a_small_stack(self) -> None:
        """What SCRIPTS.md says that a run needs suffices for sixteen pairs and the longest lines; with a quarter of it no file is touched."""
        self.suffices(resource.RLIMIT_STACK, STACK)
        self.write("old", b"left by an earlier run")
        self.assertEqual(self.run_program("script", "in", "old", "in", "new", preexec_fn=under(resource.RLIMIT_STACK, STACK // 4)), (-signal.SIGSEGV, b"", b""))
        self.assertEqual((self.read("old"), self.exists("new")), (b"left by an earlier run", False))

    def test_a_small_address_space(self) -> None:
        self.suffices(resource.RLIMIT_AS, ADDRESS_SPACE)

    def suffices(self, what: int, limit: int) -> None:
        """A run over sixteen pairs under the limit is as without it."""
        ports = self.pairs([words(*range(1024))] * 16)
        script = b"".join(b"create %d fir 0%s\nchain %d %d\nfeed %d 1024\nmap external\n" % (c, b" 16384" * 64, c, c, c) for c in range(16))
        script += b"compact daram\n" + b"x" * 1024 + b"\n"
        free = self.run_script(script, *ports)
        self.assertEqual((free.status, free.replies.count(b"ok 1024\n")), (1, 16))
        self.assertEqual(self.run_script(script, *ports, preexec_fn=under(what, limit)), free)


if __name__ == "__main__":
    unittest.main()
