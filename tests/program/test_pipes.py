# SPDX-License-Identifier: Apache-2.0
"""SCRIPT, INs, OUTs and replies that are pipes."""

from __future__ import annotations

import os
import select
import signal
import subprocess
import threading
import time
import unittest

from console_case import HALF, PATIENCE, PROGRAM, WRITE_FAILED, ConsoleCase, piped, words


def end_by_signals() -> None:
    """In a child: the signals that end a program do so, also where whoever started the tests ignores them."""
    for sent in (signal.SIGINT, signal.SIGHUP, signal.SIGTERM):
        signal.signal(sent, signal.SIG_DFL)


class Dialogue:
    """A run whose SCRIPT is a pipe, line by line: each line is written when the reply before it has come."""

    def __init__(self, case: ConsoleCase, *ports: str):
        self.process = subprocess.Popen([PROGRAM, "/dev/stdin", *ports], cwd=case.folder, stdin=subprocess.PIPE,
                                        stdout=subprocess.PIPE, stderr=subprocess.PIPE, bufsize=0, preexec_fn=end_by_signals)
        self.script, self.replies, self.stderr = piped(self.process.stdin), piped(self.process.stdout), piped(self.process.stderr)
        case.addCleanup(self.stop)

    def ask(self, line: bytes, seconds: float = PATIENCE) -> bytes:
        """Writes a line; its reply. Raises `TimeoutError` where none comes in time."""
        self.script.write(line + b"\n")
        reply = b""
        while not reply.endswith(b"\n"):
            if not select.select([self.replies], [], [], seconds)[0]:
                raise TimeoutError(f"no reply to {line!r} in {seconds} s")
            part = os.read(self.replies.fileno(), 65536)
            if not part:
                return reply
            reply += part
        return reply

    def end(self) -> tuple[int, bytes]:
        """Ends the script; the status and the standard error."""
        self.script.close()
        status = self.process.wait(PATIENCE)
        return status, self.stderr.read()

    def stop(self) -> None:
        """Ends a run that is still there, and closes its pipes."""
        if self.process.poll() is None:
            self.process.kill()
            self.process.wait()
        for pipe in (self.script, self.replies, self.stderr):
            pipe.close()


class Scripts(ConsoleCase):
    """SCRIPT is a pipe: whoever writes a line gets its reply before there is another line."""

    def talk(self, count: int) -> None:
        """Makes `count` channels, feeds the last, and looks at its samples before the next line."""
        talk = Dialogue(self, *self.pairs([words(2, 4, 6)] * count))
        last = count - 1
        for c in range(count):
            self.assertEqual(talk.ask(b"create %d fir %d 16384" % (c, c % 8)), b"ok\n")
            self.assertEqual(talk.ask(b"chain %d %d" % (c, c)), b"ok\n")
        self.assertEqual(talk.ask(b"feed %d 2" % last), b"ok 2\n")
        self.assertEqual(self.read(f"out{last}"), words(1, 2))
        self.assertEqual(talk.ask(b"feed 0 1"), b"ok 1\n")
        self.assertEqual(self.read("out0")[:2], words(1))
        self.assertTrue(talk.ask(b"map external").startswith(b"ok i0.r0@0+4"))
        self.assertEqual(talk.ask(b"control 0 get"), b"ok 16384\n")
        self.assertEqual(talk.ask(b"fly"), b"no 2 syntax\n")
        self.assertEqual(talk.end(), (1, b""))

    def test_one_pair(self) -> None:
        self.talk(1)

    def test_two_pairs(self) -> None:
        self.talk(2)

    def test_three_pairs(self) -> None:
        self.talk(3)

    def test_sixteen_pairs(self) -> None:
        self.talk(16)

    def test_a_long_map_comes_at_once(self) -> None:
        talk = Dialogue(self, *self.pairs([b""]))
        for i in range(64):
            talk.ask(b"create %d biquad %d 1 2 3 4 5" % (i, i % 8))
        found = talk.ask(b"map saram")
        self.assertEqual(found.count(b"@"), 64)
        self.assertEqual(talk.end(), (0, b""))

    def test_a_script_whose_writer_goes_within_a_line(self) -> None:
        """The line is served as it stands."""
        ended = self.run_program("/dev/stdin", "in", "out", stdin=HALF + b"feed 0 1")
        self.assertEqual(ended, (0, b"ok\nok\nok 1\n", b""))

    def test_an_empty_script(self) -> None:
        self.assertEqual(self.run_program("/dev/stdin", "in", "out", stdin=b""), (0, b"", b""))
        self.assertEqual(self.run_program("/dev/null", "in", "out"), (0, b"", b""))


class Devices(ConsoleCase):
    """INs and OUTs that are pipes."""

    def fifo(self, name: str) -> str:
        """Makes a pipe with a name."""
        os.mkfifo(self.folder / name)
        return name

    def writer(self, name: str, parts: list[bytes]) -> None:
        """Writes into a pipe from a thread, part by part, and closes it."""
        def write() -> None:
            with open(self.folder / name, "wb", buffering=0) as pipe:
                for part in parts:
                    pipe.write(part)
                    time.sleep(0.002)
        thread = threading.Thread(target=write, daemon=True)
        thread.start()
        self.addCleanup(thread.join, PATIENCE)

    def test_an_input_that_comes_byte_by_byte(self) -> None:
        self.fifo("pipe")
        self.writer("pipe", [bytes([b]) for b in words(2, 4, 6)])
        self.assertEqual(self.run_program("script", "pipe", "out"), (0, b"ok\nok\nok 2\nok 1\n", b""))
        self.assertEqual(self.read("out"), words(1, 2, 3))

    def test_an_input_whose_writer_goes_within_a_sample(self) -> None:
        self.fifo("pipe")
        self.writer("pipe", [words(2, 4) + b"\6"])
        self.assertEqual(self.run_program("script", "pipe", "out"), (1, b"ok\nok\nok 2\nno 10 short\n", b""))
        self.assertEqual(self.read("out"), words(1, 2))

    def test_an_output_that_is_read(self) -> None:
        self.fifo("pipe")
        got = []

        def drain() -> None:
            got.append((self.folder / "pipe").read_bytes())
        thread = threading.Thread(target=drain, daemon=True)
        thread.start()
        self.assertEqual(self.run_program("script", "in", "pipe").status, 0)
        thread.join(PATIENCE)
        self.assertEqual(got, [words(1, 2, 3)])

    def test_an_output_that_is_read_slowly(self) -> None:
        """A pipe takes a part of what is written, again and again; nothing is lost."""
        samples = bytes(range(256)) * 2000
        self.write("in", samples)
        self.fifo("pipe")
        got = []

        def drain() -> None:
            with open(self.folder / "pipe", "rb", buffering=0) as pipe:
                while part := pipe.read(4999):
                    got.append(part)
                    time.sleep(0.0005)
        thread = threading.Thread(target=drain, daemon=True)
        thread.start()
        script = b"create 0 fir 0 32767\nchain 0 0\n" + b"feed 0 1000\n" * 256
        self.assertEqual(self.run_script(script, "in", "pipe", "--in8=1", "--out8=1").status, 0)
        thread.join(PATIENCE)
        self.assertEqual(b"".join(got), samples[:256000])

    def test_an_output_whose_reader_goes(self) -> None:
        self.fifo("pipe")
        self.write("in", words(2) * 100000)

        def look() -> None:
            with open(self.folder / "pipe", "rb", buffering=0) as pipe:
                pipe.read(1)
        thread = threading.Thread(target=look, daemon=True)
        thread.start()
        self.assertEqual(self.run_script(HALF + b"feed 0 1000\n" * 100, "in", "pipe").end, WRITE_FAILED)
        thread.join(PATIENCE)

    def test_replies_whose_reader_goes(self) -> None:
        self.write("in", words(2) * 100000)
        self.write("long", HALF + b"feed 0 1\n" * 60000)
        process = subprocess.Popen([PROGRAM, "long", "in", "out"], cwd=self.folder, stdin=subprocess.DEVNULL,
                                   stdout=subprocess.PIPE, stderr=subprocess.PIPE)
        replies, stderr = piped(process.stdout), piped(process.stderr)
        self.assertEqual(replies.readline(), b"ok\n")
        replies.close()
        self.assertEqual((process.wait(PATIENCE), stderr.read()), WRITE_FAILED)
        stderr.close()
        self.assertGreater(len(self.read("out")), 0)

    def test_a_run_that_is_ended_from_outside(self) -> None:
        """OUT has the samples of every reply that is out, in whole lines and whole feeds."""
        for sent in (signal.SIGTERM, signal.SIGHUP, signal.SIGINT, signal.SIGKILL):
            with self.subTest(signal=sent):
                talk = Dialogue(self, *self.pairs([words(*range(0, 2000, 2))]))
                talk.ask(b"create 0 fir 0 16384")
                talk.ask(b"chain 0 0")
                told = 0
                for n in range(1, 30):
                    self.assertEqual(talk.ask(b"feed 0 %d" % n), b"ok %d\n" % n)
                    told += n
                talk.process.send_signal(sent)
                self.assertEqual(talk.process.wait(PATIENCE), -sent)
                self.assertEqual(self.read("out0"), words(*range(told)))


if __name__ == "__main__":
    unittest.main()
