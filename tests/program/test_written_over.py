# SPDX-License-Identifier: Apache-2.0
"""No file is written over by mistake: which OUTs are refused, and what stands in all files after a run that didn't begin."""

from __future__ import annotations

import os
import resource
import subprocess
import time
import unittest
from typing import Any

from console_case import (HALF, PATIENCE, PROGRAM, NO_MEMORY, READ_FAILED, WRITE_FAILED, WRONG_SIZE, ConsoleCase, words)

DONE = b"ok\nok\nok 2\nok 1\n"


class WrittenOver(ConsoleCase):
    """An OUT that is SCRIPT, an IN, another OUT or where the replies go."""

    def setUp(self) -> None:
        super().setUp()
        self.write("in1", words(8, 10))
        self.write("old", b"left by an earlier run")

    def files(self) -> dict[str, bytes]:
        """What stands in each regular file of the folder."""
        return {path.name: path.read_bytes() for path in sorted(self.folder.iterdir()) if path.is_file()}

    def refused(self, *given: str, **how: Any) -> None:
        """The run ends with status 4 and its line, and every file is as it was."""
        before = self.files()
        ended = self.run_program(*given, **how)
        self.assertEqual((ended.end, ended.replies), (WRITE_FAILED, b""), given)
        self.assertEqual(self.files(), before, given)

    def test_an_output_that_is_the_script(self) -> None:
        self.refused("script", "in", "script")
        self.refused("script", "in", "old", "in1", "script")

    def test_an_output_that_is_an_input(self) -> None:
        self.refused("script", "in", "in")
        self.refused("script", "in", "old", "in1", "in")
        self.refused("script", "in", "in1", "in1", "old")

    def test_two_outputs_that_are_one_file(self) -> None:
        self.refused("script", "in", "old", "in1", "old")
        self.refused("script", "in", "new", "in1", "new")

    def test_an_output_that_is_made_and_read_later(self) -> None:
        self.refused("script", "in", "middle", "middle", "out")

    def test_other_names_of_the_same_file(self) -> None:
        os.link(self.folder / "in", self.folder / "hard")
        os.symlink("in", self.folder / "soft")
        os.mkdir(self.folder / "folder")
        for name in ("hard", "soft", "./in", "folder/../in", str(self.folder / "in")):
            with self.subTest(name=name):
                self.refused("script", "in", name)
                self.refused("script", name, "in")

    def test_an_output_that_is_where_the_replies_go(self) -> None:
        with open(self.folder / "log", "wb") as log:
            for name in ("/dev/stdout", "log", "/proc/self/fd/1"):
                self.assertEqual(self.run_program("script", "in", name, stdout=log).end, WRITE_FAILED)
        self.assertEqual(self.read("log"), b"")

    def test_an_output_that_is_the_pipe_of_the_replies(self) -> None:
        """Samples and replies would come out of one pipe, and nobody could tell them apart."""
        for name in ("/dev/stdout", "/proc/self/fd/1", "/dev/fd/1"):
            self.refused("script", "in", name)
            self.refused("script", "in", "old", "in1", name)
        # Of another pipe it is none of the two.
        reader, writer = os.pipe()
        self.addCleanup(os.close, reader)
        ended = self.run_program("script", "in", f"/dev/fd/{writer}", pass_fds=(writer,))
        os.close(writer)
        self.assertEqual((ended.end, ended.replies), ((0, b""), DONE))
        self.assertEqual(os.read(reader, 100), words(1, 2, 3))

    def test_a_fifo_of_the_replies(self) -> None:
        os.mkfifo(self.folder / "fifo")
        reader = os.open(self.folder / "fifo", os.O_RDONLY | os.O_NONBLOCK)
        self.addCleanup(os.close, reader)
        with open(self.folder / "fifo", "wb") as fifo:
            self.assertEqual(self.run_program("script", "in", "fifo", stdout=fifo).end, WRITE_FAILED)
        self.assertEqual(os.read(reader, 100), b"")

    def test_a_script_that_is_where_the_replies_go(self) -> None:
        """The replies would be lines of the script."""
        with open(self.folder / "script", "ab") as script:
            self.assertEqual(self.run_program("script", "in", "out", stdout=script).end, WRITE_FAILED)
        self.assertEqual(self.read("script"), HALF + b"feed 0 2\nfeed 0 1\n")
        self.assertFalse(self.exists("out"))

    def test_pipes_terminals_and_devices_may_be_named_twice(self) -> None:
        script = b"create 0 fir 0 16384\ncreate 1 fir 1 16384\nchain 0 0\nchain 1 1\nfeed 0 2\nfeed 1 2\n"
        ended = self.run_script(script, "in", "/dev/null", "in1", "/dev/null")
        self.assertEqual(ended.end, (0, b""))
        ended = self.run_script(script, "/dev/zero", "/dev/null", "/dev/zero", "/dev/null")
        self.assertEqual(ended.end, (0, b""))
        os.mkfifo(self.folder / "fifo")
        reader = os.open(self.folder / "fifo", os.O_RDONLY | os.O_NONBLOCK)
        self.addCleanup(os.close, reader)
        self.assertEqual(self.run_script(script, "in", "fifo", "in1", "fifo").end, (0, b""))
        self.assertEqual(os.read(reader, 100), words(1, 2, 4, 5))

    def test_a_terminal_may_be_everything(self) -> None:
        master, slave = os.openpty()
        self.addCleanup(os.close, master)
        name = os.ttyname(slave)
        ended = self.run_program("script", "in", name, stdout=slave)
        os.close(slave)
        self.assertEqual(ended.end, (0, b""))

    def test_a_fifo_that_is_read_and_written_waits(self) -> None:
        """To open a FIFO waits for its other end, which here is opened later by the run itself: no file is changed meanwhile."""
        os.mkfifo(self.folder / "fifo")
        before = self.files()
        with subprocess.Popen([PROGRAM, "script", "fifo", "fifo", "in", "old"], cwd=self.folder, stdin=subprocess.DEVNULL,
                              stdout=subprocess.PIPE, stderr=subprocess.PIPE) as run:
            with self.assertRaises(subprocess.TimeoutExpired):
                run.wait(1)
            run.kill()
            self.assertEqual(run.communicate(), (b"", b""))
        self.assertEqual(self.files(), before)

    def test_a_file_may_be_read_twice(self) -> None:
        script = HALF + b"create 1 fir 1 16384\nchain 1 1\nfeed 0 3\nfeed 1 3\n"
        self.assertEqual(self.run_script(script, "in", "out", "in", "out1").status, 0)
        self.assertEqual((self.read("out"), self.read("out1")), (words(1, 2, 3), words(1, 2, 3)))


class FilledMeanwhile(ConsoleCase):
    def test_an_output_that_somebody_has_filled_stays(self) -> None:
        """A run that doesn't begin takes the OUTs away again that it made, but for one that isn't empty any more. The run waits at a FIFO meanwhile."""
        os.mkfifo(self.folder / "fifo")
        with subprocess.Popen([PROGRAM, "script", "in", "new", "fifo", "other", "in", "in"], cwd=self.folder, stdin=subprocess.DEVNULL,
                              stdout=subprocess.PIPE, stderr=subprocess.PIPE) as run:
            until = time.monotonic() + PATIENCE
            while not self.exists("new") and time.monotonic() < until:
                time.sleep(0.01)
            self.write("new", b"filled by somebody")
            with open(self.folder / "fifo", "wb"):
                self.assertEqual(run.communicate(timeout=PATIENCE), (b"", WRITE_FAILED[1]))
        self.assertEqual(run.returncode, WRITE_FAILED[0])
        self.assertEqual((self.read("new"), self.exists("other")), (b"filled by somebody", False))


class Unbegun(ConsoleCase):
    """What ends before the first line leaves all files as they were, and makes none."""

    def setUp(self) -> None:
        super().setUp()
        self.write("old", b"left by an earlier run")

    def left_alone(self, wanted: tuple[int, bytes], *given: str, **how: Any) -> None:
        """The run ends as wanted, and no file is changed, made or gone."""
        before = {path: path.read_bytes() if path.is_file() else b"" for path in sorted(self.folder.iterdir())}
        ended = self.run_program(*given, **how)
        self.assertEqual((ended.end, ended.replies), (wanted, b""), given)
        after = {path: path.read_bytes() if path.is_file() else b"" for path in sorted(self.folder.iterdir())}
        self.assertEqual(after, before, given)

    def test_a_wrong_size(self) -> None:
        self.left_alone(WRONG_SIZE, "--daram", "6", "script", "in", "old")
        self.left_alone(WRONG_SIZE, "--daram", "6", "script", "in", "new")

    def test_a_later_file_that_is_not_there(self) -> None:
        for out in ("old", "new"):
            self.left_alone(READ_FAILED, "script", "in", out, "absent", "out1")
            self.left_alone(WRITE_FAILED, "script", "in", out, "in", "absent/out")
        self.left_alone(READ_FAILED, "absent", "in", "old")

    def test_the_first_file_that_fails_gives_the_status(self) -> None:
        """Files are opened in the order of the command line, of each pair the IN first."""
        self.left_alone(READ_FAILED, "absent", "in", "absent/out")
        self.left_alone(READ_FAILED, "script", "absent", "absent/out")
        self.left_alone(WRITE_FAILED, "script", "in", "absent/out", "absent", "old")
        self.left_alone(READ_FAILED, "--daram", "6", "absent", "in", "old")

    def test_a_script_that_is_a_folder(self) -> None:
        for out in ("old", "new"):
            self.left_alone(READ_FAILED, ".", "in", out)

    def test_no_memory(self) -> None:
        def little() -> None:
            resource.setrlimit(resource.RLIMIT_DATA, (300 * 1024, 300 * 1024))
        for out in ("old", "new"):
            self.left_alone(NO_MEMORY, "script", "in", out, preexec_fn=little)

    def test_too_few_descriptors(self) -> None:
        def few() -> None:
            resource.setrlimit(resource.RLIMIT_NOFILE, (12, 12))
        ports = [name for c in range(16) for name in ("in", f"out{c}")]
        before = sorted(os.listdir(self.folder))
        self.assertIn(self.run_program("script", *ports, preexec_fn=few).end, (READ_FAILED, WRITE_FAILED))
        self.assertEqual(sorted(os.listdir(self.folder)), before)

    def test_a_link_to_no_file(self) -> None:
        """What is made through a link stays, empty."""
        os.symlink("target", self.folder / "link")
        self.assertEqual(self.run_program("--daram", "6", "script", "in", "link").end, WRONG_SIZE)
        self.assertEqual((self.read("target"), os.readlink(self.folder / "link")), (b"", "target"))
        self.assertEqual(self.run_program("script", "in", "link").status, 0)
        self.assertEqual(self.read("target"), words(1, 2, 3))

    def test_a_run_that_begins_makes_its_outputs_anew(self) -> None:
        for script, status in ((b"", 0), (b"\n\n", 0), (b"fly\n", 1)):
            self.write("old", b"left by an earlier run")
            self.assertEqual(self.run_script(script, "in", "old").status, status)
            self.assertEqual(self.read("old"), b"")

    def test_a_fault_after_the_first_line(self) -> None:
        self.assertEqual(self.run_program("script", ".", "old"), (3, b"ok\nok\n", READ_FAILED[1]))
        self.assertEqual(self.read("old"), b"")


if __name__ == "__main__":
    unittest.main()
