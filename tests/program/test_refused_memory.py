# SPDX-License-Identifier: Apache-2.0
"""Each request for memory of the program is refused in turn: it ends with status 5, and none is made once a line was served."""

from __future__ import annotations

import subprocess
import tempfile
import unittest
from pathlib import Path

from console_case import HALF, NO_MEMORY, ConsoleCase

from rokdaum_model.program import TOP

SOURCE = TOP / "tests/preload/refuse_nth.c"
MANY = b"".join(b"create %d fir %d 16384 %d\nmap daram\n" % (i, i % 8, i) for i in range(64)) + b"compact daram\nfly\ndelete 3\nstat 0\n" * 200


class RefusedMemory(ConsoleCase):
    """What a run asks the system for, and what it does where that is refused."""

    folder_of_library: tempfile.TemporaryDirectory
    library: Path

    @classmethod
    def setUpClass(cls) -> None:
        cls.folder_of_library = tempfile.TemporaryDirectory()
        cls.addClassCleanup(cls.folder_of_library.cleanup)
        cls.library = Path(cls.folder_of_library.name) / "refuse_nth.so"
        subprocess.run(["cc", "-O2", "-Wall", "-Werror", "-shared", "-fPIC", "-o", cls.library, SOURCE, "-ldl"], check=True)

    def under(self, refused: int) -> dict[str, str]:
        """The environment in which the request of this number is refused, and all are counted."""
        return {"LD_PRELOAD": str(self.library), "REFUSE": str(refused), "COUNTED": "counted"}

    def requests(self, script: bytes) -> int:
        """How many requests a run over this script makes."""
        self.write("given", script)
        self.run_program("given", "in", "out", environment=self.under(0))
        return int(self.read("counted"))

    def test_none_is_made_for_a_line(self) -> None:
        self.write("out", b"")
        self.assertEqual(self.requests(MANY), self.requests(b"stat 0\n"))

    def test_each_is_refused_in_turn(self) -> None:
        """No reply is written then, an OUT that was there is as it was, and one that wasn't is away."""
        self.write("given", HALF + b"feed 0 2\n")
        plain = self.run_program("given", "in", "old", "in", "new", environment=self.under(0))
        self.assertEqual((plain.status, plain.replies), (0, b"ok\nok\nok 2\n"))
        for number in range(1, int(self.read("counted")) + 1):
            self.write("old", b"left by an earlier run")
            (self.folder / "new").unlink(missing_ok=True)
            with self.subTest(request=number):
                ended = self.run_program("given", "in", "old", "in", "new", environment=self.under(number))
                self.assertEqual((ended.end, ended.replies), (NO_MEMORY, b""))
                self.assertEqual((self.read("old"), self.exists("new")), (b"left by an earlier run", False))

    def test_help_and_wrong_words(self) -> None:
        for given in (("--help",), ("--version",), ("--poison", "65536", "script", "in", "out"), ("script", "in"), ("--explain", "script", "in", "out")):
            with self.subTest(given=given):
                self.run_program(*given, environment=self.under(0))
                for number in range(1, int(self.read("counted")) + 1):
                    (self.folder / "out").unlink(missing_ok=True)   # to make it takes a request more
                    self.assertEqual(self.run_program(*given, environment=self.under(number)).end, NO_MEMORY)


if __name__ == "__main__":
    unittest.main()
