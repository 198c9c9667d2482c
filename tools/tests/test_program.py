# SPDX-License-Identifier: Apache-2.0
"""What `dsp_console` does around the program, over a small repository and a stand-in for `rt` that writes down its calls."""

from __future__ import annotations

import os
import re
import shutil
import subprocess
import sys
import tempfile
import time
import unittest
from collections.abc import Callable
from pathlib import Path
from unittest import mock

TOP = Path(__file__).resolve().parents[2]
sys.path.insert(0, str(TOP / "tools"))

import program  # noqa: E402  (it stands in tools/)
from crates import Crate, closure, parse  # noqa: E402
from tests.case import entered  # noqa: E402

KIT = "rattle-kit-1 logic 00ff"
# Says its version, or proves both crates and makes a program that prints its text, or fails where a source says so.
RT = """#!/usr/bin/env bash
echo "$*" >> "$CALLS"
case $1 in
    version) echo "$KIT_HERE" ;;
    try) shift 2; printf '%s\\n' "$@" ;;
    ci)
        [ -d crates/low/must-fail ] && echo "an edit was copied"
        if grep -q wrong crates/low/src/lib.rt; then echo "rt: low NOT PROVED"; echo "0 passed, 2 failed"; exit 1; fi
        if grep -q kept crates/low/src/lib.rt; then echo "rt: low is kept: an earlier run on this machine proved the same files"; else echo "rt: low proved"; fi
        echo "rt: dsp_console_main proved"
        mkdir crates/dsp_console_main/out
        made=crates/dsp_console_main/out/dsp_console_main
        printf '#!/bin/sh\\necho "%s" "$@"\\nexit 3\\n' "$(cat crates/low/src/lib.rt)" > $made
        chmod +x $made
        echo "2 passed, 0 failed" ;;
esac
"""


class Wrapper(unittest.TestCase):
    def setUp(self) -> None:
        self.room = Path(entered(self, tempfile.TemporaryDirectory()))
        self.top = self.room / "repository"
        for crate, name in (("low", "lib"), ("dsp_console_main", "main"), ("beside", "lib")):
            (self.top / "crates" / crate / "src").mkdir(parents=True)
            (self.top / "crates" / crate / "src" / f"{name}.rt").write_text("first")
        (self.top / "crates" / "low" / "must-fail").mkdir()
        (self.top / "crates.txt").write_text("low: arrayvec\ndsp_console_main: low\nbeside: low\n")
        (self.top / "HANDLES").write_text("Handles allowed: none.\n")
        (self.top / "VERSION").write_text("1.2.3\n")
        (self.top / "README.md").write_text(f"    {KIT}\n")
        (self.top / "docs").mkdir()
        (self.top / "docs" / "dsp_console.txt").write_text("the help\n")
        shutil.copytree(TOP / "tools", self.top / "tools", ignore=shutil.ignore_patterns("__pycache__"))
        shutil.copy(TOP / "dsp_console", self.top)
        self.bin = self.room / "bin"
        self.bin.mkdir()
        (self.bin / "rt").write_text(RT)
        (self.bin / "rt").chmod(0o755)
        self.calls = self.room / "calls"
        self.calls.write_text("")

    def run_it(self, *words: str, kit: str = KIT, has_rt: bool = True) -> subprocess.CompletedProcess:
        path = f"{self.bin}:/usr/bin:/bin" if has_rt else "/usr/bin:/bin"
        more = {"PATH": path, "CALLS": str(self.calls), "KIT_HERE": kit}
        return subprocess.run([sys.executable, self.top / "dsp_console", *words], cwd=self.room, env={**os.environ, **more}, capture_output=True, text=True)

    def builds(self) -> int:
        return self.calls.read_text().splitlines().count("ci")

    def test_the_first_call_builds_and_runs(self) -> None:
        ran = self.run_it("a", "b")
        self.assertEqual((ran.stdout, ran.returncode), ("first a b\n", 3))
        self.assertIn("2 crates are proved", ran.stderr)
        self.assertIn("proved low, 1 of 2", ran.stderr)
        self.assertIn("proved dsp_console_main, 2 of 2, the program is next", ran.stderr)
        self.assertNotIn("left", ran.stderr.splitlines()[-1])

    def test_an_archive_is_made_of_what_the_proofs_left(self) -> None:
        (self.top / "crates" / "ffi" / "src").mkdir(parents=True)
        (self.top / "crates" / "ffi" / "src" / "lib.rt").write_text("for C")
        (self.top / "crates" / "low" / "out" / "rlib" / "low.rlib").mkdir(parents=True)
        with open(self.top / "crates.txt", "a") as listed:
            listed.write("ffi staticlib: low\n")
        (self.bin / "rattle").write_text('#!/usr/bin/env bash\nfor word; do last=$word; done\necho "$*" > "$last"\n')
        (self.bin / "rattle").chmod(0o755)
        (self.room / "toolchain" / "bin").mkdir(parents=True)
        shutil.copy(self.bin / "rattle", self.room / "toolchain" / "bin" / "clang")
        call = "import sys; sys.path.insert(0, 'tools'); import program; program.keep_archive('ffi', sys.argv[1] or program.checksum('ffi')); print(program.is_built('ffi'), program.archives(), program.has_libraries())"
        more = {**os.environ, "PATH": f"{self.bin}:/usr/bin:/bin"}

        def made(sources: str) -> str:
            return subprocess.run([sys.executable, "-B", "-c", call, sources], cwd=self.top, env=more, capture_output=True, text=True, check=True).stdout

        archive = self.top / "crates" / "ffi" / "out" / "libffi.a"
        self.assertEqual((made("of other sources"), archive.exists()), ("False ['ffi'] True\n", False))
        self.assertEqual(made(""), "True ['ffi'] True\n")
        self.assertIn(f"--extern low={self.top}/crates/low/out/rlib/low.rlib", archive.read_text())
        # a further build is another call over the same libraries, which begins with what the one before it checked
        further = "import sys; sys.path.insert(0, 'tools'); import program; from pathlib import Path; room = Path(sys.argv[1]); [program.make_by_rattle(room / build, program.TOP, f'ffi@{build}', room / 'log', room / 'checked') for build in program.BUILDS]"
        subprocess.run([sys.executable, "-B", "-c", further, str(self.room)], cwd=self.top, env=more, check=True)
        self.assertIn("--cpu x86-64-v3", (self.room / "x86-64-v3").read_text())
        self.assertIn("--target aarch64-unknown-linux-gnu", (self.room / "aarch64-linux-gnu").read_text())
        self.assertIn("-S -emit-llvm", (self.room / "module").read_text())
        self.assertNotIn("--incremental", archive.read_text())
        self.assertEqual(self.builds(), 0)

    def test_what_was_proved_before_is_counted(self) -> None:
        (self.top / "crates" / "low" / "src" / "lib.rt").write_text("kept")
        ran = self.run_it()
        self.assertNotIn("proved low", ran.stderr)
        self.assertIn("proved dsp_console_main, 2 of 2, the program is next", ran.stderr)

    def test_the_name_says_which_program_is_run(self) -> None:
        (self.top / "gateway_console").symlink_to("dsp_console")
        made = self.top / "crates" / "gateway_console"
        (made / "src").mkdir(parents=True)
        (made / "src" / "main.rt").write_text("first")
        with (self.top / "crates.txt").open("a") as listed:
            listed.write("gateway_console: low\n")
        (self.bin / "rt").write_text(RT.replace("dsp_console_main", "gateway_console"))
        ran = subprocess.run([sys.executable, self.top / "gateway_console", "a"], cwd=self.room, env={**os.environ, "PATH": f"{self.bin}:/usr/bin:/bin", "CALLS": str(self.calls), "KIT_HERE": KIT}, capture_output=True, text=True)
        self.assertEqual((ran.stdout, ran.returncode), ("first a\n", 3), ran.stderr)
        self.assertTrue(all(line.startswith("gateway_console: ") for line in ran.stderr.splitlines()), ran.stderr)

    def test_the_second_call_runs_alone(self) -> None:
        self.run_it("a")
        ran = self.run_it("a")
        self.assertEqual((ran.stdout, ran.stderr, self.builds()), ("first a\n", "", 1))

    def test_a_change_of_any_source_is_built(self) -> None:
        self.run_it()
        (self.top / "crates" / "low" / "src" / "lib.rt").write_text("second")
        self.assertEqual((self.run_it().stdout, self.builds()), ("second\n", 2))
        (self.top / "crates" / "low" / "specs").mkdir()
        (self.top / "crates" / "low" / "specs" / "New.antt").write_text("x")
        self.run_it()
        self.assertEqual(self.builds(), 3)
        (self.top / "crates.txt").write_text("low:\ndsp_console_main: low\nbeside: low\n")
        self.run_it()
        self.assertEqual(self.builds(), 4)

    def test_an_older_time_stamp_hides_no_change(self) -> None:
        self.run_it()
        changed = self.top / "crates" / "low" / "src" / "lib.rt"
        changed.write_text("second")
        os.utime(changed, (0, 0))
        self.assertEqual(self.run_it().stdout, "second\n")

    def test_what_the_program_does_not_stand_on_is_not_looked_at(self) -> None:
        self.run_it()
        (self.top / "crates" / "beside" / "src" / "lib.rt").write_text("second")
        self.run_it()
        self.assertEqual(self.builds(), 1)

    def test_help_and_version_build_nothing(self) -> None:
        self.assertEqual(self.run_it("--help").stdout, "the help\n")
        self.assertEqual(self.run_it("--version").stdout, f"dsp_console 1.2.3, proved with {KIT}\n")
        self.assertEqual(self.calls.read_text(), "")

    def test_a_refused_source_leaves_the_old_program_unused(self) -> None:
        self.run_it()
        (self.top / "crates" / "low" / "src" / "lib.rt").write_text("wrong")
        ran = self.run_it("a")
        self.assertEqual((ran.stdout, ran.returncode), ("", program.NOT_BUILT))
        self.assertIn("low is refused", ran.stderr)

    def test_a_machine_without_rt_is_told_what_is_missing(self) -> None:
        ran = self.run_it("a", has_rt=False)
        self.assertEqual((ran.stdout, ran.returncode), ("", program.CANT_BUILD_HERE))
        self.assertEqual(len(ran.stderr.splitlines()), 1)

    def test_a_kit_of_another_logic_is_refused(self) -> None:
        ran = self.run_it("a", kit="rattle-kit-2 logic ee")
        self.assertEqual((ran.returncode, self.builds()), (program.CANT_BUILD_HERE, 0))

    def test_another_kit_of_the_same_logic_is_named(self) -> None:
        ran = self.run_it("a", kit="rattle-kit-2 logic 00ff")
        self.assertEqual(ran.returncode, 3)
        self.assertIn("rattle-kit-2", ran.stderr)

    def test_unproved_says_so_and_passes_absolute_paths(self) -> None:
        ran = self.run_it("--unproved", "--daram", "64", "script", "in", "out")
        self.assertEqual(ran.stdout.splitlines(), ["--daram", "64", f"{self.room}/script", f"{self.room}/in", f"{self.room}/out"])
        self.assertIn("NOTHING OF THIS PROGRAM IS PROVED", ran.stderr)
        self.assertEqual(self.builds(), 0)


class Parts(unittest.TestCase):
    def test_a_folder_that_is_too_small_is_refused(self) -> None:
        with mock.patch.object(program.shutil, "disk_usage", return_value=mock.Mock(free=5_000_000_000)):
            with self.assertRaises(program.CantBuild) as refusal:
                program.look_at_disk(Path("/tmp"))
        self.assertEqual(refusal.exception.status, program.CANT_BUILD_HERE)
        self.assertIn("5.0 GB are free", str(refusal.exception))

    def test_values_of_options_are_no_paths(self) -> None:
        here = os.getcwd()
        self.assertEqual(program.absolute(["--poison=3", "--in8", "1", "--", "-s", "/i"]), ["--poison=3", "--in8", "1", "--", f"{here}/-s", "/i"])

    def test_a_static_library_is_an_archive(self) -> None:
        self.assertEqual([program.path_of(it).name for it in ("dsp_library", "voice_set", program.NAME)], ["libdsp_library.a", "voice_set", "dsp_console_main"])

    def test_further_builds_are_of_the_same_crates(self) -> None:
        names = ("dsp_library@x86-64-v3", "dsp_library@aarch64-linux-gnu", "dsp_library@module", "dsp_console_main@module")
        self.assertEqual([program.path_of(it).name for it in names], ["libdsp_library-x86-64-v3.a", "libdsp_library-aarch64-linux-gnu.a", "dsp_library.ll", "dsp_console_main.ll"])
        self.assertEqual({program.checksum(it) for it in names[:3]}, {program.checksum("dsp_library")})
        self.assertEqual(program.closure("dsp_library", *names[:3]), program.closure("dsp_library"))
        self.assertEqual(program.closure("dsp_console_main@module")[-1], program.NAME)
        self.assertEqual([program.is_archive(it) for it in names], [True, True, True, False])
        self.assertTrue(all(map(program.is_by_rattle, names)))
        self.assertFalse(program.is_by_rattle(program.NAME))

    def test_a_crate_stands_behind_what_it_uses(self) -> None:
        crates = program.closure()
        listed = program.uses()
        self.assertEqual(crates[-1], program.NAME)
        for at, crate in enumerate(crates):
            for below in listed[crate]:
                self.assertTrue(below not in listed or below in crates[:at], (crate, below))


class Listed(unittest.TestCase):
    def test_a_list_is_read(self) -> None:
        found = parse("# of all\n## base\nlow: arrayvec  # a comment\n\n## upper\nhigh staticlib : low arrayvec\nbare:\n")
        self.assertEqual(list(found.values()), [Crate("low", ("arrayvec",), False, "base"), Crate("high", ("low", "arrayvec"), True, "upper"), Crate("bare", (), False, "upper")])
        self.assertEqual([it.line for it in found.values()], ["low: arrayvec\n", "high staticlib: low arrayvec\n", "bare: \n"])
        self.assertEqual(closure(found, "bare", "high"), ["bare", "low", "high"])

    def test_each_line_of_the_repositorys_is_read(self) -> None:
        lines = [line for line in (TOP / "crates.txt").read_text().splitlines() if line.strip() and not line.startswith("#")]
        self.assertEqual(len(parse((TOP / "crates.txt").read_text())), len(lines))


class Minutes(unittest.TestCase):
    """What a build says of the minutes left: by the pace of this machine, and never growing."""

    def said(self, pace: Callable[[int], float], kept: float | None = None) -> list[tuple[float, int, str]]:
        """Of a build of forty crates, one on the other, each of which takes so many times what it takes on idle processors: at each crate
        the minutes that really are left, those that are said, and the line."""
        names = [f"crate_{at}" for at in range(40)]
        listed = {name: Crate(name, (names[at - 1],) if at else ()) for at, name in enumerate(names)}
        lines: list[str] = []
        now = [0.0]
        with mock.patch.object(program, "listed", return_value=listed), mock.patch.object(program, "source_files", return_value=[]), \
                mock.patch.object(program, "CRATE_SECONDS", 24.0), mock.patch.object(program, "kept_pace", return_value=kept), \
                mock.patch.object(program.time, "monotonic", side_effect=lambda: now[0]):
            progress = program.Progress(names, lines.append)
            progress.begin()
            now[0] += program.READ_SECONDS
            ends = []
            for at, name in enumerate(names):
                now[0] += 24.0 * pace(at)
                ends.append(now[0])
                progress.proved(name)
        self.begun = lines[0]
        told = [(line, re.search(r"(\d+) minutes left", line)) for line in lines[1:-1]]
        return [((now[0] - end) / 60, int(found[1]), line) for end, (line, found) in zip(ends, told) if found]

    def test_they_never_grow(self) -> None:
        for pace in (lambda at: 1.0, lambda at: 2.0, lambda at: 1.0 if at < 20 else 4.0, lambda at: 4.0 if at < 20 else 1.0, lambda at: 0.5 + at % 3):
            minutes = [said for _, said, _ in self.said(pace)]
            self.assertEqual(minutes, sorted(minutes, reverse=True))
            self.assertEqual(len(minutes), 39)

    def test_they_are_true_of_a_steady_machine(self) -> None:
        for pace in (1.0, 1.5, 2.0):
            for left, said, line in self.said(lambda at: pace)[20:]:
                self.assertLess(abs(left - said), 3, line)
            for left, said, line in self.said(lambda at: pace, kept=pace):
                self.assertLess(abs(left - said), 3, line)

    def test_a_build_that_falls_behind_says_so(self) -> None:
        self.assertTrue(any("more than" in line for _, _, line in self.said(lambda at: 1.0 if at < 30 else 8.0)))

    def test_the_first_line_has_a_range_or_this_machines_minutes(self) -> None:
        self.said(lambda at: 1.0)
        self.assertIn("in 18 to 35 minutes, as the machine is", self.begun)
        self.said(lambda at: 1.0, kept=1.5)
        self.assertIn("in about 26 minutes", self.begun)

    def test_what_is_proved_already_is_not_counted(self) -> None:
        lines: list[str] = []
        listed = {"low": Crate("low"), "high": Crate("high", ("low",))}
        with mock.patch.object(program, "listed", return_value=listed), mock.patch.object(program, "source_files", return_value=[]):
            progress = program.Progress(["low", "high"], lines.append, ("high",), ("low",))
            progress.begin()
            progress.proved("low")
            progress.proved("high")
        self.assertIn("1 of 2 crates are proved already, and 1 are left", lines[0])
        self.assertEqual(lines[1:], ["proved high, 2 of 2, the program is next"])

    def test_a_pace_is_kept_of_a_long_build_alone(self) -> None:
        with tempfile.TemporaryDirectory() as folder, mock.patch.object(program, "pace_file", return_value=Path(folder) / "out" / "pace.json"):
            self.assertIsNone(program.kept_pace())
            progress = program.Progress([], print, ("none",))
            progress.end()
            self.assertIsNone(program.kept_pace())
            progress.whole, progress.began = 1000.0, time.monotonic() - 1500
            progress.end()
            self.assertAlmostEqual(program.kept_pace() or 0, 1.5, 1)
            for wrong in ("", "{}", "[]", '{"pace": "x"}', '{"pace": -1}'):
                program.pace_file().write_text(wrong)
                self.assertIsNone(program.kept_pace(), wrong)


class Ahead(unittest.TestCase):
    """The run for the longest chain, of a program over two crates that stand on each other and over five that stand on one."""

    def setUp(self) -> None:
        self.room = Path(entered(self, tempfile.TemporaryDirectory()))
        sides = [f"side_{it}" for it in range(5)]
        listed: dict[str, list[str]] = {"low": [], **{it: ["low"] for it in sides}, "mid": ["low"], "high": ["mid"], "main": [*sides, "high"]}
        entered(self, mock.patch.object(program, "listed", return_value={name: Crate(name, tuple(below)) for name, below in listed.items()}))
        entered(self, mock.patch.object(program, "source_files", return_value=[]))
        self.said: list[str] = []
        self.progress = program.Progress(program.closure("main"), self.said.append)
        self.progress.begin()

    def put_rt(self, text: str) -> None:
        rt = self.room / "kit" / "bin" / "rt"
        rt.parent.mkdir(parents=True)
        rt.write_text(f"#!/usr/bin/env bash\n{text}\n")
        rt.chmod(0o755)
        entered(self, mock.patch.dict(os.environ, {"PATH": f"{rt.parent}:/usr/bin:/bin"}))

    def test_its_crate_is_the_highest_that_stands_on_the_chain_alone(self) -> None:
        self.assertEqual(self.progress.chain_top(), "high")

    def test_it_tells_what_it_proved_and_can_be_ended(self) -> None:
        self.put_rt('echo "$*" > asked; echo "rt: low proved"; exec sleep 100')
        ahead = program.Ahead(self.room, "high", self.progress)
        while len(self.said) < 2:
            time.sleep(0.01)
        ahead.end()
        self.assertEqual((self.room / "asked").read_text(), "ci high\n")
        self.assertIn("proved low, 1 of 9", self.said[1])

    def test_it_goes_where_it_helps(self) -> None:
        self.put_rt("true")
        helps: dict[str, int] = {"lanes": 4, "memory": 16_000_000_000, "disk": 20_000_000_000, "keeps": True}
        cases: tuple[tuple[dict[str, int], bool], ...] = (({}, True), ({"lanes": 2}, False), ({"memory": 4_000_000_000}, False), ({"disk": 8_000_000_000}, False), ({"keeps": False}, False))
        for changed, goes in cases:
            case = {**helps, **changed}
            self.progress.lanes = case["lanes"]
            with (
                mock.patch.object(program, "memory_free", return_value=case["memory"]),
                mock.patch.object(program.shutil, "disk_usage", return_value=mock.Mock(free=case["disk"])),
                mock.patch.object(program, "keeps_proofs", return_value=case["keeps"]),
            ):
                ahead = program.Ahead.of(self.room, self.progress)
            if ahead:
                ahead.end()
            self.assertEqual(ahead is not None, goes, case)

    def test_proofs_are_kept_beside_the_kit(self) -> None:
        self.put_rt("true")
        self.assertTrue(program.keeps_proofs())
        (self.room / "rattle-kept").mkdir()
        rt = str(self.room / "kit" / "bin" / "rt")
        with mock.patch.object(program.shutil, "which", return_value=rt), mock.patch.object(program.os, "access", return_value=False) as asked:
            self.assertFalse(program.keeps_proofs())
        asked.assert_called_once_with((self.room / "rattle-kept").resolve(), os.W_OK)

    def test_nothing_is_kept_on_a_disk_that_is_nearly_full(self) -> None:
        self.put_rt("true")
        with mock.patch.object(program.shutil, "disk_usage", return_value=mock.Mock(free=5_000_000_000)):
            self.assertFalse(program.keeps_proofs())


if __name__ == "__main__":
    unittest.main()
