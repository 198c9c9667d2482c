# SPDX-License-Identifier: Apache-2.0
"""The package itself: its version, its functions' lengths, its documents' examples and man pages."""

from __future__ import annotations

import ast
import doctest
import os
import re
import subprocess
import tempfile
from pathlib import Path
from unittest import mock

from case import PYTHON, REPOSITORY, Case, noise, tone
from library_case import why_there_is_no_library

import rokdaum

LONGEST_FUNCTION = 40


class Package(Case):
    def test_version(self) -> None:
        given = (REPOSITORY / "VERSION").read_text().strip()
        self.assertEqual(rokdaum.__version__, given)
        self.assertEqual(re.findall(r'(?m)^version = "(.*)"$', (PYTHON / "pyproject.toml").read_text()), [given])
        self.assertEqual(rokdaum.library.SONAME, (REPOSITORY / "SONAME").read_text().strip())

    def test_levels(self) -> None:
        """The build for x86-64-v3 is looked for where the processor has all of that level, and before the other."""
        package = Path(rokdaum.library.__file__).parent
        higher = str(package / rokdaum.library.HWCAPS / rokdaum.library.NAME)
        every = " ".join(rokdaum.library.LEVEL)
        with tempfile.TemporaryDirectory() as room, mock.patch.dict(os.environ), mock.patch.object(Path, "is_file", return_value=True):
            os.environ.pop(rokdaum.library.VARIABLE, None)
            for text, has in ((f"processor\t: 0\nflags\t\t: fpu {every} sse\n", True), (f"flags\t\t: {every.replace('avx2', 'avx')}\n", False), ("Features\t: fp asimd\n", False)):
                (Path(room) / "cpuinfo").write_text(text)
                with mock.patch.object(rokdaum.library, "CPUINFO", Path(room) / "cpuinfo"):
                    self.assertEqual(rokdaum.library.candidates()[: 1 + has], [higher, str(package / rokdaum.library.NAME)][1 - has :])
            with mock.patch.object(rokdaum.library, "CPUINFO", Path(room) / "none"):
                self.assertFalse(rokdaum.library.has_level())

    def test_functions_are_short_and_documented(self) -> None:
        seen = 0
        for path in sorted((PYTHON / "rokdaum").rglob("*.py")):
            for node in ast.walk(ast.parse(path.read_text())):
                if isinstance(node, ast.FunctionDef):
                    seen += 1
                    with self.subTest(function=f"{path.name}: {node.name}"):
                        self.assertLessEqual((node.end_lineno or 0) - node.lineno + 1, LONGEST_FUNCTION)
                        self.assertTrue(node.name.startswith("_") or ast.get_docstring(node), "no docstring")
                        self.assertTrue(node.returns is not None, "no type")
        self.assertGreater(seen, 100)

    def test_types(self) -> None:
        """Debian's mypy has no complaint."""
        done = subprocess.run(["mypy", "--cache-dir", str(self.room / "cache")], cwd=PYTHON, capture_output=True, text=True, check=False)
        self.assertEqual((done.returncode, done.stdout.splitlines()[-1:]), (0, [f"Success: no issues found in {len(list((PYTHON / 'rokdaum').rglob('*.py')))} source files"]))

    def test_files_need_python_alone(self) -> None:
        """dsp_run and dsp_map's text work where numpy isn't."""
        self.write("in", noise(2000))
        self.write("s", "create 0 fir 0 16384\nchain 0 0\nfeed 0 all\nmap daram\n")
        (self.room / "block").mkdir()
        for name in ("numpy", "scipy", "matplotlib"):
            (self.room / "block" / f"{name}.py").write_text("raise ImportError('not here')\n")
        environment = {**os.environ, "PYTHONPATH": str(self.room / "block")}
        for words, last in ((["dsp_run", "s", "in", "out"], "ok g0@0+1024"), (["dsp_map", "replies"], "letters: 0=g0")):
            done = subprocess.run(["/usr/bin/env", "python3", str(PYTHON / "bin" / words[0]), *words[1:]], cwd=self.room, env=environment, capture_output=True, text=True)
            self.assertEqual(done.stderr, "")
            self.assertEqual(done.stdout.splitlines()[-1], last)
            self.write("replies", done.stdout)


class Documents(Case):
    def test_examples_in_python(self) -> None:
        """The lines of docs/PYTHON.md that begin with >>> give what stands below them."""
        self.assertEqual(why_there_is_no_library(), "")
        os.chdir(self.room)
        self.addCleanup(os.chdir, REPOSITORY)
        self.write("speech.raw", noise(3000))
        page = REPOSITORY / "docs" / "PYTHON.md"
        failed, tried = doctest.testfile(str(page), module_relative=False, optionflags=doctest.NORMALIZE_WHITESPACE | doctest.ELLIPSIS)
        self.assertEqual(failed, 0)
        self.assertGreater(tried, 10)

    def test_examples_in_the_shell(self) -> None:
        """The lines of docs/PYTHON.md that begin with $ end with status 0, and print what stands below them."""
        self.write("speech.raw", tone(1000, 8000, 11820))
        blocks = re.findall(r"(?m)^    \$ (.*)\n((?:    (?!\$|>>>)\S.*\n)*)", (REPOSITORY / "docs" / "PYTHON.md").read_text())
        self.assertGreater(len(blocks), 5)
        for command, printed in blocks:
            with self.subTest(command=command):
                done = subprocess.run(["bash", "-c", command], cwd=self.room, env={**os.environ, "PATH": f"{PYTHON / 'bin'}:{os.environ['PATH']}"}, capture_output=True, text=True)
                self.assertEqual(done.returncode, 1 if "no 3" in printed else 0, done.stderr)
                wanted = re.sub(r"(?m)^    ", "", printed)
                self.assertEqual([line for line in wanted.splitlines() if line not in (done.stdout + done.stderr).splitlines()], [])

    def test_man_pages(self) -> None:
        """Each option of a command stands in its man page, and roff has no complaint."""
        for name in ("dsp_run", "dsp_design", "dsp_map"):
            page = REPOSITORY / "docs" / "man" / f"{name}.1"
            text = page.read_text().replace("\\-", "-")
            shown = self.command(name, "--help").stdout
            helps = [shown] + ([self.command(name, what, "--help").stdout for what in ("low", "notch", "fir", "decim", "sos", "taps", "tone", "gain", "level", "dtmf")] if name == "dsp_design" else [])
            for option in set(re.findall(r"--[a-z0-9]+", " ".join(helps))) - {"--help"}:
                with self.subTest(page=name, option=option):
                    self.assertIn(option, text)
            for option in set(re.findall(r"(?m)^\.(?:BR?|IR?) (--[a-z0-9]+)", text)) - {"--help"}:
                self.assertIn(option, " ".join(helps))
            made = subprocess.run(["man", "--warnings", "-l", str(page)], capture_output=True, text=True, env={**os.environ, "MANPAGER": "cat", "MANWIDTH": "80"})
            self.assertEqual((made.returncode, made.stderr), (0, ""))
