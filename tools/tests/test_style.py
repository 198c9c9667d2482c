# SPDX-License-Identifier: Apache-2.0
"""The scripts of this repository: their types by mypy, their shell by shellcheck, and the one dialect of Python that all of them keep to."""

from __future__ import annotations

import ast
import re
import subprocess
import unittest
from pathlib import Path

TOP = Path(__file__).resolve().parents[2]
DIALECT = (3, 10)


def scripts(interpreter: str) -> list[Path]:
    """The files that git knows whose first line names this interpreter."""
    listed = subprocess.run(["git", "ls-files", "-z", "--cached", "--others", "--exclude-standard"], cwd=TOP, capture_output=True, text=True, check=True).stdout.split("\0")
    found = []
    for name in sorted(filter(None, set(listed))):
        path = TOP / name
        if path.is_file() and not path.is_symlink():
            with open(path, "rb") as file:
                if re.match(rb"#!\S*(?:/env )?\S*\b" + interpreter.encode() + rb"\d*\s", file.readline(200)):
                    found.append(path)
    return found


def python_files() -> list[Path]:
    """All files of Python that git knows: the scripts, and the modules."""
    listed = subprocess.run(["git", "ls-files", "-z", "--cached", "--others", "--exclude-standard", "*.py"], cwd=TOP, capture_output=True, text=True, check=True).stdout.split("\0")
    return sorted({*scripts("python"), *(TOP / name for name in listed if name and (TOP / name).is_file())})


class Style(unittest.TestCase):
    def test_types(self) -> None:
        """Every file of Python by tools/mypy.ini: those of a folder in one go, since two scripts of one name can't be."""
        folders: dict[Path, list[str]] = {}
        for path in python_files():
            folders.setdefault(path.parent, []).append(str(path.relative_to(TOP)))
        self.assertGreater(len(folders), 20)
        for folder, names in folders.items():
            with self.subTest(folder=folder):
                done = subprocess.run(["/usr/bin/mypy", "--config-file", "tools/mypy.ini", *names], cwd=TOP, capture_output=True, text=True, check=False)
                self.assertEqual((done.returncode, done.stderr), (0, ""), done.stdout)

    def test_shell(self) -> None:
        found = scripts("(?:ba|da)?sh")
        self.assertGreater(len(found), 8)
        done = subprocess.run(["shellcheck", "--external-sources", "--shell=bash", *map(str, found), "docs/completion/dsp_console"], cwd=TOP, capture_output=True, text=True, check=False)
        self.assertEqual((done.returncode, done.stdout + done.stderr), (0, ""))

    def test_dialect(self) -> None:
        """Each file of Python is read as Python 3.10 reads it."""
        found = python_files()
        self.assertGreater(len(found), 60)
        for path in found:
            with self.subTest(path=path):
                ast.parse(path.read_text(encoding="utf-8"), feature_version=DIALECT)


if __name__ == "__main__":
    unittest.main()
