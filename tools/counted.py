# SPDX-License-Identifier: Apache-2.0
"""How a part of `./check` counts: as JSON, `{"passed": N, "failed": M}`, in the file that the environment names in ROKDAUM_COUNT.

A script calls `keep`, or prints that line into the file itself. Tests of `unittest` are run by this module:

    python3 -B tools/counted.py [-s FOLDER] [-p PATTERN] [-t FOLDER]     as `python3 -m unittest discover` does

A test that was skipped hasn't passed: it isn't counted, and its reason is printed.
"""

from __future__ import annotations

import argparse
import json
import os
import sys
import unittest
from pathlib import Path

VARIABLE = "ROKDAUM_COUNT"


def keep(passed: int, failed: int) -> None:
    """Keeps how many passed and failed, where somebody asks for it."""
    path = os.environ.get(VARIABLE)
    if path:
        Path(path).write_text(json.dumps({"passed": passed, "failed": failed}) + "\n", encoding="utf-8")


def main() -> int:
    """Runs tests, keeps their count; the exit status."""
    asked = argparse.ArgumentParser(prog="counted.py", description="Runs the tests of a folder and keeps their count.")
    asked.add_argument("-s", "--start", default=".", help="the folder of the tests")
    asked.add_argument("-p", "--pattern", default="test*.py", help="their files")
    asked.add_argument("-t", "--top", help="the folder from which they are imported")
    given = asked.parse_args()
    result = unittest.TextTestRunner(verbosity=1).run(unittest.defaultTestLoader.discover(given.start, given.pattern, given.top))
    bad = len(result.failures) + len(result.errors) + len(result.unexpectedSuccesses)
    for test, why in result.skipped:
        print(f"skipped: {test}: {why}")
    keep(max(0, result.testsRun - bad - len(result.skipped)), bad)
    return 0 if result.wasSuccessful() and result.testsRun else 1


if __name__ == "__main__":
    # A test must not find this folder's modules by accident.
    sys.path[0] = os.getcwd()
    sys.exit(main())
