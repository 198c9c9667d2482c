# SPDX-License-Identifier: Apache-2.0
"""The model as a program with the command line of `dsp_console`:

    python3 -m rokdaum_model [--kinds hosted|mixed|gateway] [--form history|running] [the words of dsp_console]
"""

from __future__ import annotations

import os
import sys
from dataclasses import replace
from typing import Sequence

from .command_line import PortsError, UsageError, arguments, config_of
from .console import FAULT_STATUS, Fault, run, status_line
from .ports import FileIn, FileOut
from .sets import HOSTED


def _own_options(words: list[str]) -> tuple[str, str]:
    """Takes the model's own options off the front of the words."""
    own = {"--kinds": HOSTED, "--form": "history"}
    while words and words[0] in own:
        own[words.pop(0)] = words.pop(0)
    return own["--kinds"], own["--form"]


def _failed(cause: str, status: int, kinds: str) -> int:
    print(status_line(cause, kinds), file=sys.stderr)
    return status


def main(given: Sequence[str]) -> int:
    """Serves a script over files; the exit status."""
    words = list(given)
    kinds, form = _own_options(words)
    try:
        asked = arguments(words)
    except UsageError as error:
        print(f"error: {error}", file=sys.stderr)
        return 2
    except PortsError:
        return _failed("ports", 2, kinds)
    ins, outs = [], []
    try:
        script = FileIn(os.open(asked.script, os.O_RDONLY))
        for source, sink in asked.ports:
            ins.append(FileIn(os.open(source, os.O_RDONLY)))
            try:
                outs.append(FileOut(os.open(sink, os.O_WRONLY | os.O_CREAT | os.O_TRUNC, 0o666)))
            except OSError:
                return _failed("write", 4, kinds)
    except OSError:
        return _failed("read", 3, kinds)
    try:
        refused = run(replace(config_of(asked), kinds=kinds, form=form), script, ins, outs, FileOut(1))
    except Fault as fault:
        return _failed(fault.cause, FAULT_STATUS[fault.cause], kinds)
    return 1 if refused else 0


if __name__ == "__main__":
    sys.exit(main(sys.argv[1:]))
