# SPDX-License-Identifier: Apache-2.0
"""A copy of the repository in another folder, for tests that write where users do: no file of the repository's own folder is reached
from there by a link.

What git knows is copied as it stands, with what is built: the programs and libraries that are built from these sources. It is a repository
of its own, with one commit, so `git status` there tells what was left behind.
"""

from __future__ import annotations

import os
import shutil
import subprocess
from pathlib import Path

import program


def git(folder: Path, *words: str) -> str:
    """What git says in a folder. Raises CalledProcessError where it fails."""
    own = {**os.environ, "GIT_AUTHOR_NAME": "scratch", "GIT_AUTHOR_EMAIL": "scratch@localhost", "GIT_COMMITTER_NAME": "scratch", "GIT_COMMITTER_EMAIL": "scratch@localhost"}
    return subprocess.run(["git", "-c", "core.hooksPath=/dev/null", *words], cwd=folder, env=own, capture_output=True, text=True, check=True).stdout


def copy(folder: Path) -> None:
    """Fills a folder, which is made where it isn't there, with the copy."""
    for name in filter(None, git(program.TOP, "ls-files", "-z").split("\0")):
        source, target = program.TOP / name, folder / name
        if source.is_symlink() or source.is_file():
            target.parent.mkdir(parents=True, exist_ok=True)
            shutil.copy2(source, target, follow_symlinks=False)
    for name in (program.NAME, program.GATEWAY, program.MIXED, *program.archives()):
        if program.is_built(name):
            for path in (program.path_of(name), program.built_from(name)):
                target = folder / path.relative_to(program.TOP)
                target.parent.mkdir(parents=True, exist_ok=True)
                shutil.copy2(path, target)
    git(folder, "init", "-q")
    git(folder, "add", "--all")
    git(folder, "commit", "-q", "-m", "a copy")


def left_behind(folder: Path) -> list[str]:
    """What was changed or made in the copy and isn't ignored, a line of `git status` each."""
    return git(folder, "status", "--porcelain", "--untracked-files=all").splitlines()
