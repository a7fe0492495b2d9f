"""What the tests share: is there a program, are there libraries, and a stand-in that answers as it is told."""
from __future__ import annotations

import importlib.util
import os
import stat
import sys
import tempfile
import unittest
from typing import Any

from subgraph_solver import NotACommand, ProgramMissing, find
from subgraph_solver.program import find_program

TRIANGLE = [(0, 1), (1, 2), (2, 0)]
CYCLE = [(0, 1), (1, 2), (2, 3), (3, 0)]
PATH = [("a", "b"), ("b", "c")]


def _has_program() -> bool:
    try:
        find_program()
    except ProgramMissing:
        return False
    return True


needs_program = unittest.skipUnless(_has_program(), "the program is not built")


def needs(library: str) -> Any:
    """Skips a test where a library is not installed."""
    return unittest.skipUnless(importlib.util.find_spec(library), f"{library} is not installed")


def takes(**options: Any) -> bool:
    """Does this build of the program know the options?"""
    try:
        find([], [], **options)
    except NotACommand:
        return False
    return True


class StandIn:
    """A program that ends with a status and lines of one's choice, and notes the words that it got.

    It is a context manager; `path` is the program and `words()` what it got. A body of one's own is a script for `by`, in
    which ``{notes!r}`` stands for the file of notes.
    """

    def __init__(self, status: int = 0, out: str = "", error: str = "", body: str = "", by: str = sys.executable) -> None:
        self.by = by
        self.body = body or (
            "import sys\n"
            f"open({{notes!r}}, 'a').write(' '.join(sys.argv[1:]) + '\\n')\n"
            f"sys.stdout.write({out!r}); sys.stderr.write({error!r}); sys.exit({status})\n"
        )

    def __enter__(self) -> "StandIn":
        self._folder = tempfile.TemporaryDirectory()
        self.path = os.path.join(self._folder.name, "stand_in")
        self.notes = os.path.join(self._folder.name, "notes")
        with open(self.path, "w", encoding="utf-8") as file:
            file.write(f"#!{self.by}\n" + self.body.replace("{notes!r}", repr(self.notes)))
        os.chmod(self.path, os.stat(self.path).st_mode | stat.S_IXUSR)
        return self

    def __exit__(self, *_: object) -> None:
        self._folder.cleanup()

    def words(self) -> list:
        """The words of each call."""
        with open(self.notes, encoding="utf-8") as file:
            return [line.split() for line in file]
