#!/usr/bin/env python3
"""Compares each answer in README and in the pages of the examples, of the formats and of Python with what the program prints today.

    examples/check.py [--program PROGRAM] [--write] [PAGE ..]

A page's commands are its indented lines that begin with `$`, and a command's answer is the indented lines below it.
With --write the pages get the answers of today. Without --program the program is the one that `./subgraph` builds, which
must be there. Commands of Python are left out, and told so, where they need a library that is not installed. The status
is 1 where an answer differs.
"""
from __future__ import annotations

import argparse
import importlib.util
import os
import shlex
import subprocess
import sys
import tempfile
from pathlib import Path
from typing import List, Optional, Tuple

TOP = Path(__file__).resolve().parent.parent
INDENT = "    "
COMMAND = f"{INDENT}$ "
#: Further pages with commands.
PAGES = ("README.md", "docs/FORMATS.md", "python/README.md")
#: Behind these words stands a file that the command writes.
WRITTEN = ("--prove", "--log")
LIBRARIES = {".smi": "rdkit", ".gml": "networkx", ".graphml": "networkx"}


def lacks(words: List[str]) -> Optional[str]:
    """A library that the command needs and that is not installed."""
    for word in words:
        library = LIBRARIES.get(Path(word).suffix)
        if library and importlib.util.find_spec(library) is None:
            return library
    return None


def answer(command: str, program: str, folder: str) -> Tuple[Optional[str], str]:
    """What a command prints, and why it was left out. Files that it writes lie in the folder."""
    words, found, into = command.partition(" > ")
    split = shlex.split(words)
    if split[0] == "./subgraph":
        split[0] = program
    elif split[:3] == ["python3", "-m", "subgraph_solver"]:
        library = lacks(split)
        if library:
            return None, f"{library} is not installed"
        split[0] = sys.executable
    else:
        return None, "it is no command of this repository"
    for at, word in enumerate(split):
        inside = os.path.join(folder, word)
        is_out = split[1] == "trim" and at == len(split) - 1
        if os.path.exists(inside) or is_out or (at > 0 and split[at - 1] in WRITTEN):
            split[at] = inside
    environment = {**os.environ, "PYTHONPATH": str(TOP / "python"), "SUBGRAPH_PROGRAM": program}
    done = subprocess.run(split, cwd=TOP, env=environment, capture_output=True, text=True, timeout=120)
    if found:
        Path(folder, into.strip()).write_text(done.stdout)
        return "", ""
    return done.stdout + done.stderr, ""


class Page:
    """A page as it was read, as it should be, and how many answers are as they were, differ, or were left out."""

    def __init__(self, path: Path, program: str) -> None:
        self.name = path.relative_to(TOP)
        self.lines = path.read_text(encoding="utf-8").splitlines()
        self.made: List[str] = []
        self.counts = [0, 0, 0]
        with tempfile.TemporaryDirectory() as folder:
            at = 0
            while at < len(self.lines):
                line = self.lines[at]
                told = self._told(at + 1) if line.startswith(COMMAND) else []
                self.made.append(line)
                if line.startswith(COMMAND):
                    self.made += self._now(line[len(COMMAND) :], told, program, folder)
                at += 1 + len(told)

    def _told(self, at: int) -> List[str]:
        """The indented lines from here that are no command."""
        end = at
        while end < len(self.lines) and self.lines[end].startswith(INDENT) and not self.lines[end].startswith(COMMAND):
            end += 1
        return self.lines[at:end]

    def _now(self, command: str, told: List[str], program: str, folder: str) -> List[str]:
        """The lines of today's answer."""
        found, why = answer(command, program, folder)
        if found is None:
            self.counts[2] += 1
            print(f"{self.name}: left out, since {why}: {command}")
            return told
        now = [(INDENT + it).rstrip() for it in found.splitlines()]
        self.counts[now != told] += 1
        if now != told:
            print(f"{self.name}: {command}")
            print(*(f"  told: {it.strip()}" for it in told), *(f"  now:  {it.strip()}" for it in now), sep="\n")
        return now


def main() -> int:
    words = argparse.ArgumentParser(description=__doc__.splitlines()[0])
    words.add_argument("pages", nargs="*", type=Path)
    words.add_argument("--program", default=str(TOP / "crates" / "subgraph" / "out" / "subgraph"))
    words.add_argument("--write", action="store_true")
    asked = words.parse_args()
    if not os.access(asked.program, os.X_OK):
        print(f"{asked.program} is not there: build it by ./subgraph", file=sys.stderr)
        return 2
    counts = [0, 0, 0]
    for page in asked.pages or [*sorted((TOP / "examples").rglob("*.md")), *(TOP / it for it in PAGES)]:
        found = Page(page.resolve(), os.path.abspath(asked.program))
        counts = [a + b for a, b in zip(counts, found.counts)]
        if asked.write:
            page.write_text("\n".join(found.made) + "\n", encoding="utf-8")
    print(f"{counts[0]} answers as told, {counts[1]} differ, {counts[2]} left out")
    return 1 if counts[1] and not asked.write else 0


if __name__ == "__main__":
    sys.exit(main())
