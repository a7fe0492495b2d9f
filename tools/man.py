#!/usr/bin/env python3
"""Writes docs/subgraph.1, the manual page. Its statuses are those of the README's table, and its version is that of the file VERSION.

    tools/man.py [--check] [--run PROGRAM]

With --check nothing is written, and the status is 1 where the page is not the one that would be written. With --run nothing is written either:
the session of the page is run by a shell in an empty folder, with PROGRAM as `subgraph`, and the status is 1 where an answer differs.
"""
from __future__ import annotations

import argparse
import os
import re
import subprocess
import sys
import tempfile
from pathlib import Path
from typing import List, Tuple

TOP = Path(__file__).resolve().parent.parent
PAGE = TOP / "docs" / "subgraph.1"

SYNOPSIS = """\
subgraph solve [OPTION]... PATTERN TARGET
subgraph batch [--format F] [--threads N] [--seed N] [--budget N] [--book N] LIST
subgraph verify [--format F] [--induced] [--map M] [--less L] PATTERN TARGET MAPPING
subgraph encode [--format F] [--induced] [--map M] [--less L] PATTERN TARGET
subgraph check ENCODING LOG
subgraph trim ENCODING LOG OUT
subgraph demo [--threads N] [--budget N] SEED
"""
DESCRIPTION = """\
An embedding maps each vertex of PATTERN to a vertex of TARGET, and keeps labels and edges. Unless `--map` says so, no two vertices have one image.
`solve` finds an embedding, or tells that none exists, or that its budget is spent. `batch` does so for each line of LIST, and writes a line for it: the names of a pattern
and a target, and perhaps `induced`, with one blank between. `verify` tests the mapping of a file. `encode` writes the question as pseudo-Boolean constraints,
whose solutions are the embeddings. `check` judges a proof log over such constraints. `trim` writes to OUT the steps of a log that its end rests on, each deleted behind its
last use. OUT is neither of the other files by name. `demo` makes two problems from SEED and decides them: a planted pattern, and a cycle that does not embed.
Options stand after the command's word, each at most once. After `--` every word is a name.
"""
OPTIONS: List[Tuple[str, str]] = [
    (
        "--format F",
        "`lad`, the default: the number of vertices, then for each vertex how many neighbours it lists, and these, from 0. `vertexlabelledlad`: the same, with each "
        "vertex's label before the number of its neighbours. `directedlad`: as `lad`, but a listed neighbour is an edge in one direction. `labelledlad`: directed, "
        "with labels of vertices, and after each neighbour the label of the edge to it.",
    ),
    ("--induced", "Images of vertices without an edge have no edge either. Not with `--map local` or `--map any`."),
    (
        "--map M",
        "`injective`, the default: any two vertices have two images. `local`: neighbours of one vertex have, in either direction of edges. `any`: none need have. "
        "Vertices with an edge between them share one at a loop alone.",
    ),
    (
        "--less L",
        "L is `a,b`, or up to 64 such pairs with `:` between. Vertex a of PATTERN has an image of a lesser number than vertex b.",
    ),
    ("--threads N", "From 1, the default, to 64 searches share the work. In `batch` each question has one search, and N go on at a time. What is decided does not depend on N."),
    ("--budget N", "At most N failed guesses of each thread, in `batch` of each question, from 1 to 9,223,372,036,854,775,807, the default."),
    (
        "--book N",
        "The threads share N rows of what they have refuted, from 0 to 4,194,304; the default is 65,536. Once these are full each thread "
        "keeps its further rows for itself, up to 4,194,304 with the shared ones. In `batch` each question has N rows of its own. For a search of several threads and more than a few seconds name 1048576.",
    ),
    (
        "--seed N",
        "Where the choices begin, from 0, the default, to 18,446,744,073,709,551,615. With one thread the same seed gives the same search.",
    ),
    (
        "--prove ENC --log LOG",
        "Writes a proof before the answer: the constraints of `encode` to ENC, and a log over them to LOG. The two names differ, and neither "
        "is PATTERN or TARGET. Names are compared as texts.",
    ),
    ("--profile N", "With `--prove`. 1, the default, writes hints into LOG. 2 writes none: a shorter log, which takes longer to check."),
]
SESSION = """\
$ printf '3\\n2 1 2\\n2 0 2\\n2 0 1\\n' > triangle.lad
$ printf '4\\n2 1 3\\n2 0 2\\n2 1 3\\n2 0 2\\n' > four-cycle.lad
$ subgraph solve triangle.lad four-cycle.lad
none
$ subgraph solve --map local four-cycle.lad triangle.lad
none
$ subgraph solve --less 0,1:1,2 triangle.lad triangle.lad
yes
0 -> 0
1 -> 1
2 -> 2
$ subgraph solve --threads 4 --book 1048576 triangle.lad four-cycle.lad
none
$ printf 'triangle.lad triangle.lad induced\\ntriangle.lad four-cycle.lad\\n' > list
$ subgraph batch --threads 2 list
1: yes 0 1 2
2: none
$ subgraph solve triangle.lad triangle.lad > answer
$ subgraph verify triangle.lad triangle.lad answer
embedding
$ subgraph solve triangle.lad four-cycle.lad --prove question.opb --log proof.log
none
$ subgraph check question.opb proof.log
accepted unsatisfiable
$ subgraph trim question.opb proof.log trimmed.log
kept 9 of 9
"""


def cells(line: str) -> List[str]:
    return [it.strip() for it in re.split(r"(?<!\\)\|", line.strip()[1:-1])]


def rows_of(text: str, head: str) -> List[List[str]]:
    """The cells of the README's table whose first column has this head."""
    lines = text.splitlines()
    at = next((i for i, it in enumerate(lines) if it.startswith(f"| {head} |")), -2) + 2
    if at == 0:
        sys.exit(f"tools/man.py: README.md has no table whose first column is headed {head}")
    found = []
    while at < len(lines) and lines[at].startswith("|"):
        found.append(cells(lines[at]))
        at += 1
    return found


def roff(text: str) -> str:
    """A text as the page has it."""
    text = re.sub(r"\[([^]]*)\]\([^)]*\)", r"\1", text).replace("\\", "\\e").replace("-", "\\-").replace("**", "")
    text = re.sub(r"`([^`]*)`", r"\\fB\1\\fR", text)
    return re.sub(r"^([.'])", r"\\&\1", text)


def command(line: str) -> str:
    """A line of the synopsis: words of the command bold, others slanted."""
    made = re.sub(r"\b([A-Z]+)\b", r"\\fI\1\\fR", line.replace("-", "\\-"))
    return re.sub(r"^subgraph (\w+)", r"\\fBsubgraph \1\\fR", re.sub(r"(\\-\\-[a-z]+)", r"\\fB\1\\fR", made))


def page(text: str, version: str) -> str:
    lines = [
        ".\\\" Made by tools/man.py.",
        f'.TH SUBGRAPH 1 "" "subgraph {version}" "User Commands"',
        ".SH NAME",
        "subgraph \\- does a pattern graph occur in a target graph?",
        ".SH SYNOPSIS",
        ".nf",
        *map(command, SYNOPSIS.splitlines()),
        ".fi",
        ".SH DESCRIPTION",
        *map(roff, DESCRIPTION.splitlines()),
        ".SH OPTIONS",
    ]
    for option, meaning in OPTIONS:
        lines += [".TP", roff(f"`{option}`"), roff(meaning)]
    lines += [".SH EXIT STATUS"]
    for status, who, answer, meaning in rows_of(text, "status"):
        of = "" if who == "each" else f" of {who}"
        lines += [".TP", f"\\fB{status}\\fR{roff(of)}", roff(f"{answer}: {meaning}" if answer else meaning)]
    lines += [
        ".PP",
        roff("`check` ends with 0 for `accepted undecided` too: read the line, not the status alone."),
        ".SH EXAMPLES",
        ".nf",
        *(roff(it) for it in SESSION.splitlines()),
        ".fi",
        ".SH LIMITS",
        "A pattern of 1,024 vertices, a target of 8,192; 67,108,864 bytes a graph or mapping, 1,048,576 a list, 2^40 an encoding or log; 1,000 lines a list; 4,095 bytes a name.",
        ".SH SEE ALSO",
        "docs/FORMATS.md of the repository for the formats, docs/CLAIMS.md for what is proved of the answers.",
    ]
    return "\n".join(lines) + "\n"


def run_session(program: str) -> int:
    """Runs the session, and tells where it prints something else than the page says."""
    words, wanted = [], []
    for line in SESSION.splitlines():
        if line.startswith("$ "):
            words.append(line[2:])
        else:
            wanted.append(line)
    with tempfile.TemporaryDirectory() as folder:
        os.symlink(os.path.abspath(program), os.path.join(folder, "subgraph"))
        environment = {**os.environ, "PATH": f"{folder}:{os.environ['PATH']}"}
        done = subprocess.run(
            ["sh", "-c", "\n".join(words)], cwd=folder, env=environment, capture_output=True, text=True, timeout=120, check=False
        )
    found = (done.stdout + done.stderr).splitlines()
    if found != wanted:
        print("the session of docs/subgraph.1 answers", *found, sep="\n  ")
        return 1
    return 0


def main() -> int:
    words = argparse.ArgumentParser(description=__doc__.splitlines()[0])
    words.add_argument("--check", action="store_true")
    words.add_argument("--run", metavar="PROGRAM")
    asked = words.parse_args()
    if asked.run:
        return run_session(asked.run)
    made = page((TOP / "README.md").read_text(encoding="utf-8"), (TOP / "VERSION").read_text(encoding="utf-8").strip())
    if asked.check:
        return 0 if PAGE.is_file() and PAGE.read_text(encoding="utf-8") == made else 1
    PAGE.write_text(made, encoding="utf-8")
    return 0


if __name__ == "__main__":
    sys.exit(main())
