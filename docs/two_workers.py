#!/usr/bin/env python3
"""Draws docs/two-workers.svg: the journals of two workers, the rows of their book, and the log that is merged of them.

    docs/two_workers.py [--check] [--from LOG]

A piece of a journal is what one worker made up to the clauses of its next rows; the last piece is the finisher's. What the picture shows is kept in
docs/two-workers.txt, since no second run shares out the work in the same way: a line for each piece, in the order of the log. --from makes these lines of
a log of `solve --threads 2 --prove`. With --check nothing is written, and the status is 1 where the picture is not of these lines.
"""
from __future__ import annotations

import argparse
import sys
from html import escape
from pathlib import Path
from typing import Dict, List, NamedTuple, Set, Tuple

TOP = Path(__file__).resolve().parent.parent
RUN = TOP / "docs" / "two-workers.txt"
PICTURE = TOP / "docs" / "two-workers.svg"
COLOURS = {"1": ("#dbe7f6", "#4a77b4"), "2": ("#d9efe2", "#3c8f63")}
ROW_COLOURS = ("#fbe6cc", "#c0792a")
INK = "#27313b"
#: The left edges of the four columns, their widths, and the height of a piece.
LEFT = {"1": 20, "2": 210, "book": 400, "log": 560}
WIDE = {"1": 150, "2": 150, "book": 110, "log": 230}
TOP_EDGE, HIGH, STEP = 56, 44, 62


class Piece(NamedTuple):
    """Lines of one owner that stand together in the log, the rows that are clauses of it, and the rows of the other that it rests on."""

    owner: str
    first: int
    last: int
    rows: List[int]
    seen: List[int]

    def line(self) -> str:
        return f"worker {self.owner} lines {self.first} to {self.last} rows {told(self.rows)} rests on {told(self.seen)}"


def told(rows: List[int]) -> str:
    """Rows as words: the first and the last of each run of rows."""
    runs: List[List[int]] = []
    for row in rows:
        if runs and row == runs[-1][1] + 1:
            runs[-1][1] = row
        else:
            runs.append([row, row])
    return ",".join(str(a) if a == b else f"{a}-{b}" for a, b in runs) or "none"


def rows_of(words: str) -> List[int]:
    ends = [list(map(int, it.split("-"))) for it in words.split(",") if it != "none"]
    return [row for end in ends for row in range(end[0], end[-1] + 1)]


def read() -> List[Piece]:
    """The pieces that are kept."""
    found = []
    for line in RUN.read_text(encoding="ascii").splitlines():
        words = line.split(" ")
        found.append(Piece(words[1], int(words[3]), int(words[5]), rows_of(words[7]), rows_of(words[10])))
    return found


def pieces_of(log: str) -> List[Piece]:
    """The pieces of a log: rows whose clauses stand behind each other are of one."""
    found: List[Piece] = []
    names: List[int] = []
    seen: Set[int] = set()
    for words in (line.split(" ") for line in log.splitlines()[2:]):
        if words[0] in "pu":
            names.append(int(words[1].partition(".")[2]))
            seen |= {int(it[1:]) for it in words if it.startswith("#")}
            continue
        owner = words[-1].partition(".")[0]
        rows = [int(words[1])] if words[0] == "n" else []
        if names or found[-1].owner != owner:
            found.append(Piece(owner, names[0] if names else 0, names[-1] if names else 0, rows, sorted(seen)))
        else:
            found[-1].rows.extend(rows)
        names, seen = [], set()
    return found


def rect(x: float, y: float, wide: float, colours: Tuple[str, str]) -> str:
    return f'<rect x="{x}" y="{y}" width="{wide}" height="{HIGH}" rx="6" fill="{colours[0]}" stroke="{colours[1]}"/>'


def text(x: float, y: float, words: str, more: str = 'font-size="12.5"') -> str:
    return f'<text x="{x:.1f}" y="{y:.1f}" text-anchor="middle" {more} fill="{INK}">{escape(words)}</text>'


def arrow(x: float, y: float, u: float, v: float, more: str = "") -> str:
    bend = (u - x) * 0.4
    way = f"M{x:.1f} {y:.1f} C{x + bend:.1f} {y:.1f} {u - bend:.1f} {v:.1f} {u:.1f} {v:.1f}"
    return f'<path d="{way}" fill="none" stroke="{INK}" stroke-width="1.2" marker-end="url(#head)" {more}/>'


def box(column: str, y: float, colours: Tuple[str, str], lines: Tuple[str, str]) -> List[str]:
    x, middle = LEFT[column], LEFT[column] + WIDE[column] / 2
    small = 'font-size="11"'
    return [rect(x, y, WIDE[column], colours), text(middle, y + 18, lines[0]), text(middle, y + 35, lines[1], small)]


def drawn() -> str:
    pieces = read()
    wide, high = LEFT["log"] + WIDE["log"] + 20, TOP_EDGE + STEP * len(pieces) + 4
    out = [
        f'<svg xmlns="http://www.w3.org/2000/svg" viewBox="0 0 {wide} {high}" width="{wide}" height="{high}" '
        'style="font-family:Helvetica,Arial,sans-serif">',
        '<defs><marker id="head" viewBox="0 0 8 8" refX="7" refY="4" markerWidth="8" markerHeight="8" orient="auto">'
        f'<path d="M0 0 L8 4 L0 8 Z" fill="{INK}"/></marker></defs>',
        '<rect width="100%" height="100%" fill="#ffffff"/>',
    ]
    heads = {"1": "journal of worker 1", "2": "journal of worker 2", "book": "the book", "log": "the log, from top to bottom"}
    out += [text(LEFT[it] + WIDE[it] / 2, 34, head, 'font-size="13.5" font-weight="bold"') for it, head in heads.items()]
    places: Dict[int, float] = {}
    arrows: List[str] = []
    for number, piece in enumerate(pieces):
        y = TOP_EDGE + STEP * number
        right, middle = LEFT[piece.owner] + WIDE[piece.owner], y + HIGH / 2
        name = f"{piece.owner}.{piece.first} to {piece.owner}.{piece.last}" if piece.last else "no line more"
        lines = f"{piece.last - piece.first + 1:,} lines" if piece.rows else "the finisher's further lines"
        out += box(piece.owner, y, COLOURS[piece.owner], (name, lines))
        count = len(piece.rows)
        out += box("log", y, COLOURS[piece.owner], (name, "and the last line, e" if not count else f"and {count} line{'s' * (count > 1)} n"))
        for row in sorted({places[it] for it in piece.seen}):
            arrows.append(arrow(LEFT["book"], row + 6, right, middle + 8, 'stroke-dasharray="4 3"'))
        if not piece.rows:
            arrows.append(arrow(right, middle, LEFT["log"], middle))
            continue
        places.update(dict.fromkeys(piece.rows, middle))
        out += box("book", y, ROW_COLOURS, (f"row{'s' * (count > 1)} {told(piece.rows)}", f"of worker {piece.owner}"))
        arrows += [arrow(right, middle - 6, LEFT["book"], middle - 6), arrow(LEFT["book"] + WIDE["book"], middle - 6, LEFT["log"], middle - 6)]
    return "\n".join([*out, *arrows, "</svg>"]) + "\n"


def main() -> int:
    words = argparse.ArgumentParser(description=__doc__.splitlines()[0])
    words.add_argument("--check", action="store_true")
    words.add_argument("--from", dest="log", type=Path)
    asked = words.parse_args()
    if asked.log:
        pieces = pieces_of(asked.log.read_text(encoding="ascii"))
        RUN.write_text("".join(f"{it.line()}\n" for it in pieces), encoding="ascii")
    picture = drawn()
    if asked.check:
        return 0 if PICTURE.is_file() and PICTURE.read_text(encoding="utf-8") == picture else 1
    PICTURE.write_text(picture, encoding="utf-8")
    return 0


if __name__ == "__main__":
    sys.exit(main())
