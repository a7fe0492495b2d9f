#!/usr/bin/env python3
"""Draws docs/crates.svg: the groups of crates of crates.txt, each above those that it stands on.

    docs/crates.py [--check]

A group is what a comment of crates.txt names; groups of tests and benches are left out. An arrow leads from a group to one that it stands on, and is
left out where a way over other groups leads there too. Groups that stand on each other, crate by crate, are side by side, with an arrow of two heads.
With --check nothing is written, and the status is 1 where the picture is not of today's crates.txt.
"""
from __future__ import annotations

import sys
from html import escape
from pathlib import Path
from typing import Dict, List, Set, Tuple

TOP = Path(__file__).resolve().parent.parent
PICTURE = TOP / "docs" / "crates.svg"
COLOURS = ("#dbe7f6", "#d9efe2", "#fbe6cc", "#ecdff5", "#f7dcdf", "#e6e8ea")
LINES = ("#4a77b4", "#3c8f63", "#c0792a", "#8558b0", "#b8505c", "#7a838c")
INK = "#27313b"
#: How groups begin that are no part of the program.
ASIDE = ("tests", "how fast")
CHIP, HEAD, PAD, GAP, BETWEEN, WIDE, MARGIN = 26, 26, 10, 8, 58, 500, 20

Groups = Dict[str, List[str]]


def read() -> Tuple[Groups, Dict[str, Set[str]]]:
    """The crates of each group, and the groups that each one stands on."""
    groups: Groups = {}
    below: Dict[str, List[str]] = {}
    comment = ""
    for line in (TOP / "crates.txt").read_text(encoding="utf-8").splitlines():
        head, _, _ = line.partition("#")
        if line.startswith("#"):
            comment = line[1:].strip()
        if ":" in head:
            name, _, rest = head.partition(":")
            name = name.split()[0]
            if not comment.startswith(ASIDE):
                groups.setdefault(comment, []).append(name)
            below[name] = rest.split()
    home = {name: group for group, names in groups.items() for name in names}
    return groups, {
        group: {home[it] for name in names for it in below[name] if it in home} - {group} for group, names in groups.items()
    }


def reach(below: Dict[str, Set[str]]) -> Dict[str, Set[str]]:
    """All groups that each one stands on, over others too."""
    found = {it: set(deps) for it, deps in below.items()}
    for _ in found:
        for it in found:
            found[it] |= {far for dep in found[it] for far in found[dep]}
    return found


def rows_of(groups: Groups, far: Dict[str, Set[str]]) -> List[List[str]]:
    """The groups row by row, the lowest first; groups that stand on each other are in one row."""
    height: Dict[str, int] = {}

    def of(it: str) -> int:
        if it not in height:
            team = {it} | {other for other in far[it] if it in far[other]}
            value = 1 + max((of(other) for one in team for other in far[one] if other not in team), default=-1)
            for one in team:
                height[one] = value
        return height[it]

    rows: List[List[str]] = [[] for _ in range(1 + max(map(of, groups)))]
    for it in groups:
        rows[of(it)].append(it)
    return rows


def arrows(below: Dict[str, Set[str]], far: Dict[str, Set[str]]) -> List[Tuple[str, str, bool]]:
    """The arrows that no way over other groups tells, and whether each leads back too."""
    found = []
    for one, deps in below.items():
        for other in deps:
            back = one in below[other]
            if back and list(below).index(one) > list(below).index(other):
                continue
            if not back and any(other in far[way] and one not in far[way] and way not in far[other] for way in deps if way != other):
                continue
            found.append((one, other, back))
    return sorted(found)


def width_of(name: str) -> float:
    return 7.4 * len(name) + 16


def chips(names: List[str]) -> Tuple[List[Tuple[str, float, float]], float]:
    """Where each crate stands in its group's box, and the height of the box."""
    x, y = float(PAD), float(HEAD + PAD)
    placed = []
    for name in names:
        if x + width_of(name) > WIDE - PAD and x > PAD:
            x, y = float(PAD), y + CHIP + GAP
        placed.append((name, x, y))
        x += width_of(name) + GAP
    return placed, y + CHIP + PAD


def drawn() -> str:
    groups, below = read()
    far = reach(below)
    rows = rows_of(groups, far)
    wide = max(len(row) for row in rows) * (WIDE + BETWEEN) - BETWEEN + 2 * MARGIN
    place: Dict[str, Tuple[float, float, float]] = {}
    y = float(MARGIN)
    for row in reversed(rows):
        left = (wide - len(row) * (WIDE + BETWEEN) + BETWEEN) / 2
        for number, it in enumerate(row):
            place[it] = (left + number * (WIDE + BETWEEN), y, chips(groups[it])[1])
        y += max(place[it][2] for it in row) + BETWEEN
    high = y - BETWEEN + MARGIN
    out = [
        f'<svg xmlns="http://www.w3.org/2000/svg" viewBox="0 0 {wide:.0f} {high:.0f}" width="{wide:.0f}" height="{high:.0f}" '
        'style="font-family:Helvetica,Arial,sans-serif">',
        '<defs><marker id="head" viewBox="0 0 8 8" refX="7" refY="4" markerWidth="8" markerHeight="8" orient="auto-start-reverse">'
        f'<path d="M0 0 L8 4 L0 8 Z" fill="{INK}"/></marker></defs>',
        '<rect width="100%" height="100%" fill="#ffffff"/>',
    ]
    for one, other, back in arrows(below, far):
        out.append(arrow(place[one], place[other], back))
    for number, (group, names) in enumerate(groups.items()):
        out += box(group, names, place[group], number % 6)
    return "\n".join([*out, "</svg>"]) + "\n"


def arrow(one: Tuple[float, float, float], other: Tuple[float, float, float], back: bool) -> str:
    start = ' marker-start="url(#head)"' if back else ""
    if one[1] == other[1] and abs(one[0] - other[0]) > WIDE + BETWEEN + 1:
        # Boxes stand between: the arrow goes below them.
        x, y, u, v = one[0] + WIDE / 2, one[1] + one[2], other[0] + WIDE / 2, other[1] + other[2] + 2
        low = max(y, v) + 0.9 * BETWEEN
        way = f"M{x:.1f} {y:.1f} C{x:.1f} {low:.1f} {u:.1f} {low:.1f} {u:.1f} {v:.1f}"
        return f'<path d="{way}" fill="none" stroke="{INK}" stroke-width="1.4" marker-end="url(#head)"{start}/>'
    if one[1] == other[1]:
        left, right = min(one, other), max(one, other)
        y = one[1] + min(one[2], other[2]) / 2
        x, u, v = left[0] + WIDE + 2, right[0] - 2, y
    else:
        shift = (other[0] - one[0]) * 0.12
        x, y, u, v = one[0] + WIDE / 2 + shift, one[1] + one[2], other[0] + WIDE / 2 - shift, other[1] - 2
    bend = (v - y) * 0.5
    way = f"M{x:.1f} {y:.1f} C{x:.1f} {y + bend:.1f} {u:.1f} {v - bend:.1f} {u:.1f} {v:.1f}"
    return f'<path d="{way}" fill="none" stroke="{INK}" stroke-width="1.4" marker-end="url(#head)"{start}/>'


def box(group: str, names: List[str], place: Tuple[float, float, float], part: int) -> List[str]:
    x, y, high = place
    out = [
        f'<rect x="{x:.1f}" y="{y:.1f}" width="{WIDE}" height="{high:.1f}" rx="8" fill="{COLOURS[part]}" stroke="{LINES[part]}"/>',
        f'<text x="{x + PAD:.1f}" y="{y + 21:.1f}" font-size="13.5" font-weight="bold" fill="{INK}">{escape(group)}</text>',
    ]
    for name, dx, dy in chips(names)[0]:
        wide = width_of(name)
        where = f'x="{x + dx:.1f}" y="{y + dy:.1f}" width="{wide:.1f}" height="{CHIP}" rx="6"'
        text = f'x="{x + dx + wide / 2:.1f}" y="{y + dy + 17.5:.1f}" text-anchor="middle" font-size="12.5" fill="{INK}"'
        out += [f'<rect {where} fill="#ffffff" stroke="{LINES[part]}"/>', f"<text {text}>{escape(name)}</text>"]
    return out


def main(words: List[str]) -> int:
    picture = drawn()
    if words == ["--check"]:
        return 0 if PICTURE.is_file() and PICTURE.read_text(encoding="utf-8") == picture else 1
    PICTURE.write_text(picture, encoding="utf-8")
    return 0


if __name__ == "__main__":
    sys.exit(main(sys.argv[1:]))
