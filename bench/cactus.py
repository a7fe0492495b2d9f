#!/usr/bin/env python3
"""Draws how many pairs each program decides within which time, of the CSV that `compare.py` writes.

    cactus.py CSV SVG [--limit SECONDS] [--without NAME,NAME]

Each curve goes through the times of one program in order: at a height of N pairs it has decided N, each within the time below. Times are on a scale of
powers of ten. A pair that a program does not take counts as not decided. Standard library only.
"""
import argparse
import csv
import math

WIDE, HIGH, LEFT, RIGHT, TOP, BELOW = 860, 470, 56, 190, 20, 46
LEAST = 0.001
COLOURS = ["#b3261e", "#1f5fa8", "#2e7d32", "#8e44ad", "#e07b00", "#00838f", "#6d4c41", "#5f6b76", "#c2185b", "#558b2f"]
INK = "#27313b"


def times_of(path):
    """For each program its times, in order."""
    with open(path, encoding="ascii", newline="") as file:
        rows = list(csv.DictReader(file))
    names = [name[: -len(" answer")] for name in rows[0] if name.endswith(" answer")]
    return len(rows), {n: sorted(float(row[f"{n} seconds"]) for row in rows if row[f"{n} answer"] in ("yes", "none")) for n in names}


def main():
    words = argparse.ArgumentParser()
    words.add_argument("csv")
    words.add_argument("svg")
    words.add_argument("--limit", type=float, default=5)
    words.add_argument("--without", default="")
    asked = words.parse_args()
    pairs, times = times_of(asked.csv)
    shown = sorted((n for n in times if n not in asked.without.split(",")), key=lambda n: -len(times[n]))
    scale = (WIDE - LEFT - RIGHT) / math.log10(asked.limit / LEAST)

    def x(seconds):
        return LEFT + scale * math.log10(min(max(seconds, LEAST), asked.limit) / LEAST)

    def y(count):
        return HIGH - BELOW - (HIGH - TOP - BELOW) * count / pairs

    def text(at_x, at_y, words_, anchor="middle", colour=INK):
        return f'<text x="{at_x:.1f}" y="{at_y:.1f}" text-anchor="{anchor}" font-size="12" fill="{colour}">{words_}</text>'

    out = [f'<svg xmlns="http://www.w3.org/2000/svg" width="{WIDE}" height="{HIGH}" font-family="sans-serif">', f'<rect width="{WIDE}" height="{HIGH}" fill="white"/>']
    for power in range(round(math.log10(LEAST)), math.ceil(math.log10(asked.limit))):
        at = 10.0**power
        out.append(f'<path d="M{x(at):.1f} {TOP}V{HIGH - BELOW}" stroke="#dde2e7"/>')
        out.append(text(x(at), HIGH - BELOW + 18, f"{at:g} s"))
    out.append(text(x(asked.limit), HIGH - BELOW + 18, f"{asked.limit:g} s"))
    step = 10 if pairs <= 120 else 20
    for count in range(0, pairs + 1, step):
        out.append(f'<path d="M{LEFT} {y(count):.1f}H{WIDE - RIGHT}" stroke="#dde2e7"/>')
        out.append(text(LEFT - 8, y(count) + 4, str(count), "end"))
    out.append(text((LEFT + WIDE - RIGHT) / 2, HIGH - 8, "processor time for a pair"))
    out.append(f'<text transform="translate(14 {(TOP + HIGH - BELOW) / 2:.1f}) rotate(-90)" text-anchor="middle" font-size="12" fill="{INK}">pairs decided, of {pairs}</text>')
    lowest = TOP
    for place, name in enumerate(shown):
        mine, colour = times[name], COLOURS[place % len(COLOURS)]
        points = [f"M{x(LEAST):.1f} {y(0):.1f}"] + [f"L{x(t):.1f} {y(n + 1):.1f}" for n, t in enumerate(mine)] + [f"H{x(asked.limit):.1f}"]
        out.append(f'<path d="{"".join(points)}" fill="none" stroke="{colour}" stroke-width="{3 if name == "subgraph" else 1.6}"/>')
        lowest = max(lowest, y(len(mine)) + 4) if place == 0 else max(lowest + 15, y(len(mine)) + 4)
        out.append(text(WIDE - RIGHT + 8, lowest, f"{name}: {len(mine)}", "start", colour))
    out.append("</svg>")
    with open(asked.svg, "w", encoding="ascii") as file:
        file.write("\n".join(out) + "\n")


if __name__ == "__main__":
    main()
