#!/usr/bin/env python3
"""Compares one thread of two builds by the instructions that they take, at equal fails.

usage: python3 bench/instructions.py OLD NEW FOLDER [--budget 20000] [--seed 0] [--book N] [--only WORD,WORD] [--sizes M,L]

Both search each pair by one thread up to a budget of fails. Where both answer `unknown` each has spent exactly that many, so what they took can
be held against each other on any machine, however busy. A pair that either decides before is left out, since no run tells its fails then.
A run with a budget of one fail is taken off, so that reading, starting and the root are not counted.

Instructions are the processor's where `perf` can count them, else those of valgrind (some 50 times slower, the same in each run). Standard output
has a table for docs/SPEED.md, and whether NEW is within 3 percent of OLD. The pairs are those of bench/threads.py.
"""
import argparse
import os
import shutil
import sys
import tempfile

from counting import by_processor, instructions, stripped
from threads import mean, pairs_of, table, words_of

#: How much more than OLD is let pass.
MARGIN = 1.03


def counted(program, folder, asked, pair, room, processor):
    """The answer at the budget, and the instructions for each fail behind the first."""
    answers = []
    for budget in (1, asked.budget):
        words = words_of(program, folder, pair, 1, asked.seed, asked.book, ["--budget", str(budget)])
        answers.append(instructions(words, room, processor))
        if answers[-1][0] != "unknown":
            return answers[-1][0], 0.0
    return "unknown", (answers[1][1] - answers[0][1]) / (asked.budget - 1)


def main():
    words = argparse.ArgumentParser()
    words.add_argument("old")
    words.add_argument("new")
    words.add_argument("folder")
    words.add_argument("--budget", type=int, default=20000)
    words.add_argument("--seed", type=int, default=0)
    words.add_argument("--book", type=int, default=4194304)
    words.add_argument("--only", default="")
    words.add_argument("--sizes", default="M,L")
    asked = words.parse_args()
    if asked.budget < 2:
        words.error("a budget is 2 fails at least")
    processor = by_processor()
    if not processor and not shutil.which("valgrind"):
        words.error("neither perf nor valgrind can count here")
    pairs = pairs_of(asked.folder, asked.sizes.split(","), [it for it in asked.only.split(",") if it])
    rows, ratios, left_out = [], [], []
    with tempfile.TemporaryDirectory() as room, tempfile.TemporaryDirectory() as builds:
        programs = [stripped(os.path.abspath(it), builds) for it in (asked.old, asked.new)]
        for pair in pairs:
            each = [counted(it, asked.folder, asked, pair, room, processor) for it in programs]
            print(pair["name"], *(f"{answer} {count:.0f}" for answer, count in each), file=sys.stderr, flush=True)
            decided = {answer for answer, _ in each} - {"unknown"}
            if len(decided) > 1:
                print(f"{pair['name']}: the answers differ: {each}")
                sys.exit(1)
            if decided:
                left_out.append(pair["name"])
                continue
            ratios.append(each[1][1] / each[0][1])
            rows.append([f"`{pair['name']}`"] + [f"{count:,.0f}" for _, count in each] + [f"{ratios[-1]:.3f}"])
    by = "the processor's, by perf" if processor else "valgrind's"
    print(f"Instructions for each fail, {by}; one thread, seed {asked.seed}, `--book {asked.book}`, fails 2 to {asked.budget:,}.\n")
    if ratios:
        print(table(["pair", "old", "new", "new / old"], rows) + "\n")
        word = "within" if mean(ratios) <= MARGIN else "NOT within"
        print(f"In the geometric mean {mean(ratios):.3f}, the greatest {max(ratios):.3f}: {word} 3 percent of the old build.")
    print(f"Left out, decided before the budget was spent: {', '.join(left_out) or 'none'}.")


if __name__ == "__main__":
    main()
