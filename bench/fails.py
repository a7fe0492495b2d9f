#!/usr/bin/env python3
"""Counts the fails of each worker from outside, and prints how many times fewer the slowest of several has than one worker alone.

usage: python3 bench/fails.py PROGRAM FOLDER [--threads 1,2,4] [--seeds 0,1,2,3,4] [--book N] [--only WORD,WORD] [--sizes S]
           [--minutes N]

The program tells no fails where it decides. So it runs under valgrind, which counts how often each thread calls the function that counts a
fail (`--function` names it). Valgrind runs one thread at a time and gives each a turn in order, so no clock and no other work on the machine has a
part in the figures; it takes some 50 times as long, so small pairs are the default, and --minutes begins no pair after so many. A worker that ends before another
begins is counted with it, which some thousand fails rule out. A build that has put the function into its callers tells nothing, and this says so.
Standard output has a table for docs/SPEED.md. The pairs are those of bench/threads.py.
"""
import argparse
import math
import os
import shutil
import sys
import tempfile
import time

from counting import calls, stripped
from threads import mean, name_of, pairs_of, table, words_of

FUNCTION = "fail_account::account::Account::fail"


def slowest(program, asked, pair, threads, seed, room):
    """The answer, and the most fails that a worker counted."""
    words = words_of(program, asked.folder, pair, threads, seed, asked.book)
    answer, counts = calls(words, room, asked.function)
    return answer, max(counts, default=0)


def main():
    words = argparse.ArgumentParser()
    words.add_argument("program")
    words.add_argument("folder")
    words.add_argument("--threads", default="1,2,4")
    words.add_argument("--seeds", default="0,1,2,3,4")
    words.add_argument("--book", type=int, default=4194304)
    words.add_argument("--only", default="")
    words.add_argument("--sizes", default="S")
    words.add_argument("--function", default=FUNCTION)
    words.add_argument("--minutes", type=float, default=math.inf)
    asked = words.parse_args()
    if not shutil.which("valgrind"):
        words.error("valgrind is not there")
    counts, seeds = ([int(it) for it in text.split(",")] for text in (asked.threads, asked.seeds))
    if counts[0] != 1:
        words.error("the first number of threads is 1, which the others are held against")
    pairs = pairs_of(asked.folder, asked.sizes.split(","), [it for it in asked.only.split(",") if it])
    rows, gains, last = [], {}, time.monotonic() + asked.minutes * 60
    with tempfile.TemporaryDirectory() as room, tempfile.TemporaryDirectory() as builds:
        program = stripped(os.path.abspath(asked.program), builds)
        for pair in pairs:
            mine = []
            for seed in seeds if time.monotonic() < last else []:
                each = [slowest(program, asked, pair, threads, seed, room) for threads in counts]
                print(pair["name"], f"seed {seed}", *(f"{answer} {count}" for answer, count in each), file=sys.stderr, flush=True)
                if len({answer for answer, _ in each}) > 1:
                    print(f"{pair['name']} seed {seed}: the answers differ: {each}")
                    sys.exit(1)
                if all(count for _, count in each):
                    mine.append((each[0][0], [count for _, count in each]))
            if not mine:
                continue
            row = [f"`{pair['name']}`", mine[0][0], f"{mean([run[1][0] for run in mine]):,.0f}"]
            for k in range(1, len(counts)):
                each = [run[1][0] / run[1][k] for run in mine]
                gains.setdefault((mine[0][0], counts[k]), []).extend(each)
                row.append(f"{mean(each):.2f}; {min(each):.2f}")
            rows.append(row)
    if not rows:
        print(f"no run called a function named {asked.function}: it is within its callers in this build, or this is a trial build, or nothing failed")
        sys.exit(1)
    print(f"How many times fewer fails the slowest worker has than one worker alone, `--book {asked.book}`, seeds {asked.seeds}.\n")
    print(table(["pair", "answer", "fails of one worker, mean"] + [f"{name_of(it)}: mean; least" for it in counts[1:]], rows) + "\n")
    for (answer, threads), each in sorted(gains.items()):
        print(f"{answer}, {name_of(threads)}: {mean(each):.2f} in the geometric mean over {len(each)} runs, the least {min(each):.2f}.")


if __name__ == "__main__":
    main()
