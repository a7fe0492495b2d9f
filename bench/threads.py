#!/usr/bin/env python3
"""Runs `solve` by several numbers of threads over hard pairs, and prints how many times faster each is than one thread.

usage: python3 bench/threads.py PROGRAM FOLDER [--minutes N] [--threads 1,2,4] [--seeds 0,1,2,3,4] [--book N] [--limit SECONDS] [--only WORD,WORD]
           [--sizes M,L] [--no-fails]

The pairs are those of FOLDER; where it has none, pairs.py makes them there: planted, dense_none, phase, phase_induced and cliques in the
sizes asked for, and small. Times are of the wall, reading and starting included, so the machine must be quiet and have as many processors as there are
threads; where it is not, the text says so. Seed after seed each pair is run by each number of threads. A run by one thread that passes the limit is left
out, with those by several threads, and a pair whose first two seeds were left out is tried no more; a run of several threads that passes the limit
counts as the limit. With --minutes no run is begun after three quarters of them, and the rest is for the fails of the slowest worker, which
`fails.py` counts on small pairs where valgrind is there (--no-fails leaves them out).

Each run is told on standard error. Standard output has text for docs/SPEED.md: a table by pair, one by kind of run with geometric means and the
least gain, whether what is wanted was met, and the table of fails. The status is 1 where two answers of a pair differ, or a run ends with neither `yes`
nor `none`.
"""
import argparse
import json
import math
import os
import resource
import shutil
import subprocess
import sys
import time

FAMILIES = ["planted", "dense_none", "phase", "phase_induced", "cliques"]
#: Kinds of runs: the answer, and the least and the greatest seconds of one thread.
KINDS = [("none", 10, math.inf), ("none", 1, 10), ("none", 0, 1), ("yes", 1, math.inf), ("yes", 0, 1)]
#: What is wanted of 4 threads on refutations of 10 seconds and more, and how much slower than one thread no run may be.
WANTED, SLOWEST = 2.5, 1 / 1.1
#: Shorter runs tell of starting and reading alone, so they are not held against the second.
SHORT = 0.1
#: The share of its time for which one thread has a processor where the machine is quiet.
QUIET = 0.95


def pairs_of(folder, sizes, only):
    """The pairs of a folder, made where there are none."""
    index = os.path.join(folder, "index.json")
    if not os.path.exists(index):
        make = os.path.join(os.path.dirname(os.path.abspath(__file__)), "pairs.py")
        words = [sys.executable, make, folder, "--families", ",".join(FAMILIES), "--sizes", ",".join({*sizes, "S"})]
        subprocess.run(words, check=True, stdout=sys.stderr)
    with open(index, encoding="utf-8") as file:
        pairs = [it for it in json.load(file) if it["family"] in FAMILIES and it["size"] in sizes]
    return [it for it in pairs if not only or any(word in it["pattern"] for word in only)]


def words_of(program, folder, pair, threads, seed, book, more=()):
    words = [program, "solve", "--threads", str(threads), "--seed", str(seed), "--book", str(book), "--format", pair["format"], *more]
    words += ["--induced"] * pair["induced"]
    return words + [os.path.join(folder, pair["pattern"]), os.path.join(folder, pair["target"])]


def timed(words, limit):
    """The first word of the answer, the seconds by the wall, and those of the processor; no answer where the limit is passed."""
    started, before = time.monotonic(), processor()
    try:
        ended = subprocess.run(words, stdout=subprocess.PIPE, timeout=limit, text=True)
    except subprocess.TimeoutExpired:
        return None, limit, processor() - before
    seconds = time.monotonic() - started
    if ended.returncode not in (0, 1):
        print(f"{' '.join(words)} ends with status {ended.returncode}")
        sys.exit(1)
    return ended.stdout.split("\n")[0], seconds, processor() - before


def processor():
    """The seconds of the processor that all runs so far took."""
    used = resource.getrusage(resource.RUSAGE_CHILDREN)
    return used.ru_utime + used.ru_stime


def mean(numbers):
    return math.exp(sum(map(math.log, numbers)) / len(numbers))


class Measured:
    """What is known of one pair: its runs, each the answer, the seconds by each number of threads and the seed; and how many seeds were left out."""

    def __init__(self, pair):
        self.pair, self.runs, self.left_out = pair, [], 0

    def run(self, asked, counts, seed):
        """One seed by each number of threads; how much of the time one thread had a processor, where it was decided."""
        if self.left_out >= 2 and not self.runs:
            self.left_out += 1
            return None
        row = []
        for threads in counts:
            row.append(timed(words_of(asked.program, asked.folder, self.pair, threads, seed, asked.book), asked.limit))
            if row[0][0] is None:
                break
        answers = {answer for answer, *_ in row if answer is not None} | {run[0] for run in self.runs}
        if len(answers) > 1:
            print(f"{self.pair['name']} seed {seed}: the answers differ: {row}")
            sys.exit(1)
        told = " ".join("-" if answer is None else f"{seconds:.2f}" for answer, seconds, _ in row)
        print(f"{self.pair['name']} seed {seed} {row[0][0]} {told}", file=sys.stderr, flush=True)
        if row[0][0] is None:
            self.left_out += 1
            return None
        self.runs.append((row[0][0], [seconds for _, seconds, _ in row], seed))
        return row[0][2] / row[0][1] if row[0][1] > SHORT else None


def name_of(count):
    return "1 thread" if count == 1 else f"{count} threads"


def spread(numbers):
    least, most = f"{min(numbers):.2f}", f"{max(numbers):.2f}"
    return least if least == most else f"{least} to {most}"


def table(heads, rows):
    """A table as text of Markdown."""
    lines = ["| " + " | ".join(heads) + " |", "|" + "---|" * len(heads)]
    return "\n".join(lines + ["| " + " | ".join(row) + " |" for row in rows])


def by_pair(measured, counts):
    heads = ["pair", "answer", "seeds"] + [f"{name_of(it)}, seconds" for it in counts]
    heads += [f"{name_of(it)}: times faster, mean; least" for it in counts[1:]]
    rows = []
    for name, runs in measured.items():
        row = [f"`{name}`", runs[0][0], str(len(runs))] + [spread([run[1][k] for run in runs]) for k in range(len(counts))]
        for k in range(1, len(counts)):
            gains = [run[1][0] / run[1][k] for run in runs]
            row.append(f"{mean(gains):.2f}; {min(gains):.2f}")
        rows.append(row)
    return table(heads, rows)


def kind_name(kind):
    answer, least, most = kind
    lasts = f"{least} seconds and more" if most == math.inf else f"below {most} s" if least == 0 else f"{least} to {most} s"
    return ("refuted" if answer == "none" else "embedded") + ", one thread " + lasts


def is_of(kind, run):
    return run[0] == kind[0] and kind[1] <= run[1][0] < kind[2]


def by_kind(runs, counts):
    heads = ["runs", "how many"] + [f"{name_of(it)}: mean; least" for it in counts[1:]]
    rows = []
    for kind in KINDS:
        mine = [run for run in runs if is_of(kind, run)]
        gains = [[run[1][0] / run[1][k] for run in mine] for k in range(1, len(counts))]
        if mine:
            rows.append([kind_name(kind), str(len(mine))] + [f"{mean(it):.2f}; {min(it):.2f}" for it in gains])
    return table(heads, rows)


def verdicts(measured, counts):
    """Whether what is wanted was met, as sentences."""
    told = []
    for k in range(1, len(counts)):
        gains = [run[1][0] / run[1][k] for runs in measured.values() for run in runs if is_of(KINDS[0], run)]
        if counts[k] == 4 and gains:
            word = "met" if mean(gains) >= WANTED else "NOT met"
            told.append(f"4 threads on refutations of 10 seconds and more: {mean(gains):.2f} in the geometric mean, wanted {WANTED}: {word}.")
        slow = [(name, run[2], run[1][0] / run[1][k]) for name, runs in measured.items() for run in runs if run[1][0] >= SHORT]
        slow = [f"`{name}` seed {seed} {gain:.2f}" for name, seed, gain in slow if gain < SLOWEST]
        told.append(f"Slower than by one thread by more than a tenth, {name_of(counts[k])}: {', '.join(slow) or 'none'}.")
    return told


def machine(most, shares):
    """What is to be known of the machine."""
    told = f"{os.cpu_count()} processors"
    if shares:
        told += f"; one thread had a processor for {100 * mean(shares):.0f} percent of its time, {100 * min(shares):.0f} at the least."
    if not shares or mean(shares) < QUIET:
        told += " THE MACHINE WAS NOT QUIET, so these figures say nothing of threads."
    if (os.cpu_count() or 1) < most:
        told += " THERE ARE FEWER PROCESSORS THAN THREADS."
    return told


def figures(asked, counts, seeds, pairs, shares):
    """The text for docs/SPEED.md."""
    measured = {it.pair["name"]: it.runs for it in pairs if it.runs}
    print(f"{machine(max(counts), shares)} `--book {asked.book}`, seeds {asked.seeds}, wall time, each run once, at most {asked.limit:g} seconds.\n")
    if measured:
        print(by_pair(measured, counts) + "\n")
        print(by_kind([run for runs in measured.values() for run in runs], counts) + "\n")
        print("\n".join(verdicts(measured, counts)))
    missing = ", ".join(f"`{it.pair['name']}` ({it.left_out} of {len(seeds)} seeds)" for it in pairs if it.left_out)
    print(f"Left out, one thread not done within the limit: {missing or 'none'}.")
    short = [it.pair["name"] for it in pairs if len(it.runs) + it.left_out < len(seeds)]
    print(f"Pairs for which the time was too short for all seeds: {len(short)}.", flush=True)


def count_fails(asked):
    """The fails of the slowest worker, by another script, on small pairs."""
    if asked.no_fails or not shutil.which("valgrind"):
        print("The fails of the slowest worker were not counted.")
        return
    words = [sys.executable, os.path.join(os.path.dirname(os.path.abspath(__file__)), "fails.py"), asked.program, asked.folder]
    words += ["--threads", asked.threads, "--seeds", asked.seeds, "--book", str(asked.book), "--minutes", str(asked.minutes / 4)]
    print("", flush=True)
    subprocess.run(words)


def main():
    words = argparse.ArgumentParser()
    words.add_argument("program")
    words.add_argument("folder")
    words.add_argument("--minutes", type=float, default=math.inf)
    words.add_argument("--threads", default="1,2,4")
    words.add_argument("--seeds", default="0,1,2,3,4")
    words.add_argument("--sizes", default="M,L")
    words.add_argument("--only", default="")
    words.add_argument("--book", type=int, default=4194304)
    words.add_argument("--limit", type=float, default=120)
    words.add_argument("--no-fails", action="store_true")
    asked = words.parse_args()
    counts, seeds = ([int(it) for it in text.split(",")] for text in (asked.threads, asked.seeds))
    if counts[0] != 1:
        words.error("the first number of threads is 1, which the others are held against")
    last = time.monotonic() + asked.minutes * 60 * 0.75
    pairs = [Measured(it) for it in pairs_of(asked.folder, asked.sizes.split(","), [it for it in asked.only.split(",") if it])]
    shares = []
    for seed in seeds:
        for pair in pairs:
            share = pair.run(asked, counts, seed) if time.monotonic() < last else None
            shares += [share] if share else []
    figures(asked, counts, seeds, pairs, shares)
    count_fails(asked)


if __name__ == "__main__":
    main()
