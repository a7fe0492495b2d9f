#!/usr/bin/env python3
"""Runs `solve --prove` on random and structured problems by 1 to 8 threads, and has each log judged by two checkers.

usage: python3 bench/proved.py PROGRAM [--runs N] [--jobs J] [--seed S] [--hard PERCENT] [--structured PERCENT] [--wide PERCENT] [--formats F,..] [--keep FOLDER]

PROGRAM is the built program (crates/subgraph/out/subgraph). The problems are those of `problems.py`: small ones, whose answer brute force
knows; structured ones (cliques, two sides, grids, orders, molecules); hard ones, whose searches restart and share what they have refuted; and a few
wide ones, with targets of more than 512 vertices. Half of these are asked of each kind of map, of images in order, or both. Each is
run by one thread and twice by several, with hints or without, some with a small book or budget. The formats are all that the program takes beside
--prove, which it is asked first, or those that --formats names.

What is held against each other, in each run: the answer with the known one, or with one thread's; each mapping; the encoding that is written with that of
`plain.py`, and once for a problem with what `encode` prints; what `check` says of encoding and log, `accepted` with what the answer claims; and
the same from `tools/plain_check.py`, which shares no code with the program. In one thread's runs a log without hints is the one with hints, cut. Ends
with status 1 at the first disagreement, tells it, and leaves its files in the folder --keep.
"""
import argparse
import collections
import concurrent.futures
import os
import random
import shutil
import subprocess
import sys
import tempfile
import time

import plain
from agree import FORMATS, is_embedding, text_of
from check_logs import check_cases
from problems import hard, small, structured, varied, wide

TOP = os.path.dirname(os.path.dirname(os.path.abspath(__file__)))
SHOWN = {"yes": "accepted satisfiable\n", "none": "accepted unsatisfiable\n", "unknown": "accepted undecided\n"}
CHUNK = 25
BUDGET = 1000
#: A log without hints is checked slowly, so that only short ones are asked for.
SHORT = 20000


def say(words):
    return subprocess.run(words, capture_output=True, text=True, timeout=3600)


def taken(program):
    """The formats that `solve` takes beside --prove: any other is no command, status 3."""
    with tempfile.TemporaryDirectory() as folder:
        graph, encoding, log = (os.path.join(folder, name) for name in ("g.lad", "e.opb", "l.proof"))
        with open(graph, "w", encoding="ascii") as file:
            file.write("0\n")
        proof = [graph, graph, "--prove", encoding, "--log", log]
        return [kind for kind in FORMATS if say([program, "solve", "--format", kind, *proof]).returncode != 3]


def answer_of(done, problem):
    """The answer of one run, a mapping tested; or what is wrong with it."""
    if done.returncode == 1 and done.stdout == "none\n":
        return "none"
    if done.returncode == 2 and done.stdout == "unknown\n":
        return "unknown"
    if done.returncode == 0 and done.stdout.startswith("yes\n"):
        lines = [line.split(" -> ") for line in done.stdout.splitlines()[1:]]
        image = [int(line[1]) for line in lines]
        in_order = [line[0] for line in lines] == [str(p) for p in range(len(lines))]
        if in_order and is_embedding(problem.pattern, problem.target, problem.asked, image):
            return "yes"
    return f"status {done.returncode}: {done.stdout}{done.stderr}"


class Runs:
    """The runs of one problem, whose files stand in a folder."""

    def __init__(self, program, folder, problem):
        self.program, self.problem = program, problem
        self.files = [os.path.join(folder, name) for name in ("p.lad", "t.lad")]
        self.encoding, self.log = (os.path.join(folder, name) for name in ("e.opb", "l.proof"))
        texts = [text_of(graph, problem.kind).encode() for graph in (problem.pattern, problem.target)]
        for name, text in zip(self.files, texts):
            with open(name, "wb") as file:
                file.write(text)
        self.options = [*problem.asked.options(), "--format", problem.kind]
        self.right = plain.encode(texts, problem.kind, problem.asked).out
        self.model = plain.plain_check.read_encoding(self.right)
        self.answer = problem.known
        self.told = None

    def encodes(self):
        """What is wrong with what `encode` prints."""
        printed = say([self.program, "encode", *self.options, *self.files]).stdout
        return None if printed.encode() == self.right else "`encode` prints another encoding than the plain one"

    def solve(self, options):
        """The answer of a run that writes its proof, and the two texts."""
        words = [self.program, "solve", *self.options, *options, *self.files, "--prove", self.encoding, "--log", self.log]
        self.told = " ".join(words)
        answer = answer_of(say(words), self.problem)
        texts = []
        for name in (self.encoding, self.log):
            with open(name, "rb") as file:
                texts.append(file.read())
        return answer, texts

    def wrong(self, answer, texts):
        """What is wrong with an answer and its proof, if anything is."""
        if answer not in SHOWN:
            return answer
        if answer != "unknown":
            if self.answer not in (None, answer):
                return f"answers {answer}, wanted {self.answer}"
            self.answer = answer
        if texts[0] != self.right:
            return "the encoding is not the plain one"
        said = say([self.program, "check", self.encoding, self.log])
        if (said.stdout, said.returncode) != (SHOWN[answer], 0):
            return f"`check` says {said.stdout}{said.stderr} of the proof of {answer}"
        try:
            plainly = f"accepted {plain.plain_check.judge(self.model, texts[1])}\n"
        except plain.plain_check.Fault as fault:
            plainly = f"line {fault.line}: {fault.cause}"
        return None if plainly == SHOWN[answer] else f"the plain checker says {plainly} of the proof of {answer}"


def all_options(rng, is_hard):
    """For each run its options, and whether it is asked for a log without hints too: the first one is by one thread."""
    for threads in (1, rng.randint(2, 8), rng.randint(2, 8)):
        budget = rng.choice([1, 10, 100]) if is_hard and rng.random() < 0.2 else BUDGET
        options = ["--threads", str(threads), "--seed", str(rng.randrange(2**64)), "--budget", str(budget)]
        if rng.random() < 0.3:
            options += ["--book", str(rng.choice([0, 1, 5, 100]))]
        yield options, rng.random() < 0.25


def one(words, seed, folder):
    """One problem: counts of its runs, and what disagreed."""
    rng = random.Random(seed)
    drawn = rng.random() * 100
    make = small
    for other, percent in ((hard, words.hard), (structured, words.structured), (wide, words.wide)):
        if drawn < percent:
            make = other
            break
        drawn -= percent
    problem = make(rng, rng.choice(words.formats))
    if make is not small and rng.random() < 0.5:
        problem = varied(rng, problem)
    counts = collections.Counter({f"of {problem.what}": 3, f"in {problem.kind}": 3, f"by {problem.asked.what()}": 3, "problems": 1})
    runs = Runs(words.program, folder, problem)
    wrong = runs.encodes()
    for options, plainly in all_options(rng, make is hard):
        if wrong:
            break
        answer, texts = runs.solve(options)
        wrong = runs.wrong(answer, texts)
        if plainly and not wrong and len(texts[1]) < SHORT:
            counts["without hints"] += 1
            again, other = runs.solve([*options, "--profile", "2"])
            wrong = runs.wrong(again, other)
            if options[1] == "1" and not wrong and other[1] != check_cases.without_hints(texts[1]):
                wrong = "the log without hints is not the one with hints, cut"
        counts["log bytes"] += len(texts[1])
        counts[answer] += 1
        counts[f"{answer} by {problem.asked.what()}"] += 1
    return counts, wrong and f"seed {seed}, {problem.what}: {runs.told}: {wrong}"


def chunk(words, begin):
    """Some problems: the sum of their counts, and the first that disagreed."""
    counts = collections.Counter()
    with tempfile.TemporaryDirectory(dir=words.folder) as folder:
        for seed in range(begin, begin + CHUNK):
            more, wrong = one(words, seed, folder)
            counts += more
            if wrong:
                shutil.copytree(folder, words.keep, dirs_exist_ok=True)
                return counts, wrong
    return counts, None


def words_of_the_line():
    parser = argparse.ArgumentParser()
    parser.add_argument("program")
    parser.add_argument("--runs", type=int, default=10000)
    parser.add_argument("--jobs", type=int, default=1)
    parser.add_argument("--seed", type=int, default=0)
    parser.add_argument("--hard", type=float, default=3.0, help="how many of a hundred problems are hard")
    parser.add_argument("--structured", type=float, default=47.0, help="how many of a hundred problems are structured")
    parser.add_argument("--wide", type=float, default=0.5, help="how many of a hundred problems have targets of more than 512 vertices")
    parser.add_argument("--formats", help="which formats; all that the program takes where none is named")
    parser.add_argument("--folder", default="/dev/shm", help="where the files are written; memory is best")
    parser.add_argument("--keep", default=os.path.join(TOP, "out", "proved"), help="a folder for what disagrees")
    words = parser.parse_args()
    words.formats = words.formats.split(",") if words.formats else taken(words.program)
    return words


def figures(totals):
    """The counts as a sentence for docs/TESTING.md, and a table of what was asked."""
    print(
        f"{sum(totals[answer] for answer in SHOWN)} runs on {totals['problems']} problems: {totals['none']} times none, {totals['yes']} times yes and"
        f" {totals['unknown']} times unknown; both checkers accepted each log for its answer, and {totals['without hints']} more without hints;"
        f" {totals['log bytes']} bytes of logs"
    )
    print("; ".join(f"{count} runs {what}" for what, count in sorted(totals.items()) if what[:3] in ("of ", "in ", "by ")))
    print("; ".join(f"{count} times {what}" for what, count in sorted(totals.items()) if " by " in what))


def main():
    words = words_of_the_line()
    begun, totals, seed = time.process_time(), collections.Counter(), words.seed
    with concurrent.futures.ProcessPoolExecutor(words.jobs) as pool:
        while sum(totals[answer] for answer in SHOWN) < words.runs:
            places = [seed + CHUNK * k for k in range(4 * words.jobs)]
            seed = places[-1] + CHUNK
            for counts, wrong in pool.map(chunk, [words] * len(places), places):
                totals += counts
                if wrong:
                    print(wrong)
                    sys.exit(1)
    figures(totals)
    times = os.times()
    seconds = time.process_time() - begun + times.children_user + times.children_system
    print(f"formats {', '.join(words.formats)}; {seconds:.0f} seconds of processor time")


if __name__ == "__main__":
    main()
