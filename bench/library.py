#!/usr/bin/env python3
"""Holds the library against the program: random questions, some with spoiled texts, have the same answers by both.

usage: python3 bench/library.py PROGRAM LIBRARY [--questions N] [--logs N] [--seed S]

PROGRAM is the built program (crates/subgraph/out/subgraph), LIBRARY the shared object (build/libsubgraph.so). The
questions are those of `agree.py`: every format, kind of map and order of images, with budgets that sometimes do not do.
Each status of `subgraph_decide`, its images and its fault are held against `solve`, and those of `subgraph_verify`, for the
images that were found and for others, against `verify`; the text of `subgraph_encode` against that of `encode`. What `subgraph_check` says of logs, most of them with a byte
changed in the encoding or the log, is held against `check`. Prints how many calls had which status, and the median time of
a call and of a run. Ends with status 1 at the first difference, and tells it.
"""
import argparse
import collections
import os
import random
import statistics
import subprocess
import sys
import tempfile
import time

from agree import FORMATS, random_graph, text_of
from asked import MAPS, of_all

HERE = os.path.dirname(os.path.abspath(__file__))
sys.path.insert(0, os.path.join(os.path.dirname(HERE), "python"))
from subgraph_solver.library import FAULT, Library, Said, _Options, told_of_log  # noqa: E402

WORDS = ("x", "", "4294967296", "00", "1", "9", "9000", "-1", "2 2")


def spoiled(rng, text):
    """The text with a word changed, taken out or put in, where the dice say so."""
    words = text.split()
    if rng.random() < 0.75:
        return text
    place = rng.randrange(len(words))
    words[place : place + rng.randint(0, 1)] = [rng.choice(WORDS)]
    return " ".join(words)


class Asking:
    """A random question with its files in a folder."""

    def __init__(self, rng, folder):
        self.kind = rng.choice(list(FORMATS))
        labels, loops = rng.choice([1, 2, 3]), rng.random() < 0.3
        graphs = [random_graph(rng, rng.randint(0, most), rng.random(), loops, labels, self.kind) for most in (6, 9)]
        self.asked = of_all(rng, len(graphs[0][0]))
        self.texts = tuple(spoiled(rng, text_of(it, self.kind)).encode("ascii") for it in graphs)
        self.seed, self.budget = rng.randrange(1 << 64), rng.choice([1, 2, 1000])
        self.folder = folder
        self.paths = [os.path.join(folder, name) for name in ("pattern.lad", "target.lad")]
        for path, text in zip(self.paths, self.texts):
            with open(path, "wb") as file:
                file.write(text)
        self.numbers = _Options(
            self.seed, self.budget, 64, list(FORMATS).index(self.kind), MAPS.index(self.asked.maps), self.asked.induced
        )

    def run(self, program, command, *more):
        words = [program, command, "--format", self.kind, *self.asked.options(), *more[:-1], *self.paths, *more[-1]]
        return subprocess.run(words, capture_output=True, text=True, timeout=600)

    def decide(self, program, library, seconds):
        """What both say of the question: the library first. The seconds of both are kept."""
        begun = time.perf_counter()
        said = library.decide(self.texts, self.numbers, self.asked.less)
        between = time.perf_counter()
        numbers = ["--seed", str(self.seed), "--budget", str(self.budget), "--book", "64"]
        ran = self.run(program, "solve", *numbers, [])
        seconds.append((between - begun, time.perf_counter() - between))
        return said, told(ran)

    def encode(self, program, library):
        """What both say of its encoding, with the text in place of images."""
        said, text = library.encode(self.texts, self.numbers, self.asked.less)
        ran = self.run(program, "encode", [])
        mine = said.status, text.decode("ascii"), said.line() if said.status == FAULT else ""
        return said.status, mine == (ran.returncode, ran.stdout, ran.stderr.strip())

    def verify(self, program, library, images):
        path = os.path.join(self.folder, "map.txt")
        with open(path, "w", encoding="ascii") as file:
            file.write("yes\n" + "".join(f"{p} -> {t}\n" for p, t in enumerate(images)))
        said = library.verify(self.texts, self.numbers, self.asked.less, images)
        return said, told(self.run(program, "verify", [path]))


def told(done):
    """The status of a run, its images, and its message."""
    lines = done.stdout.splitlines()[1:] if done.returncode == 0 else []
    return done.returncode, [int(it.split(" -> ")[1]) for it in lines], done.stderr.strip()


def differs(said: Said, ran):
    """What is not the same, or nothing."""
    status, images, line = ran
    mine = said.line() if said.status == FAULT else ""
    if (said.status, said.images, mine) == (status, images, line if status == FAULT else ""):
        return None
    return f"the library says {said}, the program {ran}"


def one(rng, program, library, folder, counts, seconds):
    """One question by both calls: what differs, or nothing."""
    it = Asking(rng, folder)
    said, ran = it.decide(program, library, seconds)
    wrong = differs(said, ran)
    counts["decide", said.status] += 1
    maps = [said.images, [rng.randrange(9) for _ in range(rng.randint(0, 6))]]
    for images in maps:
        if wrong is None:
            said, ran = it.verify(program, library, images)
            wrong = differs(said, ran)
            counts["verify", said.status] += 1
    status, is_same = it.encode(program, library)
    counts["encode", status] += 1
    wrong = wrong or (None if is_same else "another encoding")
    return wrong and f"{it.kind} {it.asked} {it.texts}: {wrong}"


def changed(rng, text):
    """The text with a byte taken out, put in or put in place of another."""
    place = rng.randrange(len(text))
    return text[:place] + rng.choice((b"", b"1", b"x", b" ", b"\n", b"~")) + text[place + rng.randint(0, 1) :]


def one_log(rng, program, library, folder, counts):
    """A log of a small question by both calls: what differs, or nothing."""
    it = Asking(rng, folder)
    paths = [os.path.join(folder, name) for name in ("encoding.opb", "proof.log")]
    it.run(program, "solve", "--prove", paths[0], "--log", paths[1], "--budget", str(it.budget), [])
    if not all(map(os.path.exists, paths)):
        return None
    texts = []
    for path in paths:
        with open(path, "rb") as file:
            texts.append(changed(rng, text) if (text := file.read()) and rng.random() < 0.4 else text)
    for path, text in zip(paths, texts):
        with open(path, "wb") as file:
            file.write(text)
    said = library.check(*texts)
    ran = subprocess.run([program, "check", *paths], capture_output=True, text=True, timeout=600)
    for path in paths:
        os.remove(path)
    counts["check", said.status] += 1
    mine, other = (said.status, told_of_log(said)), (ran.returncode, (ran.stdout + ran.stderr).strip())
    return None if mine == other else f"{texts}: the library says {mine}, the program {other}"


def main():
    words = argparse.ArgumentParser(description=__doc__.splitlines()[0])
    words.add_argument("program")
    words.add_argument("library")
    words.add_argument("--questions", type=int, default=500)
    words.add_argument("--logs", type=int, default=300)
    words.add_argument("--seed", type=int, default=1)
    given = words.parse_args()
    library, counts, seconds = Library(os.path.abspath(given.library)), collections.Counter(), []
    with tempfile.TemporaryDirectory() as folder:
        for number in range(given.questions):
            rng = random.Random(given.seed * 1_000_000 + number)
            wrong = one(rng, os.path.abspath(given.program), library, folder, counts, seconds)
            if wrong is None and number < given.logs:
                wrong = one_log(rng, os.path.abspath(given.program), library, folder, counts)
            if wrong:
                print(f"question {number}: {wrong}")
                return 1
    for (call, status), count in sorted(counts.items()):
        print(f"{call}: status {status} {count} times")
    call, run = (statistics.median(it) * 1e6 for it in zip(*seconds))
    print(f"decide: {call:.0f} microseconds a call, {run:.0f} a run of the program, by the median")
    return 0


if __name__ == "__main__":
    sys.exit(main())
