#!/usr/bin/env python3
"""Holds `subgraph batch` against other ways to ask many questions about molecules, and prints a table for docs/SPEED.md.

usage: python3 bench/batch.py PROGRAM FOLDER [--jobs N] [--times N] [--seed N]
       python3 bench/batch.py PROGRAM FOLDER --memory TARGETS

FOLDER gets the molecules, the list and the peers, compiled where they are not there. Each of N questions has as its target one of the NCI's
molecules that Debian's rdkit-data has, and as its pattern a piece of 4 to 10 atoms, of this molecule or of another one, in `labelledlad`. The ways:
`batch` by 1 and by 4 threads; `solve` for each by xargs, 1 and 4 at a time; VF2 of igraph and of Boost in one process each; and RDKit's
HasSubstructMatch in a loop of Python. Each reads all files of the list. Times are medians of runs that take turns, by the clock and of the processor;
RDKit's calls alone are told too. All have to give the same answers, and each mapping of `batch` is tested; else the status is 1.

With --memory the list has so many targets of 8,192 vertices, each its own file, and the most memory of the run is told.
"""
import argparse
import importlib.util
import os
import random
import re
import resource
import statistics
import subprocess
import sys
import time

from agree import is_embedding, text_of
from asked import Asked
from beside import SOURCES, compiled
from molecules import of_rdkit
from problems import graph_of, part

HERE = os.path.dirname(os.path.abspath(__file__))
KIND = "labelledlad"
SIZE = 8192


def graph(molecule):
    atoms, bonds = molecule
    return graph_of(KIND, len(atoms), [*bonds, *((b, a, kind) for a, b, kind in bonds)], atoms)


def piece(rng, target):
    """A piece of a molecule that hangs together."""
    near = {v: sorted(b for a, b in target[1] if a == v) for v in range(len(target[0]))}
    vertices = [rng.randrange(len(target[0]))]
    for _ in range(rng.randint(3, 9)):
        beside = sorted({b for v in vertices for b in near[v]} - set(vertices))
        if beside:
            vertices.append(rng.choice(beside))
    return part(target, vertices)


def questions(seed, count):
    """A pattern and a target each."""
    molecules = of_rdkit()
    if not molecules:
        raise SystemExit("python3-rdkit and rdkit-data are not there, or this is another Python than they are installed for")
    rng = random.Random(seed)
    targets = [graph(it) for it in rng.sample(molecules, count)]
    return [(piece(rng, target if rng.random() < 0.5 else rng.choice(targets)), target) for target in targets]


def written(folder, asked):
    """Writes the graphs of questions, and the list."""
    with open(os.path.join(folder, "list"), "w", encoding="ascii") as jobs:
        for number, sides in enumerate(asked, 1):
            names = [f"{number}.{side}.lad" for side in ("pattern", "target")]
            for name, side in zip(names, sides):
                with open(os.path.join(folder, name), "w", encoding="ascii") as file:
                    file.write(text_of(side, KIND))
            print(*names, file=jobs)


def ways(program, folder):
    """The commands by name, each run in the folder."""
    found = {f"`batch --threads {n}`": [program, "batch", "--threads", str(n), "--format", KIND, "list"] for n in (1, 4)}
    for n in (1, 4):
        found[f"`xargs -P{n} subgraph solve`"] = ["xargs", "-a", "list", f"-P{n}", "-L1", program, "solve", "--format", KIND]
    for name in ("igraph VF2", "Boost VF2"):
        peer = compiled(folder, *SOURCES[name])
        if peer:
            found[f"{name}, one process"] = [peer, "--list", "list", "--format", KIND]
    if importlib.util.find_spec("rdkit"):
        found["RDKit's HasSubstructMatch, one process"] = [sys.executable, os.path.join(HERE, "rdkit_match.py"), "--list", "list"]
    return found


def run(words, folder):
    """What is printed, the seconds by the clock and of the processor, and the seconds of calls alone where they are told."""
    before, begun = resource.getrusage(resource.RUSAGE_CHILDREN), time.monotonic()
    done = subprocess.run(words, cwd=folder, capture_output=True, text=True)
    wall, after = time.monotonic() - begun, resource.getrusage(resource.RUSAGE_CHILDREN)
    told = re.search(r"^seconds (\S+)$", done.stderr, re.M)
    cpu = after.ru_utime + after.ru_stime - before.ru_utime - before.ru_stime
    return done.stdout, wall, cpu, float(told[1]) if told else None


def answers_of(text):
    """The answers in the order of the list; of single runs, which print side by side, how often each came."""
    if re.match(r"\d+: ", text):
        return [line.split()[1] for line in text.splitlines()]
    return {it: text.count(it) for it in ("yes", "none")}


def wrong(name, text, known, asked):
    """What is wrong with the answers of one way."""
    found = answers_of(text)
    wanted = known if isinstance(found, list) else {it: known.count(it) for it in ("yes", "none")}
    if found != wanted:
        return f"{name} answers otherwise"
    if "batch" in name:
        for line, (pattern, target) in zip(text.splitlines(), asked):
            _, answer, *images = line.split()
            if answer == "yes" and not is_embedding(pattern, target, Asked(), [int(it) for it in images]):
                return f"{name}: no embedding: {line}"
    return None


def compare(words):
    asked = questions(words.seed, words.jobs)
    written(words.folder, asked)
    found = ways(os.path.abspath(words.program), words.folder)
    rows = {name: [] for name in found}
    known = None
    for _ in range(words.times):
        for name, command in found.items():
            rows[name].append(run(command, words.folder))
            known = known or answers_of(rows[name][0][0])
            fault = wrong(name, rows[name][-1][0], known, asked)
            if fault:
                print(fault)
                return 1
    print(f"{words.jobs} questions, {known.count('yes')} of them `yes`; medians of {words.times} runs in turns, load {os.getloadavg()[0]:.1f}\n")
    print("| way | seconds by the clock | of the processor | its calls alone |\n|---|---|---|---|")
    for name, row in rows.items():
        wall, cpu = (statistics.median(it[at] for it in row) for at in (1, 2))
        calls = f"{statistics.median(it[3] for it in row):.3f}" if row[0][3] is not None else ""
        print(f"| {name} | {wall:.2f} | {cpu:.2f} | {calls} |")
    return 0


def memory(words):
    """The most megabytes of a list of targets of 8,192 vertices with four edges each."""
    rng = random.Random(words.seed)
    with open(os.path.join(words.folder, "edge.lad"), "w", encoding="ascii") as file:
        file.write("2\n1 1\n1 0\n")
    with open(os.path.join(words.folder, "large"), "w", encoding="ascii") as jobs:
        for number in range(words.memory):
            name = f"{number}.large.lad"
            with open(os.path.join(words.folder, name), "w", encoding="ascii") as file:
                rows = ("4 " + " ".join(map(str, rng.sample(range(SIZE), 4))) for _ in range(SIZE))
                file.write("\n".join([str(SIZE), *rows, ""]))
            print("edge.lad", name, file=jobs)
    program = [os.path.abspath(words.program), "batch", "--threads", "4", "large"]
    child = subprocess.Popen(program, cwd=words.folder, stdout=subprocess.PIPE, stderr=subprocess.STDOUT)
    told = child.stdout.read().decode().splitlines()
    _, status, used = os.wait4(child.pid, 0)
    child.returncode = os.waitstatus_to_exitcode(status)
    good = child.returncode == 0 and sum(": yes" in line for line in told) == words.memory
    print(f"{words.memory} targets of {SIZE} vertices: {used.ru_maxrss / 1024:.0f} MB, {used.ru_utime + used.ru_stime:.1f} seconds, {told[-1]}")
    return 0 if good else 1


def main():
    words = argparse.ArgumentParser()
    words.add_argument("program")
    words.add_argument("folder")
    words.add_argument("--jobs", type=int, default=1000)
    words.add_argument("--times", type=int, default=5)
    words.add_argument("--seed", type=int, default=0)
    words.add_argument("--memory", type=int, default=0, metavar="TARGETS")
    asked = words.parse_args()
    os.makedirs(asked.folder, exist_ok=True)
    sys.exit(memory(asked) if asked.memory else compare(asked))


if __name__ == "__main__":
    main()
