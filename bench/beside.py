#!/usr/bin/env python3
"""Holds the program against others over families of pairs, and prints the table by family for docs/SPEED.md.

usage: python3 bench/beside.py PROGRAM FOLDER [--families NAME,..] [--sizes S,M,L] [--limit SECONDS] [--csv FILE] [--also NAME=COMMAND ..]
       python3 bench/beside.py PROGRAM FOLDER --test N

FOLDER gets the pairs (`pairs.py`) and the other programs, compiled where they are not there: `reference`, LAD and VF2 of igraph, VF2 of Boost, and
for molecules RDKit's substructure match; clasp and CaDiCaL get the program's encoding (`on_encoding.py`), and Gecode a model of MiniZinc (`minizinc.py`).
What is not installed is told and left out
(Debian: g++, libigraph-dev, libboost-graph-dev, clasp, cadical, minizinc, flatzinc, and python3-rdkit with rdkit-data for its own Python). --also names programs more. `compare.py` runs them one after another; its status is this one's.
With --test all of them answer N small random problems in all formats, with loops and labels, which brute force decides; the status is 1 where one is wrong.
"""
import argparse
import importlib.util
import json
import os
import random
import shutil
import subprocess
import sys

from agree import FORMATS, is_embedding, text_of
from asked import of_copies
from compare import NOT_TAKEN
from problems import small

HERE = os.path.dirname(os.path.abspath(__file__))
COMPILE = ["g++", "-std=c++17", "-O3", "-march=x86-64-v2"]
#: For each program its source, and whether igraph is linked to it; the peers are all but `reference`.
SOURCES = {
    "reference": ("reference.cpp", False),
    "igraph LAD": ("igraph_lad.cpp", True),
    "igraph VF2": ("igraph_vf2.cpp", True),
    "Boost VF2": ("boost_vf2.cpp", False),
}
DEFAULT = "directed_planted,directed_none,molecules,made_molecules"


def compiled(folder, source, with_igraph):
    """The path of a compiled program, nothing where it does not compile here."""
    path = os.path.join(folder, source[: -len(".cpp")])
    source = os.path.join(HERE, source)
    headers = [os.path.join(HERE, it) for it in ("graphs.h", "igraph_graphs.h")]
    if os.path.exists(path) and os.path.getmtime(path) > max(map(os.path.getmtime, [source, *headers])):
        return path
    words = [*COMPILE, source, "-o", path]
    if with_igraph:
        found = subprocess.run(["pkg-config", "--cflags", "--libs", "igraph"], capture_output=True, text=True)
        words += found.stdout.split()
    done = subprocess.run(words, capture_output=True, text=True)
    if done.returncode:
        print(f"{source} does not compile here, and is left out: {done.stderr[:300]}", file=sys.stderr)
        return None
    return path


def on_encoding(program, folder):
    """Solvers that get the program's encoding, by name: each a command."""
    opb_cnf = compiled(folder, "opb_cnf.cpp", False)
    found = {}
    for name, solver in (("clasp", "clasp"), ("CaDiCaL", "cadical")):
        if opb_cnf and shutil.which(solver):
            found[name] = f"{sys.executable} {os.path.join(HERE, 'on_encoding.py')} {solver} {program} {opb_cnf}"
        else:
            print(f"there is no {solver}, or no clauses for it, and it is left out", file=sys.stderr)
    return found


def programs(program, folder):
    """The other programs by name: each a command."""
    found = {name: compiled(folder, *how) for name, how in SOURCES.items()}
    found.update(on_encoding(program, folder))
    if shutil.which("minizinc") and shutil.which("fzn-gecode"):
        found["Gecode"] = f"{sys.executable} {os.path.join(HERE, 'minizinc.py')}"
    else:
        print("there is no minizinc or no fzn-gecode, and it is left out", file=sys.stderr)
    if importlib.util.find_spec("rdkit"):
        found["RDKit"] = f"{sys.executable} {os.path.join(HERE, 'rdkit_match.py')}"
    else:
        print(f"{sys.executable} has no RDKit, which is left out", file=sys.stderr)
    return {name: command for name, command in found.items() if command}


def is_right(command, files, problem):
    """Whether a program gives the right answer; nothing where it takes no such problem."""
    words = [*command.split(), *files, "--format", problem.kind, *problem.asked.options()]
    answer, *lines = subprocess.run(words, capture_output=True, text=True).stdout.splitlines() or [""]
    if answer == NOT_TAKEN:
        return None
    images = [int(line.split(" -> ")[1]) for line in lines]
    return answer == problem.known and (answer == "none" or is_embedding(problem.pattern, problem.target, problem.asked, images))


def test(found, count, folder):
    """How many small problems each program answers, and how many of these wrongly; the status."""
    rights = {name: [] for name in found}
    files = [os.path.join(folder, name) for name in ("small.pattern", "small.target")]
    for seed in range(count):
        rng = random.Random(seed)
        problem = small(rng, rng.choice(list(FORMATS)), of_copies)
        for file, graph in zip(files, (problem.pattern, problem.target)):
            with open(file, "w", encoding="ascii") as text:
                text.write(text_of(graph, problem.kind))
        for name, command in found.items():
            right = is_right(command, files, problem)
            rights[name] += [] if right is None else [right]
            if right is False:
                print(f"seed {seed}: {name} is wrong")
    print("; ".join(f"{name}: {len(it)} problems, {it.count(False)} wrong" for name, it in rights.items()))
    return any(False in it for it in rights.values())


def main():
    words = argparse.ArgumentParser()
    words.add_argument("program")
    words.add_argument("folder")
    words.add_argument("--families", default=DEFAULT)
    words.add_argument("--sizes", default="S,M,L")
    words.add_argument("--limit", type=float, default=3)
    words.add_argument("--csv")
    words.add_argument("--also", nargs="*", default=[], help="programs more, as NAME=COMMAND")
    words.add_argument("--test", type=int, default=0, help="how many small problems are answered instead")
    asked = words.parse_args()
    os.makedirs(asked.folder, exist_ok=True)
    found = programs(asked.program, asked.folder)
    if asked.test:
        sys.exit(test({"subgraph": f"{asked.program} solve", **found}, asked.test, asked.folder))
    pairs = os.path.join(asked.folder, "pairs")
    make = [sys.executable, os.path.join(HERE, "pairs.py"), pairs, "--families", asked.families, "--sizes", asked.sizes]
    subprocess.run(make, check=True, stdout=sys.stderr)
    peers = [name for name in found if name != "reference"]
    with open(os.path.join(pairs, "index.json"), encoding="ascii") as file:
        if all(it["format"] in ("directedlad", "labelledlad") for it in json.load(file)):
            found.pop("reference", None)
    run = [sys.executable, os.path.join(HERE, "compare.py"), pairs, f"subgraph={asked.program} solve"]
    run += [f"{name}={command}" for name, command in found.items()] + asked.also
    run += ["--over-best", "--limit", str(asked.limit)]
    run += ["--peers", ",".join(peers)] if peers else []
    run += ["--csv", asked.csv] if asked.csv else []
    sys.exit(subprocess.run(run).returncode)


if __name__ == "__main__":
    main()
