#!/usr/bin/env python3
"""Asks about molecules in one process of Python, by the library and by others, and prints a table for docs/SPEED.md.

usage: /usr/bin/python3 bench/library_beside.py LIBRARY [--pairs N] [--times N] [--seed N]

LIBRARY is the shared object (build/libsubgraph.so). A pair is one of the NCI's molecules that Debian's rdkit-data has, and a piece of 4 to 10
atoms of this molecule or of another one, with atomic numbers and kinds of bonds as labels. The calls:

- `subgraph_decide`, from two texts in `labelledlad`, which it reads; and `subgraph_decide_in`, of the pattern's text and a target that is open;
- `find` of the package with a target of `prepare`, which the library keeps open, from two graphs of the package, whose pattern it writes;
- RDKit's `HasSubstructMatch`, both molecules built before; and RDKit building the target, of its atoms and bonds and from the same text;
- `subisomorphic_vf2` of igraph, and `subgraph_is_monomorphic` of networkx, both graphs built before.

Each call is timed N times, and its least time counts. Prints the microseconds of a call by the median, of 90 of 100 calls, and of the longest. All
have to give the same answers; else the status is 1. What is not installed is named and left out.
"""
import argparse
import importlib
import os
import statistics
import sys
import time

from agree import text_of
from batch import KIND, questions

HERE = os.path.dirname(os.path.abspath(__file__))
sys.path.insert(0, os.path.join(os.path.dirname(HERE), "python"))
from subgraph_solver import find, prepare  # noqa: E402
from subgraph_solver.graph import read_lad  # noqa: E402
from subgraph_solver.library import FORMATS, Library, _Options  # noqa: E402


def bonds(graph):
    """The bonds of a graph of `bench/problems.py`, each once, with their kinds, and the atoms."""
    mine = read_lad(text_of(graph, KIND), True, True, True)
    return mine.labels, {(a, b): mine.edge_labels[a, b] for a, b in mine.edges() if a < b}


def by_library(path, pairs):
    library = Library(path)
    options = _Options(0, (1 << 63) - 1, 65536, FORMATS.index(KIND), 0, 0)
    texts = [tuple(text_of(it, KIND).encode("ascii") for it in pair) for pair in pairs]
    return [lambda it=it: library.decide(it, options, ()).status == 0 for it in texts]


def by_target(path, pairs):
    library = Library(path)
    options = _Options(0, (1 << 63) - 1, 65536, FORMATS.index(KIND), 0, 0)
    texts = [tuple(text_of(it, KIND).encode("ascii") for it in pair) for pair in pairs]
    return [lambda p=p, held=library.opened(t, KIND): held.decide(p, options, ()).status == 0 for p, t in texts]


def by_package(path, pairs):
    os.environ["SUBGRAPH_LIBRARY"] = path
    graphs = [[read_lad(text_of(it, KIND), True, True, True) for it in pair] for pair in pairs]
    return [lambda p=p, t=prepare(t): find(p, t) is not None for p, t in graphs]


def molecule(chem, graph):
    """A molecule of RDKit, without hydrogen or charges."""
    kinds = {1: chem.BondType.SINGLE, 2: chem.BondType.DOUBLE, 3: chem.BondType.TRIPLE, 4: chem.BondType.AROMATIC}
    atoms, joined = graph
    made = chem.RWMol()
    for label in atoms:
        atom = chem.Atom(label)
        atom.SetNoImplicit(True)
        made.AddAtom(atom)
    for (a, b), kind in joined.items():
        made.AddBond(a, b, kinds[kind])
    made = made.GetMol()
    made.UpdatePropertyCache(strict=False)
    return made


def by_rdkit(pairs):
    chem = importlib.import_module("rdkit.Chem")
    built = [[molecule(chem, bonds(it)) for it in pair] for pair in pairs]
    return [lambda p=p, t=t: t.HasSubstructMatch(p) for p, t in built]


def building(pairs):
    """RDKit building the target, of its atoms and bonds. The answer is none of the question."""
    chem = importlib.import_module("rdkit.Chem")
    parts = [bonds(target) for _, target in pairs]
    return [lambda it=it: molecule(chem, it) is None for it in parts]


def read(text):
    """The atoms and bonds of a text in `labelledlad`."""
    words = iter(map(int, text.split()))
    atoms, joined = [], {}
    for a in range(next(words)):
        atoms.append(next(words))
        for _ in range(next(words)):
            b, kind = next(words), next(words)
            if a < b:
                joined[a, b] = kind
    return atoms, joined


def reading(pairs):
    """RDKit building the target from its text."""
    chem = importlib.import_module("rdkit.Chem")
    texts = [text_of(target, KIND) for _, target in pairs]
    return [lambda it=it: molecule(chem, read(it)) is None for it in texts]


def by_igraph(pairs):
    igraph = importlib.import_module("igraph")

    def built(graph):
        atoms, joined = bonds(graph)
        return igraph.Graph(len(atoms), list(joined)), atoms, list(joined.values())

    both = [[built(it) for it in pair] for pair in pairs]
    return [lambda p=p, t=t: t[0].subisomorphic_vf2(p[0], color1=t[1], color2=p[1], edge_color1=t[2], edge_color2=p[2]) for p, t in both]


def by_networkx(pairs):
    networkx = importlib.import_module("networkx")
    isomorphism = importlib.import_module("networkx.algorithms.isomorphism")

    def built(graph):
        atoms, joined = bonds(graph)
        made = networkx.Graph()
        made.add_nodes_from((at, {"atom": it}) for at, it in enumerate(atoms))
        made.add_edges_from((*pair, {"kind": it}) for pair, it in joined.items())
        return made

    match = isomorphism.categorical_node_match("atom", None), isomorphism.categorical_edge_match("kind", None)
    both = [[built(it) for it in pair] for pair in pairs]
    return [lambda p=p, t=t: isomorphism.GraphMatcher(t, p, *match).subgraph_is_monomorphic() for p, t in both]


def timed(calls, times):
    """What each call answers, and the microseconds of its quickest turn."""
    answers, taken = [], []
    for call in calls:
        turns = []
        for _ in range(times):
            begun = time.perf_counter_ns()
            answer = call()
            turns.append((time.perf_counter_ns() - begun) / 1000)
        answers.append(bool(answer))
        taken.append(min(turns))
    return answers, taken


def ways(path, pairs):
    """For each call its name and how it is made; the first that need a library, then those of the peers."""
    if path:
        yield "`subgraph_decide`, from texts", lambda: by_library(path, pairs)
        yield "`subgraph_decide_in`, of an open target", lambda: by_target(path, pairs)
        yield "`find`, with `prepare(target)`", lambda: by_package(path, pairs)
    yield "RDKit's `HasSubstructMatch`, both built", lambda: by_rdkit(pairs)
    yield "RDKit building the target of its atoms and bonds", lambda: building(pairs)
    yield "RDKit building the target from the same text", lambda: reading(pairs)
    yield "igraph's `subisomorphic_vf2`, both built", lambda: by_igraph(pairs)
    yield "networkx' `subgraph_is_monomorphic`, both built", lambda: by_networkx(pairs)


def main():
    words = argparse.ArgumentParser(description=__doc__.splitlines()[0])
    words.add_argument("library", help="the shared object; empty for the others alone")
    words.add_argument("--pairs", type=int, default=1000)
    words.add_argument("--times", type=int, default=3)
    words.add_argument("--seed", type=int, default=0)
    asked = words.parse_args()
    pairs = questions(asked.seed, asked.pairs)
    known = None
    print("| call | median, µs | 90% | most |\n|---|---|---|---|")
    for name, made in ways(os.path.abspath(asked.library) if asked.library else "", pairs):
        try:
            calls = made()
        except ImportError as error:
            print(f"left out: {name}, since {error}", file=sys.stderr)
            continue
        answers, taken = timed(calls, asked.times)
        if "building" not in name:
            known = known or answers
            if answers != known:
                at = next(it for it, (one, other) in enumerate(zip(answers, known)) if one != other)
                print(f"{name} answers otherwise at pair {at}")
                return 1
        print(f"| {name} | {statistics.median(taken):,.1f} | {statistics.quantiles(taken, n=10)[-1]:,.1f} | {max(taken):,.0f} |", flush=True)
    print(f"\n{len(pairs)} pairs, {sum(known)} of them yes; load {os.getloadavg()[0]:.1f}")
    return 0


if __name__ == "__main__":
    sys.exit(main())
