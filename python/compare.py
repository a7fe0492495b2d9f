#!/usr/bin/env python3
"""Puts one question to networkx, igraph, RDKit and this package, and prints a table of answers and times.

    python3 compare.py [SECONDS]

Each row has the best of three runs, and a run is cut off after the seconds, 20 where none are named. The times of this package have
writing two files, starting the program and reading its answer in them.
"""
from __future__ import annotations

import multiprocessing
import sys
import time
from typing import Any, Callable, List, Optional, Tuple

import igraph
import networkx
from networkx.algorithms.isomorphism import GraphMatcher
from rdkit import Chem

from subgraph_solver import find

PENICILLIN = "CC1(C(N2C(S1)C(C2=O)NC(=O)Cc3ccccc3)C(=O)O)C"


def planted(size: int, of: int, seed: int) -> Tuple[networkx.Graph, networkx.Graph]:
    """A part of a random graph, and the graph."""
    target = networkx.gnp_random_graph(size, 0.3, seed=seed)
    part = target.subgraph(range(0, 5 * of, 5))
    return networkx.convert_node_labels_to_integers(part), target


def odd_cycle(length: int, size: int) -> Tuple[networkx.Graph, networkx.Graph]:
    """A cycle of odd length, and a graph of two sides, which has none."""
    return networkx.cycle_graph(length), networkx.bipartite.random_graph(size, size, 0.4, seed=3)


def of_networkx(pattern: Any, target: Any, induced: bool) -> bool:
    matcher = GraphMatcher(target, pattern)
    return matcher.subgraph_is_isomorphic() if induced else matcher.subgraph_is_monomorphic()


def of_igraph(pattern: Any, target: Any, induced: bool) -> bool:
    made = [igraph.Graph(len(it), list(it.edges())) for it in (pattern, target)]
    return made[1].subisomorphic_lad(made[0], induced=induced)


def of_rdkit(pattern: Any, target: Any, induced: bool) -> bool:
    return target.HasSubstructMatch(pattern)


def of_this(pattern: Any, target: Any, induced: bool) -> bool:
    return find(pattern, target, induced) is not None


def _run(ask: Callable, words: tuple, told: Any) -> None:
    begun = time.perf_counter()
    told.put((ask(*words), time.perf_counter() - begun))


def best(ask: Callable, words: tuple, most: float) -> str:
    """The answer and the least time of three runs, each in a process of its own."""
    times: List[float] = []
    answer: Optional[bool] = None
    for _ in range(3):
        told: Any = multiprocessing.Queue()
        asking = multiprocessing.Process(target=_run, args=(ask, words, told))
        asking.start()
        asking.join(most)
        if asking.is_alive():
            asking.kill()
            return f"over {most:g} s"
        answer, seconds = told.get()
        times.append(seconds)
    return f"{'yes' if answer else 'none'}, {1000 * min(times):.1f} ms"


def main() -> None:
    most = float(sys.argv[1]) if len(sys.argv) > 1 else 20.0
    rows = [
        ("16 vertices planted in 100, induced", planted(100, 16, 1), True),
        ("20 vertices planted in 150, induced", planted(150, 20, 2), True),
        ("a cycle of 5 in two sides of 30", odd_cycle(5, 30), False),
        ("a cycle of 7 in two sides of 10", odd_cycle(7, 10), False),
    ]
    print("| question | networkx | igraph | RDKit | here |\n|---|---|---|---|---|")
    for what, graphs, induced in rows:
        cells = [best(ask, (*graphs, induced), most) for ask in (of_networkx, of_igraph)]
        print("|", " | ".join([what, *cells, "", best(of_this, (*graphs, induced), most)]), "|", flush=True)
    molecules = Chem.MolFromSmiles("O=C1CCN1"), Chem.MolFromSmiles(PENICILLIN)
    cells = [best(ask, (*molecules, False), most) for ask in (of_rdkit, of_this)]
    print("|", " | ".join(["a ring of four with nitrogen in penicillin", "", "", *cells]), "|")


if __name__ == "__main__":
    main()
