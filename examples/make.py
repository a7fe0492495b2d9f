#!/usr/bin/env python3
"""Makes the LAD files, the named graphs (GML) and the pictures of the examples from their sources.

    examples/make.py [FOLDER ..]

Sources are SMILES (`.smi`), netlists (`.net`), call graphs (`.calls`) and lists of edges (`.edges`); the ball of the mesh is made by truncating an
icosahedron. The pictures ask the program. It wants python3-networkx, and python3-rdkit for the folder `drug`.
"""
from __future__ import annotations

import sys
from pathlib import Path
from typing import Dict, Hashable, List, Tuple

HERE = Path(__file__).resolve().parent
sys.path.insert(0, str(HERE.parent / "python"))

from subgraph_solver import Graph, draw, find, read_graph  # noqa: E402
from subgraph_solver.graph import as_graph, lad_text  # noqa: E402

Edges = List[Tuple[Hashable, Hashable]]
Labels = Dict[Hashable, Hashable]

#: The numbers that stand for labels in the LAD files; those of atoms are their own.
NUMBERS = {"net": 0, "vdd": 1, "gnd": 2, "nmos": 3, "pmos": 4, "gate": 5, "function": 0, "calls": 1, "called": 2}


def of_netlist(path: Path) -> Graph:
    """The graph of a netlist.

    A transistor's line is `NAME DRAIN GATE SOURCE KIND`. Vertices are the transistors, the nets, and one for each gate. A
    transistor is joined to its drain and its source, which are not told apart, and to its gate, and that to its net.
    """
    edges: Edges = []
    labels: Labels = {}
    for line in path.read_text().splitlines():
        words = line.partition("*")[0].split()
        if not words:
            continue
        name, drain, gate, source, kind = words
        pin = f"{name}.gate"
        edges += [(name, drain), (name, source), (name, pin), (pin, gate)]
        labels.update({name: kind, pin: "gate"})
        labels.update({net: net if net in ("vdd", "gnd") else "net" for net in (drain, gate, source)})
    return Graph(edges, labels=labels)


def of_calls(path: Path) -> Graph:
    """The graph of lines `CALLER CALLED`.

    A call is a path of two vertices of kinds of their own, so that its direction counts: caller, `calls`, `called`,
    callee. (Such graphs are asked in the kind that is not induced.)
    """
    edges: Edges = []
    labels: Labels = {}
    for line in path.read_text().splitlines():
        words = line.partition("#")[0].split()
        if not words:
            continue
        caller, callee = words
        out, into = f"{caller} calls {callee}", f"{callee} called by {caller}"
        edges += [(caller, out), (out, into), (into, callee)]
        labels.update({caller: "function", callee: "function", out: "calls", into: "called"})
    return Graph(edges, labels=labels)


def directed_text(path: Path) -> str:
    """The calls of lines `CALLER CALLED` as they are, in the format `directedlad`; functions are numbered as they are first named."""
    places: Dict[str, int] = {}
    called: Dict[int, List[int]] = {}
    for line in path.read_text().splitlines():
        words = line.partition("#")[0].split()
        if not words:
            continue
        caller, callee = (places.setdefault(it, len(places)) for it in words)
        called.setdefault(caller, []).append(callee)
    lists = [called.get(at, []) for at in range(len(places))]
    return "".join(f"{' '.join(map(str, row))}\n" for row in [[len(lists)], *([len(it), *it] for it in lists)])


def ball() -> Graph:
    """Twelve pentagons and twenty hexagons: the icosahedron with its corners cut off."""
    import networkx

    solid = networkx.icosahedral_graph()
    _, around = networkx.check_planarity(solid)
    edges: Edges = []
    for a in solid:
        ring = list(around.neighbors_cw_order(a))
        edges += [((a, b), (a, c)) for b, c in zip(ring, ring[1:] + ring[:1])]
        edges += [((a, b), (b, a)) for b in ring if a < b]
    names = {corner: str(place) for place, corner in enumerate(sorted({it for edge in edges for it in edge}))}
    return Graph(((names[a], names[b]) for a, b in edges), names.values())


def flower(petals: int) -> Graph:
    """A pentagon with a hexagon at each of some of its sides, neighbours sharing an edge."""
    middle = [f"m{i}" for i in range(5)]
    edges: Edges = list(zip(middle, middle[1:] + middle[:1]))
    spokes = petals + 1 if petals < 5 else 5
    edges += [(f"m{i}", f"s{i}") for i in range(spokes)]
    for i in range(petals):
        a, b = f"s{i}", f"s{(i + 1) % 5}"
        edges += [(a, f"{a}{b}"), (f"{a}{b}", f"{b}{a}"), (f"{b}{a}", b)]
    return Graph(edges)


def two_pentagons() -> Graph:
    """Two pentagons that share an edge."""
    ring = [f"{i}" for i in range(8)]
    return Graph([*zip(ring, ring[1:] + ring[:1]), ("0", "4")])


def write_gml(graph: Graph, path: Path) -> None:
    """Names and kinds in GML, which networkx and igraph read."""
    lines = ["graph ["]
    for place, name in enumerate(graph.names):
        kind = "" if graph.labels is None else f' kind "{graph.labels[place]}"'
        lines.append(f'  node [ id {place} label "{name}"{kind} ]')
    lines += [f"  edge [ source {a} target {b} ]" for a, b in graph.edges()]
    path.write_text("\n".join([*lines, "]"]) + "\n")


def write(graph: Graph, folder: Path, name: str) -> None:
    """The LAD text of a graph, and its names where it has any beside the numbers of its vertices."""
    labels = set(graph.labels or ())
    numbers = None if graph.labels is None else {it: NUMBERS.get(it, it) for it in labels}
    (folder / f"{name}.lad").write_text(lad_text(graph, numbers))
    if graph.source is None and not (folder / f"{name}.edges").exists():
        write_gml(graph, folder / f"{name}.gml")


def picture(folder: Path, pattern: str, target: str, graphs: Dict[str, Graph]) -> None:
    """Asks the program, and draws what it answers."""
    asked = [graphs[it].source or graphs[it] for it in (pattern, target)]
    draw(*asked, find(*asked), folder / f"{pattern}.svg")


def main(asked: List[str]) -> None:
    makers = {
        "drug": lambda at: {it.stem: as_graph(read_graph(str(it))) for it in at.glob("*.smi")},
        "circuit": lambda at: {it.stem: of_netlist(it) for it in at.glob("*.net")},
        "calls": lambda at: {it.stem: of_calls(it) for it in at.glob("*.calls")},
        "colouring": lambda at: {it.stem: read_graph(str(it)) for it in at.glob("*.edges")},
        "mesh": lambda at: {"ball": ball(), "flower": flower(5), "two-pentagons": two_pentagons()},
    }
    shown = {
        "drug": ("beta-lactam", "penicillin"),
        "circuit": ("latch", "memory"),
        "calls": ("descent", "parser"),
        "mesh": ("flower", "ball"),
    }
    for name, make in makers.items():
        if asked and name not in asked:
            continue
        graphs = make(HERE / name)
        for stem, graph in sorted(graphs.items()):
            write(graph, HERE / name, stem)
        if name in shown:
            picture(HERE / name, *shown[name], graphs)
        for path in sorted((HERE / name).glob("*.calls")):
            (HERE / name / f"{path.stem}-directed.lad").write_text(directed_text(path))


if __name__ == "__main__":
    main(sys.argv[1:])
