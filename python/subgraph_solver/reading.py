"""Graphs from files and molecules from SMILES, read by the libraries that know them."""
from __future__ import annotations

import importlib
from pathlib import Path
from typing import Any, Callable, Dict, List, Optional

from .graph import Graph, read_lad

#: A word that begins so is a molecule, not a file.
SMILES = "smiles:"


def read_graph(word: str, kind: Optional[str] = None, directed: bool = False) -> Any:
    """The graph that a word names.

    Parameters
    ----------
    word : str
        A file, or ``smiles:`` and a molecule.
    kind : str, optional
        ``graphml``, ``gml``, ``edges``, ``smi``, ``lad``, ``vertexlabelledlad``, ``directedlad`` or ``labelledlad``;
        without it the ending says it. An edge list has two names a line; a single name is a vertex, and ``#`` begins a
        comment. A file of SMILES is read up to its first word.
    directed : bool
        Does an edge of an edge list lead from the first name to the second? Other files say so themselves.

    Returns
    -------
    networkx.Graph or DiGraph, igraph.Graph, rdkit Mol or Graph
        networkx reads GraphML and GML if it is installed, else igraph. RDKit reads SMILES. The rest needs no library.
    """
    if word.startswith(SMILES) and kind is None:
        return _molecule(word[len(SMILES):])
    ending = Path(word).suffix[1:].lower()
    ending = {"edgelist": "edges", "edge": "edges", "txt": "edges", "smiles": "smi"}.get(ending, ending)
    reader = _READERS.get(kind or ending)
    if reader is None:
        kinds = ", ".join(sorted(_READERS))
        raise ValueError(f"{word}: its ending tells no kind of graph; name one of these: {kinds}")
    return _edges(word, directed) if reader is _edges else reader(word)


def _module(why: str, *names: str) -> Any:
    for name in names:
        try:
            return importlib.import_module(name)
        except ImportError:
            pass
    raise ImportError(f"{why} needs {' or '.join(names)}, which is not installed")


def _by_library(kind: str) -> Callable[[str], Any]:
    def read(path: str) -> Any:
        library = _module(kind, "networkx", "igraph")
        if library.__name__ == "networkx":
            return getattr(library, f"read_{kind}")(path)
        graph = library.Graph.Read(path, format=kind)
        named = [it for it in ("name", "label", "id") if it in graph.vs.attributes()]
        if named:
            graph.vs["name"] = graph.vs[named[0]]
        return graph

    return read


def _text(path: str) -> str:
    with open(path, encoding="utf-8") as file:
        return file.read()


def _edges(path: str, directed: bool = False) -> Graph:
    vertices: List[str] = []
    edges = []
    for number, line in enumerate(_text(path).splitlines(), 1):
        words = line.partition("#")[0].split()
        if len(words) > 2:
            raise ValueError(f"{path}: line {number} has more than two names")
        vertices += words
        if len(words) == 2:
            edges.append((words[0], words[1]))
    return Graph(edges, vertices, directed=directed)


def _molecule(text: str) -> Any:
    chemistry = _module("SMILES", "rdkit.Chem")
    found = chemistry.MolFromSmiles(text)
    if found is None:
        raise ValueError(f"{text} is no SMILES")
    return found


def _smiles_file(path: str) -> Any:
    words = _text(path).split()
    if not words:
        raise ValueError(f"{path} holds no SMILES")
    return _molecule(words[0])


_READERS: Dict[str, Callable[[str], Any]] = {
    "directedlad": lambda path: read_lad(_text(path), directed=True),
    "edges": _edges,
    "gml": _by_library("gml"),
    "graphml": _by_library("graphml"),
    "labelledlad": lambda path: read_lad(_text(path), True, True, True),
    "lad": lambda path: read_lad(_text(path)),
    "smi": _smiles_file,
    "vertexlabelledlad": lambda path: read_lad(_text(path), True),
}
