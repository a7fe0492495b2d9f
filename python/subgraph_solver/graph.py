"""Plain graphs with names and labels, and the LAD text that the program reads."""
from __future__ import annotations

import sys
from typing import Any, Callable, Dict, Hashable, Iterable, List, Mapping, Optional, Sequence, Set, Tuple, Union

from .errors import NotAvailable

Name = Hashable
Attributes = Mapping[str, Any]
#: How vertices are labelled: the name of an attribute, several names, or a function of name and attributes.
NodeLabel = Union[None, str, Sequence[str], Callable[[Name, Attributes], Hashable]]
#: How edges are labelled: the name of an attribute, several names, or a function of both ends and attributes.
EdgeLabel = Union[None, str, Sequence[str], Callable[[Name, Name, Attributes], Hashable]]


class Graph:
    """A graph without parallel edges, undirected or directed.

    Parameters
    ----------
    edges : iterable of pairs of names
        A pair of one name twice is a loop. A pair that comes twice is one edge, in an undirected graph in either order.
    vertices : iterable of names
        These come before those that the edges name. A vertex without edges stands here.
    labels : mapping from names to labels, optional
        If given, it has each vertex.
    directed : bool
        Does a pair lead from its first name to its second only?
    edge_labels : mapping from pairs of names to labels, optional
        If given, it has each edge, in an undirected graph in either order.

    Attributes
    ----------
    names : list
        The vertices' names, in order.
    number : dict
        Each name's place in that list.
    neighbours : list of set of int
        For each vertex the places of its neighbours. In a directed graph these are the ends of edges from it.
    labels : list, or None
        The label of each vertex; ``None`` if the graph has no labels.
    directed : bool
        Do edges have directions?
    edge_labels : dict, or None
        The label of each of `edges()`; ``None`` if edges have no labels.
    source : object
        What the graph was made from, such as an RDKit molecule; ``None`` if it was made from edges.
    labelled_by : tuple
        The `node_label` and the `edge_label` by which it was made from that.
    """

    #: What its text as a pattern was made of, and the text; see `Prepared.text_of`.
    written: Optional[Tuple[Any, bytes]] = None

    def __init__(
        self,
        edges: Iterable[Tuple[Name, Name]] = (),
        vertices: Iterable[Name] = (),
        labels: Optional[Mapping[Name, Hashable]] = None,
        directed: bool = False,
        edge_labels: Optional[Mapping[Tuple[Name, Name], Hashable]] = None,
    ) -> None:
        self.names: List[Name] = []
        self.number: Dict[Name, int] = {}
        self.neighbours: List[Set[int]] = []
        self.directed = directed
        self.source: Any = None
        self.labelled_by: Tuple[NodeLabel, EdgeLabel] = (None, None)
        for name in vertices:
            self._place(name)
        for pair in edges:
            first, second = pair
            a, b = self._place(first), self._place(second)
            self.neighbours[a].add(b)
            if not directed:
                self.neighbours[b].add(a)
        self.labels: Optional[List[Hashable]] = None
        if labels is not None:
            missing = [name for name in self.names if name not in labels]
            if missing:
                raise ValueError(f"the vertex {missing[0]!r} has no label")
            self.labels = [labels[name] for name in self.names]
        self.edge_labels: Optional[Dict[Tuple[int, int], Hashable]] = None
        if edge_labels is not None:
            self.edge_labels = {(a, b): self._named_label(edge_labels, a, b) for a, b in self.edges()}

    def _place(self, name: Name) -> int:
        if name not in self.number:
            self.number[name] = len(self.names)
            self.names.append(name)
            self.neighbours.append(set())
        return self.number[name]

    def _named_label(self, labels: Mapping[Tuple[Name, Name], Hashable], a: int, b: int) -> Hashable:
        """The label of an edge, of a mapping that has the names of its ends."""
        first, second = self.names[a], self.names[b]
        ways = [(first, second)] if self.directed else [(first, second), (second, first)]
        found = {labels[it] for it in ways if it in labels}
        if len(found) != 1:
            raise ValueError(f"the edge ({first!r}, {second!r}) has {'two labels' if found else 'no label'}")
        return found.pop()

    def __len__(self) -> int:
        return len(self.names)

    def __repr__(self) -> str:
        labelled = "" if self.labels is None and self.edge_labels is None else ", labelled"
        directed = "directed " if self.directed else ""
        return f"<Graph of {len(self)} vertices and {len(self.edges())} {directed}edges{labelled}>"

    def edges(self) -> List[Tuple[int, int]]:
        """The edges as pairs of places, in rising order; in an undirected graph the lesser place is first."""
        near = enumerate(self.neighbours)
        return [(a, b) for a, listed in near for b in sorted(listed) if self.directed or a <= b]

    def edge_label(self, a: int, b: int) -> Hashable:
        """The label of an edge by the places of its ends, in an undirected graph either way round."""
        if self.edge_labels is None:
            raise ValueError("the edges have no labels")
        return self.edge_labels[(a, b) if self.directed or a <= b else (b, a)]


def lad_format(directed: bool, labels: bool, edge_labels: bool) -> str:
    """The name of the least format that has what two graphs have: directions, labels of vertices, labels of edges."""
    if edge_labels or (directed and labels):
        return "labelledlad"
    if directed:
        return "directedlad"
    return "vertexlabelledlad" if labels else "lad"


def lad_text(
    graph: Graph,
    numbers: Optional[Mapping[Hashable, int]] = None,
    edge_numbers: Optional[Mapping[Hashable, int]] = None,
) -> str:
    """The graph in LAD text, of the format that `lad_format` names.

    Parameters
    ----------
    graph : Graph
    numbers : mapping from labels to numbers, optional
        With it the text has labels of vertices.
    edge_numbers : mapping from labels of edges to numbers, optional
        With it the text has these. In ``labelledlad`` labels that a graph does not have are 0.
    """
    name = lad_format(graph.directed, numbers is not None, edge_numbers is not None)
    rows = [[len(graph)]]
    labels, edge_labels, directed = graph.labels or [], graph.edge_labels or {}, graph.directed
    for a, near in enumerate(graph.neighbours):
        words = [] if name in ("lad", "directedlad") else [0 if numbers is None else numbers[labels[a]]]
        words.append(len(near))
        if name != "labelledlad":
            words += sorted(near)
        elif edge_numbers is None:
            for b in sorted(near):
                words += b, 0
        else:
            # The lookup of `edge_label`, without a call for each edge.
            for b in sorted(near):
                words += b, edge_numbers[edge_labels[(a, b) if directed or a <= b else (b, a)]]
        rows.append(words)
    # Python writes numbers in lists in half the time that it takes to join them.
    return str(rows)[2:-2].replace("], [", "\n").replace(",", "") + "\n"


def label_numbers(pattern: Graph, target: Graph) -> Optional[Dict[Hashable, int]]:
    """A number for each label of two graphs, or ``None`` if neither has labels; `label_numbering` says which."""
    has_labels, _ = labelled_alike(pattern, target)
    return label_numbering(it.labels or () for it in (pattern, target)) if has_labels else None


def edge_label_numbers(pattern: Graph, target: Graph) -> Optional[Dict[Hashable, int]]:
    """As `label_numbers`, for the labels of edges."""
    _, has_labels = labelled_alike(pattern, target)
    return label_numbering((it.edge_labels or {}).values() for it in (pattern, target)) if has_labels else None


def labelled_alike(pattern: Graph, target: Graph) -> Tuple[bool, bool]:
    """Do the vertices of both graphs have labels, and do their edges? Refuses two graphs of which one alone has some."""
    for what, first, second in (
        ("labels", pattern.labels, target.labels),
        ("labels of edges", pattern.edge_labels, target.edge_labels),
    ):
        if (first is None) != (second is None):
            bare = "pattern" if first is None else "target"
            raise ValueError(f"the {bare} has no {what}, and the other graph has some")
    return target.labels is not None, target.edge_labels is not None


def label_numbering(labels: Iterable[Iterable[Hashable]]) -> Dict[Hashable, int]:
    """A number for each label of several graphs.

    If all labels are numbers from 0 to 4,294,967,295, each stands for itself. So a file shows an atomic number as it is. Other
    labels are counted from 0 as they come.
    """
    found = dict.fromkeys(it for of_one in labels for it in of_one)
    small = [it for it in found if type(it) is int and 0 <= it < 1 << 32]
    if len(small) == len(found):
        return {it: it for it in small}
    return {label: number for number, label in enumerate(found)}


def read_lad(text: str, labelled: bool = False, directed: bool = False, edges_labelled: bool = False) -> Graph:
    """The graph of a LAD text, its vertices named from 0.

    It takes what the program takes, and finds fewer faults.
    """
    words = iter(text.split())
    labels: Dict[Name, Hashable] = {}
    edges: Dict[Tuple[int, int], Hashable] = {}
    try:
        size = int(next(words))
        for a in range(size):
            if labelled:
                labels[a] = int(next(words))
            for _ in range(int(next(words))):
                b = int(next(words))
                label = int(next(words)) if edges_labelled else 0
                if edges.setdefault((a, b), label) != label:
                    raise ValueError(f"the LAD text has two labels for the edge from {a} to {b}")
    except StopIteration:
        raise ValueError("the LAD text ends early") from None
    if any(b >= size for _, b in edges):
        raise ValueError("the LAD text names a vertex that it does not have")
    of_edges: Dict[Tuple[Name, Name], Hashable] = {(a, b): label for (a, b), label in edges.items()}
    return Graph(edges, range(size), labels if labelled else None, directed, of_edges if edges_labelled else None)


def as_graph(source: Any, node_label: NodeLabel = None, edge_label: EdgeLabel = None) -> Graph:
    """A graph of this package, made from another library's graph or from plain pairs.

    Parameters
    ----------
    source : Graph, networkx.Graph or DiGraph, igraph.Graph, rdkit Mol, dict of neighbours, or iterable of pairs
        The vertices keep their names: networkx's nodes, igraph's ``name`` or else its index, RDKit's atom indices.
        Directed graphs stay directed. For pairs with directions give ``Graph(pairs, directed=True)``.
    node_label : str, sequence of str, or callable, optional
        The attribute (or attributes) that a vertex and its image share, or a function of a vertex's name and attributes.
        Without it the vertices of networkx and igraph have no labels, and atoms have the label ``element``. An atom's
        attributes are ``element`` (its atomic number), ``charge``, ``aromatic`` and ``isotope``.
    edge_label : str, sequence of str, or callable, optional
        The same for edges: an attribute, or a function of an edge's two ends and attributes. It is called once for an
        undirected edge, with its ends in either order. Without it all edges are alike. A bond's attributes are ``order``
        (1.0, 2.0, 3.0, or 1.5 if it is aromatic) and ``aromatic``.

    Returns
    -------
    Graph
    """
    if isinstance(source, Graph):
        return _labelled_anew(source, node_label, edge_label)
    if _is_a(source, "networkx", "Graph"):
        graph = _of_networkx(source, node_label, edge_label)
    elif _is_a(source, "igraph", "Graph"):
        graph = _of_igraph(source, node_label, edge_label)
    elif _is_a(source, "rdkit.Chem", "Mol"):
        graph = _of_molecule(source, "element" if node_label is None else node_label, edge_label)
    else:
        graph = _of_plain(source, node_label, edge_label)
        graph.labelled_by = node_label, edge_label
        return graph
    graph.source = source
    graph.labelled_by = node_label, edge_label
    return graph


def _labelled_anew(graph: Graph, node_label: NodeLabel, edge_label: EdgeLabel) -> Graph:
    """The graph with other labels of its source; those that are not asked for stay."""
    if node_label in (None, graph.labelled_by[0]) and edge_label in (None, graph.labelled_by[1]):
        return graph
    if graph.source is None:
        raise ValueError("a Graph of edges gets its labels when it is made: give Graph(edges, labels=.., edge_labels=..)")
    made = as_graph(graph.source, node_label, edge_label)
    if node_label is None:
        made.labels = graph.labels
    if edge_label is None:
        made.edge_labels = graph.edge_labels
    return made


def _is_a(thing: Any, module: str, kind: str) -> bool:
    """Is it an instance of a class of a module, which then is loaded? The module is not loaded for the question."""
    found = getattr(sys.modules.get(module), kind, None)
    return found is not None and isinstance(thing, found)


def is_molecule(source: Any) -> bool:
    """Is it a molecule of RDKit?"""
    return _is_a(source, "rdkit.Chem", "Mol")


def _attributes(wanted: Union[str, Sequence[str]], attributes: Attributes, who: str) -> Hashable:
    """The value of an attribute, or the values of several."""
    names = [wanted] if isinstance(wanted, str) else list(wanted)
    for it in names:
        if it not in attributes:
            raise ValueError(f"the {who} has no attribute {it!r}")
    values: Tuple[Hashable, ...] = tuple(attributes[it] for it in names)
    return values[0] if isinstance(wanted, str) else values


def _labels(node_label: NodeLabel, vertices: Iterable[Tuple[Name, Attributes]]) -> Optional[Dict[Name, Hashable]]:
    if node_label is None:
        return None
    if callable(node_label):
        return {name: node_label(name, attributes) for name, attributes in vertices}
    return {name: _attributes(node_label, attributes, f"vertex {name!r}") for name, attributes in vertices}


def _edge_labels(
    edge_label: EdgeLabel, edges: Iterable[Tuple[Name, Name, Attributes]]
) -> Optional[Dict[Tuple[Name, Name], Hashable]]:
    if edge_label is None:
        return None
    if callable(edge_label):
        return {(a, b): edge_label(a, b, attributes) for a, b, attributes in edges}
    return {(a, b): _attributes(edge_label, attributes, f"edge ({a!r}, {b!r})") for a, b, attributes in edges}


def _of_networkx(source: Any, node_label: NodeLabel, edge_label: EdgeLabel) -> Graph:
    directed = source.is_directed()
    if source.is_multigraph() and any(count > 1 for count in _counts(source.edges(), directed)):
        raise NotAvailable("the graph has parallel edges, which the program does not take")
    edges = ((a, b) for a, b in source.edges())
    labels = _labels(node_label, source.nodes(data=True))
    return Graph(edges, source.nodes(), labels, directed, _edge_labels(edge_label, source.edges(data=True)))


def _counts(edges: Iterable[Tuple[Name, Name]], directed: bool) -> Iterable[int]:
    found: Dict[Hashable, int] = {}
    for pair in edges:
        edge: Hashable = pair
        if not directed:
            edge = frozenset(pair)
        found[edge] = found.get(edge, 0) + 1
    return found.values()


def _of_igraph(source: Any, node_label: NodeLabel, edge_label: EdgeLabel) -> Graph:
    if source.has_multiple():
        raise NotAvailable("the graph has parallel edges, which the program does not take")
    named = "name" in source.vs.attributes()
    names = source.vs["name"] if named else range(source.vcount())
    if len(set(names)) < source.vcount():
        raise ValueError("two vertices have the same name")
    edges = [(names[a], names[b]) for a, b in source.get_edgelist()]
    labels = _labels(node_label, ((name, vertex.attributes()) for name, vertex in zip(names, source.vs)))
    with_attributes = ((a, b, edge.attributes()) for (a, b), edge in zip(edges, source.es))
    return Graph(edges, names, labels, source.is_directed(), _edge_labels(edge_label, with_attributes))


def _of_molecule(source: Any, node_label: NodeLabel, edge_label: EdgeLabel) -> Graph:
    atoms, bonds = list(source.GetAtoms()), list(source.GetBonds())
    if any(it.HasQuery() for it in atoms) or (edge_label is not None and any(it.HasQuery() for it in bonds)):
        raise NotAvailable("a SMARTS query asks for more than labels: make the pattern with MolFromSmiles")
    edges = [
        (
            it.GetBeginAtomIdx(),
            it.GetEndAtomIdx(),
            {"order": it.GetBondTypeAsDouble(), "aromatic": it.GetIsAromatic()},
        )
        for it in bonds
    ]
    vertices = [
        (
            it.GetIdx(),
            {
                "element": it.GetAtomicNum(),
                "charge": it.GetFormalCharge(),
                "aromatic": it.GetIsAromatic(),
                "isotope": it.GetIsotope(),
            },
        )
        for it in atoms
    ]
    pairs = ((a, b) for a, b, _ in edges)
    labels = _labels(node_label, vertices)
    return Graph(pairs, range(len(atoms)), labels, edge_labels=_edge_labels(edge_label, edges))


def _of_plain(source: Any, node_label: NodeLabel, edge_label: EdgeLabel) -> Graph:
    if isinstance(source, (str, bytes)):
        raise TypeError("a text is not a graph: read_graph reads files and SMILES")
    if not (node_label is None or callable(node_label)):
        raise ValueError("a list of edges has no attributes: give Graph(edges, labels=..) or a function of the name")
    if not (edge_label is None or callable(edge_label)):
        raise ValueError("a list of edges has no attributes: give Graph(edges, edge_labels=..) or a function of ends")
    if isinstance(source, Mapping):
        graph = Graph(((a, b) for a, near in source.items() for b in near), source)
    else:
        graph = Graph(source)
    if callable(node_label):
        graph.labels = [node_label(name, {}) for name in graph.names]
    if callable(edge_label):
        graph.edge_labels = {(a, b): edge_label(graph.names[a], graph.names[b], {}) for a, b in graph.edges()}
    return graph
