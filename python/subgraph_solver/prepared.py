"""A target that many questions name: it is read and written once."""
from __future__ import annotations

from copy import copy
from itertools import count
from typing import Any, Dict, Hashable, Iterable, Optional, Tuple

from .errors import TextRefused
from .graph import EdgeLabel, Graph, NodeLabel, as_graph, label_numbering, lad_format, lad_text

#: The most vertices of a target, and the most bytes of its text.
MOST_VERTICES = 8192
MOST_BYTES = 1 << 26

Numbers = Optional[Dict[Hashable, int]]
Labels = Tuple[NodeLabel, EdgeLabel]


class Prepared(Graph):
    """A target with its text, as `prepare` makes it. It stands wherever a target does.

    Attributes
    ----------
    format : str
        The format of the text, and of the pattern's.
    text : bytes
        The graph in LAD text. It stays as it is if the source changes.
    """

    def __init__(self, graph: Graph) -> None:
        self.__dict__.update(graph.__dict__)
        self._numbers: Numbers = None if graph.labels is None else label_numbering([graph.labels])
        edges = graph.edge_labels
        self._edge_numbers: Numbers = None if edges is None else label_numbering([edges.values()])
        self.format = lad_format(graph.directed, self._numbers is not None, self._edge_numbers is not None)
        self.text = lad_text(graph, self._numbers, self._edge_numbers).encode("ascii")
        #: A library, and the target as it keeps it open; see `library.held_by`.
        self.held: Optional[Tuple[Any, Any]] = None

    def __getstate__(self) -> Dict[str, Any]:
        """What a copy in another process gets: all but what a library of this one keeps open."""
        return {**self.__dict__, "held": None}

    def pattern(self, source: Any, labels: Labels) -> Graph:
        """The graph of a pattern. Where no labels are named its labels are those that the target was made with."""
        if labels == (None, None) and not (isinstance(source, Graph) and source.source is None):
            labels = self.labelled_by
        return as_graph(source, *labels)

    def text_of(self, pattern: Graph) -> bytes:
        """The text of a pattern, in the target's numbers of labels.

        The pattern keeps it, with copies of all that it was made of: while these are as they were it is not written again.
        """
        labels, edge_labels = pattern.labels, pattern.edge_labels
        numbers = _numbers_of(labels or (), self._numbers)
        edge_numbers = _numbers_of((edge_labels or {}).values(), self._edge_numbers)
        kept = pattern.written
        if kept is None or kept[0] != (pattern.directed, pattern.neighbours, labels, edge_labels, numbers, edge_numbers):
            near = [set(it) for it in pattern.neighbours]
            made_of = pattern.directed, near, copy(labels), copy(edge_labels), numbers, edge_numbers
            kept = pattern.written = made_of, lad_text(pattern, numbers, edge_numbers).encode("ascii")
        return kept[1]


def _numbers_of(labels: Iterable[Hashable], numbers: Numbers) -> Numbers:
    """The numbers of these labels: of one that has none, one that no other has."""
    if numbers is None:
        return None
    found = {it: numbers.get(it, -1) for it in labels}
    if -1 in found.values():
        taken = set(numbers.values())
        free = (it for it in count() if it not in taken)
        found.update(zip([it for it, number in found.items() if number < 0], free))
    return found


def prepare(target: Any, node_label: NodeLabel = None, edge_label: EdgeLabel = None) -> Prepared:
    """Keeps of a target what many questions need: its graph, and its text, checked once. The library keeps it open.

    `find`, `verify`, `encode`, `draw` and `batch` take the answer as a target. Patterns get the labels that are named
    here, unless others are named there. Later changes of the target are not seen.

    Parameters
    ----------
    target : graph
        As `find` takes it.
    node_label, edge_label
        As `find` has them.

    Raises
    ------
    TextRefused
        The target has more than 8,192 vertices, or its text more than 64 MiB.
    """
    made = Prepared(as_graph(target, node_label, edge_label))
    if len(made) > MOST_VERTICES:
        raise TextRefused("target: word 1: TooMany")
    if len(made.text) > MOST_BYTES:
        raise TextRefused("target: too long")
    return made
