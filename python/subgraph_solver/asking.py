"""A question: two graphs, what is asked of a map, and how both are written for the program and for the library."""
from __future__ import annotations

import os
import tempfile
from contextlib import contextmanager
from dataclasses import dataclass
from typing import Any, Iterable, Iterator, List, Optional, Sequence, Tuple

from .answers import Embedding
from .graph import EdgeLabel, Graph, NodeLabel, as_graph, edge_label_numbers, label_numbers, labelled_alike
from .graph import lad_format, lad_text
from .maps import Map, Pair, less_places, map_options
from .prepared import Prepared

#: The budget if none is named: the greatest that the program takes.
GREATEST_BUDGET = (1 << 63) - 1


@dataclass(frozen=True)
class Files:
    """Two graphs as files of a folder, and the words that name them and the map that is asked for to the program."""

    folder: str
    words: List[str]


@dataclass(frozen=True)
class Question:
    """Two graphs with their texts in one format, and what is asked of a map."""

    pattern: Graph
    target: Graph
    format: str
    texts: Tuple[bytes, bytes]
    induced: bool
    map: str
    #: The pairs by the places of their vertices in the pattern.
    less: List[Tuple[int, int]]
    #: The words by which the program is asked for such a map.
    options: List[str]

    def words(self) -> List[str]:
        """The words for the map and the format."""
        return [*self.options, *([] if self.format == "lad" else ["--format", self.format])]

    @contextmanager
    def files(self) -> Iterator[Files]:
        """The texts in files of a new folder, which goes when the block ends."""
        with tempfile.TemporaryDirectory(prefix="subgraph-") as folder:
            paths = [os.path.join(folder, f"{name}.lad") for name in ("pattern", "target")]
            for path, text in zip(paths, self.texts):
                with open(path, "wb") as file:
                    file.write(text)
            yield Files(folder, [*self.words(), *paths])

    def named(self, images: Optional[Sequence[int]]) -> Optional[Embedding]:
        """The images in the names of both graphs, where there are any."""
        if images is None:
            return None
        named = zip(self.pattern.names, map(self.target.names.__getitem__, images))
        return Embedding.of(named, self.pattern, self.target)


def question_of(
    pattern: Any,
    target: Any,
    labels: Tuple[NodeLabel, EdgeLabel],
    induced: bool,
    map: Map,
    less: Iterable[Pair],
) -> Question:
    """The question of two graphs, whatever `as_graph` takes."""
    first, second = graphs_of(pattern, target, labels)
    pairs = list(less)
    options = map_options(first, induced, map, pairs)
    if isinstance(second, Prepared):
        format, texts = second.format, (second.text_of(first), second.text)
    else:
        numbers, edge_numbers = label_numbers(first, second), edge_label_numbers(first, second)
        format = lad_format(first.directed, numbers is not None, edge_numbers is not None)
        one, other = (lad_text(it, numbers, edge_numbers).encode("ascii") for it in (first, second))
        texts = one, other
    return Question(first, second, format, texts, induced, map, less_places(first, pairs), options)


def graphs_of(pattern: Any, target: Any, labels: Tuple[NodeLabel, EdgeLabel]) -> Tuple[Graph, Graph]:
    """The two graphs of a question, which both have directions, and labels, or neither."""
    second = as_graph(target, *labels)
    first = second.pattern(pattern, labels) if isinstance(second, Prepared) else as_graph(pattern, *labels)
    same_directions(first, second)
    labelled_alike(first, second)
    return first, second


def same_directions(pattern: Graph, target: Graph) -> None:
    """Refuses two graphs of which one has directions."""
    if pattern.directed != target.directed:
        both = ("pattern", pattern), ("target", target)
        kinds = [f"the {it} is {'' if graph.directed else 'un'}directed" for it, graph in both]
        raise ValueError(f"{kinds[0]}, and {kinds[1]}: give both directions, or neither")
