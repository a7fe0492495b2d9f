"""The answers: an embedding that shows itself in a notebook, and what else a question ends with."""
from __future__ import annotations

from dataclasses import dataclass
from html import escape
from pathlib import Path
from typing import Dict, Iterable, Optional, Tuple, Union

from .errors import SubgraphError, TextRefused
from .graph import Graph, Name

#: A notebook draws graphs of at most so many vertices and edges; of a larger one it lists the images.
MOST_VERTICES = 400
MOST_EDGES = 4000
#: And at most so many images.
MOST_LISTED = 100
#: What a dict of images can be made of.
Images = Union[Dict[Name, Name], Iterable[Tuple[Name, Name]]]


class Embedding(Dict[Name, Name]):
    """The image of each pattern vertex: a dict, which shows itself in a notebook.

    A notebook draws the pattern beside the target, with the images marked in it. Of graphs with more than
    `MOST_VERTICES` vertices or `MOST_EDGES` edges it shows a table of images alone.

    Attributes
    ----------
    pattern, target : Graph or None
        The two graphs; ``None`` where only their texts are known.
    """

    pattern: Optional[Graph] = None
    target: Optional[Graph] = None

    @classmethod
    def of(cls, images: Images, pattern: Graph, target: Graph) -> "Embedding":
        """These images, with both graphs."""
        made = cls(images)
        made.pattern, made.target = pattern, target
        return made

    def _repr_svg_(self) -> Optional[str]:
        """The drawing; ``None`` where the graphs are too large for one."""
        if self.pattern is None or self.target is None or not all(map(_is_small, (self.pattern, self.target))):
            return None
        from .draw import draw

        return draw(self.pattern, self.target, self, answer="yes")

    def _repr_html_(self) -> str:
        """The drawing, and else a table of the images."""
        return self._repr_svg_() or _table(self)


def _is_small(graph: Graph) -> bool:
    return len(graph) <= MOST_VERTICES and sum(map(len, graph.neighbours)) <= 2 * MOST_EDGES


def _table(images: Dict[Name, Name]) -> str:
    """The images as an HTML table, or the first of them."""
    pairs = list(images.items())
    rows = [f"<tr><td>{escape(str(p))}</td><td>{escape(str(t))}</td></tr>" for p, t in pairs[:MOST_LISTED]]
    if len(pairs) > MOST_LISTED:
        rows.append(f'<tr><td colspan="2">and {len(pairs) - MOST_LISTED} more</td></tr>')
    return f"<table><tr><th>pattern</th><th>target</th></tr>{''.join(rows)}</table>"


@dataclass(frozen=True)
class Proof:
    """A proof that no embedding exists. The program's checker has accepted it.

    It counts as false, so ``if find(..)`` reads the same with a proof and without.

    Attributes
    ----------
    encoding : Path
        The question as pseudo-Boolean constraints. Its solutions are the embeddings.
    log : Path
        The steps from them to a contradiction.
    """

    encoding: Path
    log: Path

    def __bool__(self) -> bool:
        return False

    def _repr_html_(self) -> str:
        return f"<p>none: <code>{escape(str(self.log))}</code> over <code>{escape(str(self.encoding))}</code></p>"


@dataclass(frozen=True)
class Unknown:
    """The answer to a question of a batch whose budget is spent: it is open whether an embedding exists.

    It counts as false. `find` raises `Undecided` in its place.

    Attributes
    ----------
    spent : int
        The failed guesses, which are the budget.
    """

    spent: int

    def __bool__(self) -> bool:
        return False

    def _repr_html_(self) -> str:
        return f"<p>unknown: {self.spent:,} failed guesses were spent</p>"


@dataclass(frozen=True)
class Failed:
    """The answer to a question of a batch that could not be asked, while the others are answered.

    It counts as false, and says nothing of embeddings.

    Attributes
    ----------
    error : Exception
        What `find` would raise: `TextRefused`, `Fault`, `WorkerLost` and others.
    """

    error: Exception

    def __bool__(self) -> bool:
        return False

    def __str__(self) -> str:
        return f"failed: {self.error}"

    def _repr_html_(self) -> str:
        return f"<p>{escape(str(self))}</p>"


def of_job(error: SubgraphError, number: int) -> SubgraphError:
    """The exception with the question's number, where it tells of a text."""
    return TextRefused(f"job {number} {error.line}") if isinstance(error, TextRefused) and error.job is None else error
