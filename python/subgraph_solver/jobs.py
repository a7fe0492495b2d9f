"""The questions of a batch: taken from an iterable piece by piece, and made texts of the formats."""
from __future__ import annotations

import os
import re
from collections import OrderedDict
from dataclasses import dataclass
from typing import Any, Dict, Iterable, Iterator, List, Optional, Sequence, Tuple, Union

from .answers import Embedding, Failed
from .asking import graphs_of
from .errors import Fault, SubgraphError, TextRefused
from .graph import EdgeLabel, Graph, NodeLabel, as_graph, lad_format, lad_text, label_numbering
from .prepared import Prepared
from .program import StrPath

#: A pattern, a target and, if it is named, whether an induced copy is asked for.
Question = Union[Tuple[Any, Any], Tuple[Any, Any, bool]]
#: The most questions of one run, and about the most bytes that its graphs take in the program.
MOST_JOBS = 1000
MOST_MEMORY = 1 << 30
#: The questions of the first pieces, and the seconds that a later one is to take.
FIRST_JOBS = 16
SECONDS = 1.0
#: How many graphs or files are kept for questions that name them again.
KEPT = 64
#: A line of a list.
JOB = re.compile(r"([^ \t\r\n]+) ([^ \t\r\n]+)( induced)?")
#: What a file or a graph of a question is made: a path, the bytes of a file, or a graph.
Side = Union[str, bytes, Graph]
#: The format of the files, and whether vertices and edges have labels of the package's own numbering.
Kind = Tuple[str, bool, bool]


@dataclass(frozen=True)
class Job:
    """A question with its number, from 1."""

    number: int
    sides: Tuple[Side, Side]
    induced: bool
    kind: Kind

    def named(self, places: Sequence[int]) -> Embedding:
        """The places of the images in the names of the two sides. Vertices of files are numbers from 0."""
        pattern, target = self.sides
        if isinstance(pattern, Graph) and isinstance(target, Graph):
            images = {pattern.names[p]: target.names[t] for p, t in enumerate(places)}
            return Embedding.of(images, pattern, target)
        return Embedding(enumerate(places))


@dataclass(frozen=True)
class Chunk:
    """Some questions of one format, without the names of vertices: what goes to the program, and to other machines.

    Attributes
    ----------
    format : str
    graphs : tuple of bytes or str
        The texts, or the paths of files. Each is there once.
    jobs : tuple of (int, int, bool)
        The places of pattern and target in `graphs`, and whether an induced copy is asked for.
    numbers : tuple of int
        The numbers of the questions in their batch.
    """

    format: str
    graphs: Tuple[Union[bytes, str], ...]
    jobs: Tuple[Tuple[int, int, bool], ...]
    numbers: Tuple[int, ...]

    def part(self, places: Sequence[int]) -> "Chunk":
        """The chunk of those questions that have these places."""
        used = sorted({it for place in places for it in self.jobs[place][:2]})
        at = {it: place for place, it in enumerate(used)}
        jobs = tuple((at[p], at[t], apart) for p, t, apart in (self.jobs[it] for it in places))
        return Chunk(self.format, tuple(self.graphs[it] for it in used), jobs, tuple(self.numbers[it] for it in places))


@dataclass(frozen=True)
class Part:
    """A chunk with the names of its vertices; and questions that failed before they could be asked, with numbers."""

    chunk: Chunk
    jobs: Tuple[Job, ...]
    failed: Tuple[Tuple[int, Failed], ...] = ()


class Pace:
    """How many questions the next piece has: as many as take about `SECONDS`, by what the last one took."""

    def __init__(self, size: Optional[int] = None) -> None:
        if size is not None and not 1 <= size <= MOST_JOBS:
            raise ValueError(f"a piece has 1 to {MOST_JOBS} questions, not {size}")
        self.is_fixed = size is not None
        self.size = FIRST_JOBS if size is None else size

    def took(self, count: int, seconds: float) -> None:
        """So many questions took so long."""
        if not self.is_fixed and count:
            wanted = int(count * SECONDS / max(seconds, 1e-6))
            self.size = max(1, min(wanted, 4 * self.size, MOST_JOBS))


def listed(path: StrPath) -> Iterator[Question]:
    """The questions of a list, as the program reads one; it may have any number of lines."""
    with open(path, encoding="utf-8", newline="\n") as file:
        for number, line in enumerate(file, 1):
            found = JOB.fullmatch(line.removesuffix("\n"))
            if found is None:
                raise TextRefused(f"list: line {number}: Form")
            yield (found[1], found[2], True) if found[3] else (found[1], found[2])


class Jobs:
    """Makes jobs of questions.

    Parameters
    ----------
    induced, node_label, edge_label, format
        As `batch` has them.
    reads : bool
        Are the files of questions read here? Else their paths are handed on.
    keeps_going : bool
        Is a question of which no job can be made told as failed? Else the exception is raised.
    """

    def __init__(
        self,
        induced: bool,
        node_label: NodeLabel,
        edge_label: EdgeLabel,
        format: str,
        reads: bool,
        keeps_going: bool,
    ) -> None:
        self.induced = induced
        self.labels = node_label, edge_label
        self.format = format
        self.reads = reads
        self.keeps_going = keeps_going
        #: The graphs and files that came last, by their paths or identities; with a source, so that its identity lasts.
        self._kept: "OrderedDict[Union[int, str], Tuple[Any, Side]]" = OrderedDict()

    def parts(self, questions: Iterable[Question], pace: Pace) -> Iterator[Part]:
        """The questions in pieces, cut where the graphs are as large as those of a run may be.

        No question is taken from the iterable before its piece is needed.
        """
        taken: List[Tuple[int, Union[Job, Failed]]] = []
        memory = 0
        for number, question in enumerate(questions, 1):
            made = self._job(number, question)
            taken.append((number, made))
            memory += sum(map(_memory, made.sides)) if isinstance(made, Job) else 0
            if len(taken) >= pace.size or memory >= MOST_MEMORY:
                yield from _parts(taken)
                taken, memory = [], 0
        yield from _parts(taken)

    def _job(self, number: int, question: Question) -> Union[Job, Failed]:
        try:
            return self._made(number, *question)
        except (SubgraphError, ValueError, TypeError) as error:
            if self.keeps_going:
                return Failed(error)
            raise

    def _made(self, number: int, pattern: Any, target: Any, induced: Optional[bool] = None) -> Job:
        files = [isinstance(it, (str, os.PathLike)) for it in (pattern, target)]
        apart = self.induced if induced is None else bool(induced)
        if all(files):
            sides = self._file(pattern), self._file(target)
            return Job(number, sides, apart, (self.format, False, False))
        if any(files):
            raise ValueError(f"question {number} has a file and a graph: give two files or two graphs")
        # A target that is prepared may say which labels the pattern gets.
        source = pattern if isinstance(target, Prepared) else self._graph(pattern)
        both = graphs_of(source, self._graph(target), self.labels)
        labelled = both[0].labels is not None, both[0].edge_labels is not None
        return Job(number, both, apart, (lad_format(both[0].directed, *labelled), *labelled))

    def _graph(self, source: Any) -> Graph:
        found = self._kept.get(id(source))
        made = found[1] if found else as_graph(source, *self.labels)
        self._keep(id(source), source, made)
        assert isinstance(made, Graph)
        return made

    def _file(self, source: StrPath) -> Side:
        path = os.path.abspath(os.fspath(source))
        if not self.reads:
            return path
        found = self._kept.get(path)
        made = found[1] if found else _bytes_of(path)
        self._keep(path, path, made)
        return made

    def _keep(self, key: Union[int, str], source: Any, made: Side) -> None:
        self._kept[key] = source, made
        self._kept.move_to_end(key)
        if len(self._kept) > KEPT:
            self._kept.popitem(last=False)


def _bytes_of(path: str) -> bytes:
    try:
        with open(path, "rb") as file:
            return file.read()
    except OSError as error:
        raise Fault(f"{path}: {error.strerror}") from None


def _parts(taken: Sequence[Tuple[int, Union[Job, Failed]]]) -> Iterator[Part]:
    """A piece as parts, each of one kind; first those questions of which no job could be made."""
    failed = tuple((number, it) for number, it in taken if isinstance(it, Failed))
    if failed:
        yield Part(Chunk("lad", (), (), ()), (), failed)
    kinds: Dict[Kind, List[Job]] = {}
    for _, job in taken:
        if isinstance(job, Job):
            kinds.setdefault(job.kind, []).append(job)
    for jobs in kinds.values():
        yield Part(_chunk(jobs), tuple(jobs))


def _memory(side: Side) -> int:
    """About the bytes that the program takes for a graph: as many bits for each vertex as it has vertices."""
    return _size(side) ** 2 // 8


def _size(side: Side) -> int:
    """The vertices of a graph; of a file that says none, 0."""
    if isinstance(side, Graph):
        return len(side)
    head = side[:64] if isinstance(side, bytes) else b""
    if isinstance(side, str):
        try:
            with open(side, "rb") as file:
                head = file.read(64)
        except OSError:
            pass
    words = head.split()
    return int(words[0]) if words and words[0].isdigit() and len(words[0]) < 6 else 0


def _chunk(jobs: Sequence[Job]) -> Chunk:
    """The texts of jobs of one kind. Each graph is there once."""
    graphs = {id(it): it for job in jobs for it in job.sides if isinstance(it, Graph)}
    format, has_labels, has_edge_labels = jobs[0].kind
    numbers = label_numbering(it.labels or () for it in graphs.values()) if has_labels else None
    of_edges = label_numbering((it.edge_labels or {}).values() for it in graphs.values()) if has_edge_labels else None
    places: Dict[Union[int, str], int] = {}
    texts: List[Union[bytes, str]] = []

    def place(side: Side) -> int:
        key: Union[int, str] = side if isinstance(side, str) else id(side)
        if key not in places:
            places[key] = len(texts)
            texts.append(lad_text(side, numbers, of_edges).encode("ascii") if isinstance(side, Graph) else side)
        return places[key]

    asked: List[Tuple[int, int, bool]] = []
    for job in jobs:
        pattern, target = job.sides
        asked.append((place(pattern), place(target), job.induced))
    return Chunk(format, tuple(texts), tuple(asked), tuple(job.number for job in jobs))
