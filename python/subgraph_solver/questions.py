"""The questions: find an embedding, test a mapping, write the question as constraints, judge a proof."""
from __future__ import annotations

import os
import re
import shutil
import tempfile
from pathlib import Path
from typing import Any, Callable, Iterable, List, Literal, Mapping, Optional, Tuple, Union, overload

from .answers import Embedding, Proof
from .asking import GREATEST_BUDGET, question_of
from .errors import SubgraphError, Undecided, error_of
from .graph import EdgeLabel, Name, NodeLabel
from .library import find_by, find_library, held_by, library_for, verify_by
from .maps import Map, Pair
from .program import Progress, StrPath, Teller, find_program, images_of, options, run
from .stopping import Stop, raise_if

#: Is progress told, and to which function?
Told = Union[bool, Callable[[Progress], None]]
#: The first slice of the budget when progress is told. Each later one is twice as large.
FIRST_SLICE = 1 << 12
#: The book of several threads if none is named. The program's own default is 65,536 rows; once they are full each thread keeps
#: its further rows for itself, and several do some of their work twice.
LARGE_BOOK = 1 << 20


@overload
def find(
    pattern: Any,
    target: Any,
    induced: bool = ...,
    node_label: NodeLabel = ...,
    edge_label: EdgeLabel = ...,
    seed: Optional[int] = ...,
    budget: Optional[int] = ...,
    threads: Optional[int] = ...,
    prove: Literal[False] = ...,
    progress: Told = ...,
    program: Optional[StrPath] = ...,
    book: Optional[int] = ...,
    map: Map = ...,
    less: Iterable[Pair] = ...,
    stop: Optional[Stop] = ...,
) -> Optional[Embedding]: ...


@overload
def find(
    pattern: Any,
    target: Any,
    induced: bool = ...,
    node_label: NodeLabel = ...,
    edge_label: EdgeLabel = ...,
    seed: Optional[int] = ...,
    budget: Optional[int] = ...,
    threads: Optional[int] = ...,
    *,
    prove: Union[Literal[True], StrPath],
    progress: Told = ...,
    program: Optional[StrPath] = ...,
    book: Optional[int] = ...,
    map: Map = ...,
    less: Iterable[Pair] = ...,
    stop: Optional[Stop] = ...,
) -> Union[Embedding, Proof]: ...


def find(
    pattern: Any,
    target: Any,
    induced: bool = False,
    node_label: NodeLabel = None,
    edge_label: EdgeLabel = None,
    seed: Optional[int] = None,
    budget: Optional[int] = None,
    threads: Optional[int] = None,
    prove: Union[bool, StrPath] = False,
    progress: Told = False,
    program: Optional[StrPath] = None,
    book: Optional[int] = None,
    map: Map = "injective",
    less: Iterable[Pair] = (),
    stop: Optional[Stop] = None,
) -> Union[Embedding, None, Proof]:
    """Finds an embedding of the pattern in the target.

    Parameters
    ----------
    pattern, target : graphs
        Whatever `as_graph` takes: graphs of networkx or igraph, molecules of RDKit, pairs of names. Both have
        directions, or neither has.
    induced : bool
        Must images of vertices without an edge have none either? (networkx calls the two kinds
        ``subgraph_is_isomorphic`` and ``subgraph_is_monomorphic``.)
    node_label : str, sequence of str, or callable, optional
        What vertices and their images share; `as_graph` says more.
    edge_label : str, sequence of str, or callable, optional
        What edges and their images share.
    seed : int, optional
        Where choices begin. With one thread the same seed gives the same search.
    budget : int, optional
        The most failed guesses of each thread. Without it the search goes on until it knows.
    threads : int, optional
        How many searches share the work, from 1 to 64. The default is 1.
    prove : bool or path
        If no embedding exists, answer a `Proof` in place of ``None``, checked before this returns. Its two files
        lie in the folder that is named, or in a new one.
    progress : bool or callable
        Tell how long it takes and, after each slice of the budget, what was spent: on standard error, or to a function
        that gets a `Progress`. The search is then run with budgets that double, from its beginning each time. This
        takes up to twice as long, and the answer is the same.
    program : path, optional
        The program to ask; `find_program` says which one is the default. If none is named, and neither several threads nor
        a proof nor progress is asked for, the library is asked, where `find_library` finds it; with the same answer.
    book : int, optional
        How many rows of refuted paths the threads share, from 0 to 4,194,304. With more than one thread the default is
        1,048,576, with one thread the program's own, 65,536. Name more rows for a long search by several threads:
        once they are full each thread keeps its further rows for itself. A row takes 24 bytes, and 16 more for each thread.
    map : {"injective", "local", "any"}
        Which images have to differ: those of any two vertices; those of the neighbours of each vertex, while others may
        share an image; or none. An induced copy is ``"injective"``.
    less : iterable of pairs of pattern vertices
        Of each pair the image of the first comes before that of the second, in the order of the target's vertices. At
        most 64 pairs.
    stop : Stop, optional
        Another thread ends the search by ``stop.set()``. An interrupt ends it as well.

    Returns
    -------
    Embedding, None or Proof
        The image of each pattern vertex, as a dict that a notebook draws; ``None`` if no embedding exists, or its proof.

    Raises
    ------
    Undecided
        The budget is spent.
    Stopped
        The `stop` was set before.
    SubgraphError
        Anything else; each status of the program has an exception of its own.
    """
    question = question_of(pattern, target, (node_label, edge_label), induced, map, less)
    library = library_for(program, threads, prove is not False or bool(progress))
    raise_if(stop)
    if library is not None:
        return question.named(find_by(library, question, seed, budget, book, held_by(library, question.target), stop))
    asked = find_program(program)
    with question.files() as files:
        words = [*options(seed=seed, threads=threads, book=_rows(book, threads)), *files.words]
        proof = _proof_paths(prove, files.folder)
        if proof is not None:
            words += ["--prove", str(proof.encoding), "--log", str(proof.log)]
        if progress:
            answer = _in_slices(asked, words, budget, threads, progress, stop)
        else:
            answer = _solve(asked, words, budget, threads, stop)
        if answer is not None or proof is None:
            return question.named(None if answer is None else images_of(answer))
        return _kept(asked, proof, prove, stop)


def _rows(book: Optional[int], threads: Optional[int]) -> Optional[int]:
    """The rows of the book to ask for: those that are named, and else more than the program's own for several threads."""
    return LARGE_BOOK if book is None and threads is not None and threads > 1 else book


def _solve(
    program: str,
    words: List[str],
    budget: Optional[int],
    threads: Optional[int],
    stop: Optional[Stop],
    teller: Optional[Teller] = None,
) -> Optional[str]:
    """The output if an embedding was found, ``None`` if none exists."""
    whole = ["solve", *options(budget=budget), *words]
    status, out, line = run(program, whole, watcher=teller.going if teller else None, stop=stop)
    if status == 0 and out.startswith("yes\n"):
        return out
    if status == 1 and out == "none\n":
        return None
    if status == 2 and out == "unknown\n":
        raise Undecided(GREATEST_BUDGET if budget is None else budget, threads or 1)
    raise error_of(status, line, whole)


def _in_slices(
    program: str,
    words: List[str],
    budget: Optional[int],
    threads: Optional[int],
    progress: Told,
    stop: Optional[Stop],
) -> Optional[str]:
    """As `_solve`, with budgets that double up to the whole one."""
    whole = GREATEST_BUDGET if budget is None else budget
    teller = Teller(progress)
    part = min(FIRST_SLICE, whole)
    while True:
        teller.begin(part)
        try:
            return _solve(program, words, part, threads, stop, teller)
        except Undecided:
            teller.ended()
            if part == whole:
                raise Undecided(whole, threads or 1, teller.spent) from None
        part = min(2 * part, whole)


def _proof_paths(prove: Union[bool, StrPath], folder: str) -> Optional[Proof]:
    if prove is False:
        return None
    here = Path(folder if prove is True else prove)
    here.mkdir(parents=True, exist_ok=True)
    return Proof(here / "encoding.opb", here / "proof.log")


def _kept(program: str, proof: Proof, prove: Union[bool, StrPath], stop: Optional[Stop]) -> Proof:
    """The proof, accepted by the checker, in a folder that stays."""
    verdict = _verdict(program, proof.encoding, proof.log, stop)
    if verdict != "unsatisfiable":
        raise SubgraphError(f"the log of a search that found nothing is accepted {verdict}")
    if prove is not True:
        return proof
    folder = Path(tempfile.mkdtemp(prefix="subgraph-proof-"))
    moved = [Path(shutil.move(str(it), str(folder / it.name))) for it in (proof.encoding, proof.log)]
    return Proof(*moved)


def verify(
    pattern: Any,
    target: Any,
    mapping: Mapping[Name, Name],
    induced: bool = False,
    node_label: NodeLabel = None,
    edge_label: EdgeLabel = None,
    program: Optional[StrPath] = None,
    map: Map = "injective",
    less: Iterable[Pair] = (),
) -> bool:
    """Is the mapping an embedding of the pattern into the target?

    Parameters
    ----------
    pattern, target, induced, node_label, edge_label, program, map, less
        As `find` has them.
    mapping : mapping from the pattern's names to the target's
        It may come from anywhere. One that leaves out a pattern vertex is no embedding.

    Raises
    ------
    ValueError
        The mapping names a vertex that the pattern or the target does not have.
    """
    question = question_of(pattern, target, (node_label, edge_label), induced, map, less)
    for names, graph, which in ((mapping, question.pattern, "pattern"), (mapping.values(), question.target, "target")):
        strange = [name for name in names if name not in graph.number]
        if strange:
            raise ValueError(f"the {which} has no vertex {strange[0]!r}")
    if len(mapping) < len(question.pattern):
        return False
    images = [question.target.number[mapping[name]] for name in question.pattern.names]
    library = find_library() if program is None else None
    if library is not None:
        return verify_by(library, question, images)
    asked = find_program(program)
    with question.files() as files:
        path = os.path.join(files.folder, "mapping.txt")
        with open(path, "w", encoding="ascii", newline="\n") as file:
            file.write("yes\n" + "".join(f"{p} -> {t}\n" for p, t in enumerate(images)))
        words = ["verify", *files.words, path]
        status, out, line = run(asked, words)
    if status == 0 and out == "embedding\n":
        return True
    if status == 7 and line == "mapping: not an embedding":
        return False
    raise error_of(status, line, words)


def encode(
    pattern: Any,
    target: Any,
    path: StrPath,
    induced: bool = False,
    node_label: NodeLabel = None,
    edge_label: EdgeLabel = None,
    program: Optional[StrPath] = None,
    map: Map = "injective",
    less: Iterable[Pair] = (),
) -> Tuple[int, int]:
    """Writes the question as pseudo-Boolean constraints. Their solutions are the embeddings.

    Parameters
    ----------
    pattern, target, induced, node_label, edge_label, program, map, less
        As `find` has them.
    path : path
        The file that gets the OPB text.

    Returns
    -------
    variables, constraints : int
        How many there are. Variable ``p * len(target) + t + 1`` says that `t` is the image of `p`. Both are places in
        the order of the graphs' names.
    """
    asked = find_program(program)
    with question_of(pattern, target, (node_label, edge_label), induced, map, less).files() as files:
        words = ["encode", *files.words]
        with open(path, "wb") as file:
            status, _, line = run(asked, words, out=file)
    if status != 0:
        raise error_of(status, line, words)
    with open(path, "rb") as file:
        head = file.readline().split()
    return int(head[2]), int(head[4])


def check(encoding: StrPath, log: StrPath, program: Optional[StrPath] = None) -> str:
    """Judges a proof log over an encoding. Both may come from anywhere.

    Parameters
    ----------
    encoding, log : paths
    program : path, optional

    Returns
    -------
    str
        ``"unsatisfiable"``, ``"satisfiable"`` or ``"undecided"``: what the accepted log shows of the encoding. A log that
        shows nothing is accepted too, as ``"undecided"``.

    Raises
    ------
    LogRefused
        The log has a faulty line.
    """
    return _verdict(find_program(program), encoding, log)


def _verdict(program: str, encoding: StrPath, log: StrPath, stop: Optional[Stop] = None) -> str:
    """What `check` answers."""
    words = ["check", os.fspath(encoding), os.fspath(log)]
    status, out, line = run(program, words, stop=stop)
    head, _, verdict = out.strip().partition(" ")
    if status == 0 and head == "accepted":
        return verdict
    raise error_of(status, line, words)


def trim(encoding: StrPath, log: StrPath, path: StrPath, program: Optional[StrPath] = None) -> Tuple[int, int]:
    """Writes a log without the steps on which nothing rests.

    The trimmed log has hints, deletes each step behind the one that uses it last, and shows the same as the whole one.
    Checking it takes less memory. It need not be shorter. A log that `check` refuses is refused here too.

    Parameters
    ----------
    encoding, log : paths
        As `check` has them.
    path : path
        The file that gets the trimmed log. It is neither of the two. It is not touched if the log is refused.
    program : path, optional

    Returns
    -------
    kept, made : int
        How many steps the trimmed log makes, and how many the whole one.

    Raises
    ------
    LogRefused
        The log has a faulty line.
    """
    words = ["trim", *(os.fspath(it) for it in (encoding, log, path))]
    status, out, line = run(find_program(program), words)
    found = re.fullmatch(r"kept (\d+) of (\d+)\n", out)
    if status == 0 and found:
        return int(found[1]), int(found[2])
    raise error_of(status, line, words)
