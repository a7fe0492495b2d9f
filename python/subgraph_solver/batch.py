"""Many questions: in few runs of the program, by the library, or on many machines."""
from __future__ import annotations

import importlib
import os
import tempfile
import time
from contextlib import closing
from pathlib import Path
from typing import Any, Dict, Generator, Iterable, Iterator, List, Literal, Optional, Sized, Tuple, TypeVar, Union
from typing import overload

from .answers import Embedding, Failed, Proof, Unknown
from .cluster import Cluster
from .graph import EdgeLabel, NodeLabel
from .jobs import Job, Jobs, Pace, Part, Question, listed
from .library import Library, library_for
from .program import StrPath, find_program
from .runs import How, Said, Texts, said_by, said_of

#: What `batch` answers to one question.
Answer = Union[Embedding, None, Proof, Unknown, Failed]
#: A part, and what is said of each of its questions.
Heard = Generator[Tuple[Part, List[Said]], None, None]
Answers = Generator[Answer, None, None]
Numbered = Generator[Tuple[int, Answer], None, None]
It = TypeVar("It")
Questions = Union[StrPath, Iterable[Question]]


@overload
def batch(
    questions: Questions,
    induced: bool = ...,
    node_label: NodeLabel = ...,
    edge_label: EdgeLabel = ...,
    seed: Optional[int] = ...,
    budget: Optional[int] = ...,
    threads: Optional[int] = ...,
    program: Optional[StrPath] = ...,
    book: Optional[int] = ...,
    format: str = ...,
    client: Any = ...,
    prove: Union[bool, StrPath] = ...,
    progress: bool = ...,
    as_done: Literal[False] = ...,
    errors: Optional[str] = ...,
    piece: Optional[int] = ...,
) -> Answers: ...


@overload
def batch(
    questions: Questions,
    induced: bool = ...,
    node_label: NodeLabel = ...,
    edge_label: EdgeLabel = ...,
    seed: Optional[int] = ...,
    budget: Optional[int] = ...,
    threads: Optional[int] = ...,
    program: Optional[StrPath] = ...,
    book: Optional[int] = ...,
    format: str = ...,
    client: Any = ...,
    prove: Union[bool, StrPath] = ...,
    progress: bool = ...,
    *,
    as_done: Literal[True],
    errors: Optional[str] = ...,
    piece: Optional[int] = ...,
) -> Numbered: ...


def batch(
    questions: Questions,
    induced: bool = False,
    node_label: NodeLabel = None,
    edge_label: EdgeLabel = None,
    seed: Optional[int] = None,
    budget: Optional[int] = None,
    threads: Optional[int] = None,
    program: Optional[StrPath] = None,
    book: Optional[int] = None,
    format: str = "lad",
    client: Any = None,
    prove: Union[bool, StrPath] = False,
    progress: bool = False,
    as_done: bool = False,
    errors: Optional[str] = None,
    piece: Optional[int] = None,
) -> Union[Answers, Numbered]:
    """Finds an embedding for each of many questions. The answers come one by one: ``list(batch(..))`` has all.

    Questions are taken from the iterable in pieces, so memory does not grow with their number. A piece has as many as
    take about a second, from 1 to 1,000, and fewer if their graphs take more than 1 GiB together. The program is started
    once for each. All maps are injective, and none are in order: `find` has others.

    Parameters
    ----------
    questions : iterable of (pattern, target) or (pattern, target, induced), or a path
        Both sides of a question are graphs, as `find` takes them, or both are paths of LAD files. A graph that several
        questions of a piece name is written once, and must not change while they are asked. A path is that of a list: a
        text with a line for each question, two names of LAD files with a blank between, and behind them a blank and
        ``induced`` if that is asked.
    induced : bool
        Are questions that do not say it themselves about induced copies?
    node_label, edge_label
        As `find` has them, for all graphs.
    seed : int, optional
        Where choices begin, in each search.
    budget : int, optional
        The most failed guesses of each question.
    threads : int, optional
        How many questions a run of the program works on at a time, from 1 to 64. The default is 1. Each is decided by
        one thread.
    program : path, optional
        As `find` has it. If none is named, and neither a client, several threads, proofs nor progress are asked for, the
        library is asked, where there is one.
    book : int, optional
        For how many rows of refuted paths each search makes a book, from 0 to 4,194,304; the default is 65,536. It keeps
        further rows behind them.
    format : str
        The format of all LAD files that are named: ``lad``, ``vertexlabelledlad``, ``directedlad`` or ``labelledlad``.
    client : distributed.Client, optional
        The questions are asked by the workers of its scheduler, each of which has this package and the program. Files
        are read here.
    prove : bool or path
        Is each answer for none a `Proof`? A path names the folder of its files: ``J.opb`` and ``J.proof`` for question
        J. Otherwise it is a new one, which stays.
    progress : bool
        Is a bar shown? It needs `tqdm`: without it there is none.
    as_done : bool
        Are questions answered as they are done, each with its number? Without a client that is in their order too.
    errors : {"raise", "answer"}, optional
        What becomes of a question that is refused, or at which the program fails: its exception is raised, which is the
        default without a client; or its answer is `Failed`, and the others are answered.
    piece : int, optional
        How many questions each piece has, from 1 to 1,000.

    Returns
    -------
    iterator
        One answer for each question, in their order: the image of each pattern vertex, ``None`` or a `Proof` if no
        embedding exists, `Unknown` if the budget is spent, or `Failed`. With `as_done` pairs of a question's number, from
        1, and its answer.

    Raises
    ------
    TextRefused
        A file or the list is refused; `job` is the question's number, from 1.
    SubgraphError
        Anything else.
    """
    if errors not in (None, "raise", "answer"):
        raise ValueError(f"there is no errors={errors!r}: raise, answer")
    keeps_going = errors == "answer" or (errors is None and client is not None)
    library = None if client is not None else library_for(program, threads, prove is not False or progress)
    if client is None and library is None:
        program = os.path.abspath(find_program(program))
    folder = _folder(prove)
    how = How(
        program=None if program is None else os.fspath(program),
        seed=seed,
        budget=budget,
        threads=threads,
        book=book,
        proves=folder is not None,
        folder=folder if client is None else None,
        keeps_going=keeps_going,
    )
    jobs = Jobs(induced, node_label, edge_label, format, client is not None or library is not None, keeps_going)
    pace = Pace(piece)
    parts = jobs.parts(listed(questions) if isinstance(questions, (str, os.PathLike)) else questions, pace)
    heard = _here(parts, how, pace, library) if client is None else Cluster(client, how, pace, as_done).said(parts)
    answers, bar = _answers(heard, folder), _bar(questions) if progress else None
    if as_done:
        return _shown(answers, bar)
    return _shown(_in_order(answers), bar)


def _folder(prove: Union[bool, StrPath]) -> Optional[Path]:
    """The folder of the proofs' files, if there are any."""
    if prove is False:
        return None
    if prove is True:
        return Path(tempfile.mkdtemp(prefix="subgraph-proof-"))
    Path(prove).mkdir(parents=True, exist_ok=True)
    return Path(prove).resolve()


def _here(parts: Iterator[Part], how: How, pace: Pace, library: Optional[Library]) -> Heard:
    """What is said on this machine."""
    for part in parts:
        begun = time.monotonic()
        said = said_of(part.chunk, how) if library is None else said_by(library, part.chunk, how)
        pace.took(len(said), time.monotonic() - begun)
        yield part, said


def _answers(heard: Heard, folder: Optional[Path]) -> Numbered:
    """The answers, with the numbers of their questions."""
    with closing(heard):
        for part, said in heard:
            yield from part.failed
            for job, it in zip(part.jobs, said):
                yield job.number, _named(job, it, folder)


def _named(job: Job, said: Said, folder: Optional[Path]) -> Answer:
    if isinstance(said, tuple):
        return job.named(said)
    if isinstance(said, Texts):
        assert folder is not None
        return said.unpacked(folder, job.number)
    return said


def _in_order(answers: Numbered) -> Answers:
    """The answers by their numbers, from 1."""
    early: Dict[int, Answer] = {}
    number = 1
    with closing(answers):
        for at, answer in answers:
            early[at] = answer
            while number in early:
                yield early.pop(number)
                number += 1


def _shown(answers: Generator[It, None, None], bar: Any) -> Generator[It, None, None]:
    """The answers, each of which moves the bar on."""
    with closing(answers):
        try:
            for answer in answers:
                if bar is not None:
                    bar.update()
                yield answer
        finally:
            if bar is not None:
                bar.close()


def _bar(questions: Questions) -> Any:
    """A bar of `tqdm`, where it is installed. It knows the number of questions if they are a list or have a length."""
    try:
        tqdm = importlib.import_module("tqdm.auto")
    except ImportError:
        return None
    if isinstance(questions, (str, os.PathLike)):
        with open(questions, "rb") as file:
            count: Optional[int] = sum(1 for _ in file)
    else:
        count = len(questions) if isinstance(questions, Sized) else None
    return tqdm.tqdm(total=count, unit=" questions")
