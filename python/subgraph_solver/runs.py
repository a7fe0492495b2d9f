"""Questions without names, put to the program or the library of this machine."""
from __future__ import annotations

import os
import re
import tempfile
import threading
import zlib
from concurrent.futures import ThreadPoolExecutor
from dataclasses import dataclass
from pathlib import Path
from typing import Dict, List, Optional, Sequence, Tuple, Union

from .answers import Failed, Proof, Unknown, of_job
from .asking import GREATEST_BUDGET, Question
from .errors import NotACommand, ProgramMissing, SubgraphError, Undecided, error_of
from .graph import Graph
from .jobs import Chunk
from .library import Held, Library, find_by
from .program import Watcher, find_program, images_of, options, run

#: A line of the answer of `batch`.
LINE = re.compile(r"(\d+): (none|unknown|yes(?: \d+)*)")
OF_JOB = re.compile(r"job (\d+) (.*)")
#: The names of the two files of a proof, behind the number of its question.
ENCODING, LOG = "{}.opb", "{}.proof"
NOTHING = Graph()


@dataclass(frozen=True)
class Texts:
    """A proof on its way from another machine: the encoding and the log, compressed."""

    encoding: bytes
    log: bytes

    def unpacked(self, folder: Path, number: int) -> Proof:
        """Both written to files of a folder."""
        paths = folder / ENCODING.format(number), folder / LOG.format(number)
        for path, text in zip(paths, (self.encoding, self.log)):
            path.write_bytes(zlib.decompress(text))
        return Proof(*paths)


#: What is said of a question: the places of the images, ``None`` if there are none, or what else is no embedding.
Said = Union[None, Tuple[int, ...], Unknown, Failed, Proof, Texts]


@dataclass(frozen=True)
class How:
    """How questions are asked, on whichever machine.

    Attributes
    ----------
    program : path, optional
        As `find` has it, and looked for where the questions are asked.
    seed, budget, threads, book : int, optional
        As `batch` has them.
    proves : bool
        Is the answer for none a proof?
    folder : Path, optional
        Where the files of proofs stay. Without it their texts are the answers.
    keeps_going : bool
        Is a question that fails told as `Failed`, and the others are asked? Else its exception is raised.
    """

    program: Optional[str] = None
    seed: Optional[int] = None
    budget: Optional[int] = None
    threads: Optional[int] = None
    book: Optional[int] = None
    proves: bool = False
    folder: Optional[Path] = None
    keeps_going: bool = False

    def options(self, threads: Optional[int]) -> List[str]:
        """The words for the program."""
        return options(budget=self.budget, seed=self.seed, threads=threads, book=self.book)

    def unknown(self) -> Unknown:
        """The answer where the budget is spent."""
        return Unknown(GREATEST_BUDGET if self.budget is None else self.budget)


class Stopped(Exception):
    """Nobody waits for the answers any more."""


def said_of(chunk: Chunk, how: How, watcher: Optional[Watcher] = None) -> List[Said]:
    """What the program says of each question.

    A question that is refused is left out of a second run. Where a run ends without an answer and names no question,
    its questions are asked in two halves. The watcher is called now and then, and ends all by an exception.
    """
    said: Dict[int, Said] = {}
    waiting: List[List[int]] = [list(range(len(chunk.jobs)))] if chunk.jobs else []
    while waiting:
        places = waiting.pop()
        part = chunk.part(places)
        try:
            said.update(zip(places, _proved(part, how, watcher) if how.proves else _run(part, how, watcher)))
        except (NotACommand, ProgramMissing):
            raise
        except SubgraphError as error:
            if not how.keeps_going:
                raise
            named = [at for at in places if chunk.numbers[at] == getattr(error, "job", None)]
            refused = places if len(places) == 1 else named
            said.update((at, Failed(error)) for at in refused)
            left = [at for at in places if at not in refused]
            half = len(left) if refused else len(left) // 2
            waiting += [it for it in (left[half:], left[:half]) if it]
    return [said[at] for at in range(len(chunk.jobs))]


def _run(chunk: Chunk, how: How, watcher: Optional[Watcher]) -> List[Said]:
    """What one run of `batch` says of all questions."""
    with tempfile.TemporaryDirectory(prefix="subgraph-") as folder:
        _write(folder, chunk)
        words = ["batch", *how.options(how.threads), *_format(chunk), "list"]
        status, out, line = run(_program(how), words, cwd=folder, watcher=watcher)
    lines = [LINE.fullmatch(it) for it in out.splitlines()]
    if status not in (0, 2) or [it and int(it[1]) for it in lines] != list(range(1, len(chunk.jobs) + 1)):
        of_one = OF_JOB.fullmatch(line)
        if of_one and int(of_one[1]) <= len(chunk.jobs):
            line = f"job {chunk.numbers[int(of_one[1]) - 1]} {of_one[2]}"
        raise error_of(status, line, words)
    return [_said(it[2], how) for it in lines if it]


def _program(how: How) -> str:
    return os.path.abspath(find_program(how.program))


def _said(told: str, how: How) -> Said:
    if told == "unknown":
        return how.unknown()
    return None if told == "none" else tuple(int(it) for it in told.split()[1:])


def _format(chunk: Chunk) -> List[str]:
    return [] if chunk.format == "lad" else ["--format", chunk.format]


def _write(folder: str, chunk: Chunk) -> None:
    """The list, and beside it each graph; a file that the caller names gets a link of a name without blanks."""
    for at, graph in enumerate(chunk.graphs):
        path = os.path.join(folder, f"{at}.lad")
        if isinstance(graph, str):
            os.symlink(graph, path)
        else:
            with open(path, "wb") as file:
                file.write(graph)
    with open(os.path.join(folder, "list"), "w", encoding="ascii", newline="\n") as lines:
        lines.writelines(f"{p}.lad {t}.lad{' induced' * induced}\n" for p, t, induced in chunk.jobs)


def _proved(chunk: Chunk, how: How, watcher: Optional[Watcher]) -> List[Said]:
    """What `solve --prove` says of each question, as many at a time as there are threads."""
    stop = threading.Event()

    def look() -> None:
        if stop.is_set():
            raise Stopped
        if watcher:
            watcher()

    def one(folder: str, at: int) -> Said:
        try:
            return _proof(folder, chunk, at, how, look)
        except SubgraphError as error:
            told = of_job(error, chunk.numbers[at])
            if how.keeps_going and not isinstance(error, (NotACommand, ProgramMissing)):
                return Failed(told)
            raise told from None

    with tempfile.TemporaryDirectory(prefix="subgraph-") as folder, ThreadPoolExecutor(how.threads or 1) as pool:
        _write(folder, chunk)
        try:
            return list(pool.map(lambda at: one(folder, at), range(len(chunk.jobs))))
        finally:
            stop.set()


def _proof(folder: str, chunk: Chunk, at: int, how: How, watcher: Watcher) -> Said:
    """The images, or the proof that there are none, which the program's checker has accepted."""
    (p, t, induced), number = chunk.jobs[at], chunk.numbers[at]
    names = [str(Path(how.folder or folder, it.format(number))) for it in (ENCODING, LOG)]
    asked = ["--induced"] * induced + [*_format(chunk), "--prove", names[0], "--log", names[1], f"{p}.lad", f"{t}.lad"]
    program, words = _program(how), ["solve", *how.options(None), *asked]
    status, out, line = run(program, words, cwd=folder, watcher=watcher)
    if status == 1 and out == "none\n":
        return _accepted(program, names, how, watcher)
    for it in names:
        Path(it).unlink(missing_ok=True)
    if status == 0 and out.startswith("yes\n"):
        return tuple(images_of(out))
    if status == 2 and out == "unknown\n":
        return how.unknown()
    raise error_of(status, line, words)


def _accepted(program: str, names: Sequence[str], how: How, watcher: Watcher) -> Said:
    """The proof in these files, or its texts; unless the checker does not accept it."""
    words = ["check", *names]
    status, out, line = run(program, words, watcher=watcher)
    if status != 0:
        raise error_of(status, line, words)
    if out != "accepted unsatisfiable\n":
        raise SubgraphError(f"the log of a search that found nothing is {out.strip()}")
    proof = Proof(*map(Path, names))
    if how.folder is not None:
        return proof
    texts = Texts(*(zlib.compress(it.read_bytes()) for it in (proof.encoding, proof.log)))
    for it in (proof.encoding, proof.log):
        it.unlink()
    return texts


def said_by(library: Library, chunk: Chunk, how: How) -> List[Said]:
    """What the library says of each question."""
    said: List[Said] = []
    held: Optional[Held] = None
    for at, number in enumerate(chunk.numbers):
        question = _question(chunk, at)
        held = _held(library, chunk, at, question, held)
        try:
            images = find_by(library, question, how.seed, how.budget, how.book, held)
            said.append(None if images is None else tuple(images))
        except Undecided:
            said.append(how.unknown())
        except NotACommand:
            raise
        except SubgraphError as error:
            if not how.keeps_going:
                raise of_job(error, number) from None
            said.append(Failed(of_job(error, number)))
    return said


def _held(library: Library, chunk: Chunk, at: int, question: Question, last: Optional[Held]) -> Optional[Held]:
    """The target of a question, kept open as long as the questions that follow name it."""
    target = chunk.jobs[at][1]
    if at > 0 and chunk.jobs[at - 1][1] == target:
        return last
    follows = at + 1 < len(chunk.jobs) and chunk.jobs[at + 1][1] == target
    return library.opened(question.texts[1], chunk.format) if follows else None


def _question(chunk: Chunk, at: int) -> Question:
    """A question of a chunk whose graphs are all texts."""
    p, t, induced = chunk.jobs[at]
    pattern, target = chunk.graphs[p], chunk.graphs[t]
    assert isinstance(pattern, bytes) and isinstance(target, bytes)
    words = ["--induced"] if induced else []
    return Question(NOTHING, NOTHING, chunk.format, (pattern, target), induced, "injective", [], words)
