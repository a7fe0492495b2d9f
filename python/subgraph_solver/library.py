"""The library: the same solver in this process, by ctypes. Where it is not found the program is asked."""
from __future__ import annotations

import ctypes
import ctypes.util
import os
import threading
import weakref
from dataclasses import dataclass
from functools import lru_cache
from pathlib import Path
from typing import Any, List, Optional, Sequence, Tuple, Union

from .asking import GREATEST_BUDGET, Question
from .errors import LibraryMissing, NotACommand, OutOfMemory, Stopped, SubgraphError, TextRefused, Undecided
from .maps import MAPS
from .prepared import Prepared
from .program import StrPath
from .stopping import Stop, heard

#: The environment variable that names the library. Where it is empty no library is asked.
VARIABLE = "SUBGRAPH_LIBRARY"
NAME = "libsubgraph.so"
#: The numbers of the library's version that this module knows: its first number is 1.
VERSIONS = range(10000, 20000)
FORMATS = ("lad", "vertexlabelledlad", "directedlad", "labelledlad")
ROLES = ("", "pattern: word", "target: word", "less: pair")
CAUSES = ("", "NotNumber", "TooMany", "EndsEarly", "NoSuchVertex", "LabelClash", "WordsLeft")
OPB_CAUSES = ("", "Header", "Objective", "Equality", "Product", "NoSuchVariable", "Wide", "Form", "Count")
LOG_CAUSES = (
    *("", "EndsEarly", "Form", "NameUsed", "Order", "Twice", "NoSuchName"),
    *("Stack", "Zero", "Wide", "NoConflict", "NotFalse", "NotSolution"),
)
CLAIMS = ("", "accepted unsatisfiable", "accepted satisfiable", "accepted undecided")
YES, NONE, UNKNOWN, OUT_OF_RANGE, FAULT, NO_MEMORY, NO_EMBEDDING, STOPPED = 0, 1, 2, 3, 4, 6, 7, 8
#: The cause of status 3 where there is too little room.
NO_ROOM = 9
#: The rows of the book, and the budget, that the program takes if none is named, and the most rows of all.
ROWS = 65_536
MOST_ROWS = 4_194_304
#: The failed guesses after which a question is asked again in a thread of its own, so that an interrupt ends it; and the bytes
#: of its texts from which on it is so from its beginning. Up to both, a call takes milliseconds.
FIRST_BUDGET = 1 << 12
LARGE_TEXTS = 1 << 16
#: The most images: those of a pattern of as many vertices as any has.
ROOM = 1024
#: The texts of a pattern and a target, and pairs of places of pattern vertices.
Texts = Tuple[bytes, bytes]
Pairs = Sequence[Tuple[int, int]]


class _Numbers(ctypes.Structure):
    _fields_ = [
        ("seed", ctypes.c_uint64),
        ("budget", ctypes.c_uint64),
        ("rows", ctypes.c_uint32),
        ("format", ctypes.c_uint32),
        ("maps", ctypes.c_uint32),
        ("induced", ctypes.c_uint32),
    ]


class _Flag(ctypes.Structure):
    _fields_ = [("at", ctypes.c_void_p), ("there", ctypes.c_uint8)]


class _Limits(ctypes.Structure):
    _fields_ = [("options", _Numbers), ("flag", _Flag)]


class _Pair(ctypes.Structure):
    _fields_ = [("first", ctypes.c_uint32), ("second", ctypes.c_uint32)]


class _Report(ctypes.Structure):
    _fields_ = [
        ("word", ctypes.c_uint64),
        ("count", ctypes.c_uint64),
        ("role", ctypes.c_uint32),
        ("cause", ctypes.c_uint32),
    ]


class _Target(ctypes.Structure):
    _fields_ = [("at", ctypes.c_void_p), ("there", ctypes.c_uint8)]


#: A length, or a number of places, for the calls that decide. They have no `argtypes`: to convert ten arguments takes ctypes as
#: long as a small search. So each argument is given as ctypes passes it, bytes or what `byref` and this function make.
_size = ctypes.c_size_t.from_param
_ROOM = _size(ROOM)
_NO_PAIRS = ctypes.byref(_Pair()), _size(0)


class _Options:
    """How a question is asked, without a flag.

    Attributes
    ----------
    numbers : the fields of `subgraph_options`
    at : what a call takes
    """

    flagged = False

    def __init__(self, *numbers: int) -> None:
        self.numbers = _Numbers(*numbers)
        self.at = ctypes.byref(self.numbers)


#: How a question is asked: without a flag, or with one.
Asking = Union[_Options, "Flag"]


@dataclass
class Said:
    """What a call says: its status, the images that it wrote, and what its report tells of a fault."""

    status: int
    images: List[int]
    role: int = 0
    word: int = 0
    cause: int = 0

    def line(self) -> str:
        """The message of the program for the same fault."""
        if self.status == OUT_OF_RANGE:
            return "words: not a command"
        if self.status == FAULT:
            return f"{ROLES[self.role]} {self.word}: {CAUSES[self.cause]}"
        return "memory: refused" if self.status == NO_MEMORY else ""


def told_of_log(said: Said) -> str:
    """The line of the program's `check` for what a call of `Library.check` says."""
    if said.status == YES:
        return CLAIMS[said.cause]
    if said.status == FAULT:
        return f"encoding: line {said.word}: {OPB_CAUSES[said.cause]}"
    return said.line() if said.status == NO_MEMORY else f"log: line {said.word}: {LOG_CAUSES[said.cause]}"


class _Room:
    """Where a call writes its images and its report: for one call at a time.

    Attributes
    ----------
    images, report : what a call takes
    """

    def __init__(self) -> None:
        images, self._report = (ctypes.c_uint32 * ROOM)(), _Report()
        self._images = memoryview(images).cast("B").cast("I")
        self.images, self.report = ctypes.byref(images), ctypes.byref(self._report)

    def said(self, status: int) -> Said:
        """What the call said that ended with this status."""
        report = self._report
        if status == YES:
            return Said(YES, self._images[: report.count].tolist())
        return Said(NONE, []) if status == NONE else Said(status, [], report.role, report.word, report.cause)


class Library:
    """A loaded library. Other threads of Python run while a call does.

    Attributes
    ----------
    path : str
    version : int
        10,000 times the first number of its version, 100 times the second, and the third.
    """

    def __init__(self, path: str) -> None:
        self.path = path
        self._calls = ctypes.CDLL(path)
        self.version = int(self._calls.subgraph_version())
        # A call takes it out, so that no other has it.
        self._free = [_Room()]
        deciding = "decide", "decide_in", "decide_until", "decide_in_until"
        for name in (*deciding, "verify", "encode", "check", "target_open", "flag_open"):
            getattr(self._calls, f"subgraph_{name}").restype = ctypes.c_uint32
        text, size, report = ctypes.c_char_p, ctypes.c_size_t, ctypes.POINTER(_Report)
        asked: List[Any] = [text, size, text, size, ctypes.POINTER(_Numbers), ctypes.POINTER(_Pair), size]
        self._calls.subgraph_verify.argtypes = [*asked, ctypes.POINTER(ctypes.c_uint32), size, report]
        self._calls.subgraph_encode.argtypes = [*asked, text, size, report]
        self._calls.subgraph_check.argtypes = [text, size, text, size, report]
        target, flag = ctypes.POINTER(_Target), ctypes.POINTER(_Flag)
        self._calls.subgraph_target_open.argtypes = [text, size, ctypes.c_uint32, target, report]
        self._calls.subgraph_flag_open.argtypes = [flag, flag]
        for name, kind in (("target_close", target), ("flag_raise", flag), ("flag_close", flag)):
            call = getattr(self._calls, f"subgraph_{name}")
            call.argtypes, call.restype = [kind], None

    def opened(self, text: bytes, format: str) -> Optional["Held"]:
        """The target of a text, kept open; unless the library refuses the text."""
        target = _Target()
        if self._calls.subgraph_target_open(text, len(text), FORMATS.index(format), target, _Report()) != YES:
            return None
        return Held(self._calls, target)

    def flagged(self, options: _Options) -> "Flag":
        """How a question is asked, with a flag that ends the call."""
        return Flag(self._calls, options.numbers)

    def decide(self, texts: Texts, how: Asking, less: Pairs, room: int = ROOM) -> Said:
        """Asks for an embedding."""
        call = self._calls.subgraph_decide_until if how.flagged else self._calls.subgraph_decide
        pairs, count = _pairs_of(less) if less else _NO_PAIRS
        places = _ROOM if room >= ROOM else _size(room)
        pattern, target = texts
        try:
            here = self._free.pop()
        except IndexError:
            # Another call has it. The last one that ends is kept.
            here = _Room()
        one, other = _size(len(pattern)), _size(len(target))
        said = here.said(call(pattern, one, target, other, how.at, pairs, count, here.images, places, here.report))
        self._free = [here]
        return said

    def verify(self, texts: Texts, options: _Options, less: Pairs, images: Sequence[int]) -> Said:
        """Asks whether these images are an embedding."""
        held, report = (ctypes.c_uint32 * max(len(images), 1))(*images), _Report()
        pattern, target = texts
        asked = pattern, len(pattern), target, len(target), options.at, _pairs(less), len(less)
        status = self._calls.subgraph_verify(*asked, held, len(images), report)
        return Said(status, [], report.role, report.word, report.cause)

    def encode(self, texts: Texts, options: _Options, less: Pairs) -> Tuple[Said, bytes]:
        """Asks for the question as constraints: first for the length of the text, and then for the text."""
        pairs, report = _pairs(less), _Report()
        pattern, target = texts
        asked = pattern, len(pattern), target, len(target), options.at, pairs, len(less)
        status, held = self._calls.subgraph_encode(*asked, ctypes.create_string_buffer(1), 0, report), b""
        if status == OUT_OF_RANGE and report.cause == NO_ROOM:
            buffer = ctypes.create_string_buffer(report.count)
            status = self._calls.subgraph_encode(*asked, buffer, report.count, report)
            held = buffer.raw if status == YES else b""
        return Said(status, [], report.role, report.word, report.cause), held

    def check(self, encoding: bytes, log: bytes) -> Said:
        """Asks what a log shows over an encoding."""
        report = _Report()
        status = self._calls.subgraph_check(encoding, len(encoding), log, len(log), report)
        return Said(status, [], report.role, report.word, report.cause)


class Held:
    """A target that the library keeps open as long as this object is there. One thread asks at a time."""

    def __init__(self, calls: Any, target: _Target) -> None:
        self._decide, self._decide_until = calls.subgraph_decide_in, calls.subgraph_decide_in_until
        self._target = ctypes.byref(target)
        # Who asks takes it out: it stands for the target too, and costs less than a lock.
        self._free = [_Room()]
        weakref.finalize(self, calls.subgraph_target_close, target)

    def decide(self, pattern: bytes, how: Asking, less: Pairs, room: int = ROOM) -> Optional[Said]:
        """Asks for an embedding; unless another thread is asking."""
        call = self._decide_until if how.flagged else self._decide
        pairs, count = _pairs_of(less) if less else _NO_PAIRS
        places, size = _ROOM if room >= ROOM else _size(room), _size(len(pattern))
        try:
            here = self._free.pop()
        except IndexError:
            return None
        try:
            return here.said(call(pattern, size, self._target, how.at, pairs, count, here.images, places, here.report))
        finally:
            self._free.append(here)


class Flag:
    """How a question is asked, with a flag that any thread may put up. It is closed when nobody knows this object.

    Attributes
    ----------
    at : what a call takes
    """

    flagged = True

    def __init__(self, calls: Any, numbers: _Numbers) -> None:
        limits = _Limits(numbers)
        self.at = ctypes.byref(limits)
        self._raise = calls.subgraph_flag_raise
        self._stopper = _Flag()
        # A handler of a signal may put it up while its own thread is in `up`.
        self._raising = threading.RLock()
        if calls.subgraph_flag_open(limits.flag, self._stopper) != YES:
            raise OutOfMemory("memory: refused")
        weakref.finalize(self, _close, calls, limits, self._stopper)

    def up(self) -> None:
        """Puts it up: a call that has it ends before its next guess."""
        with self._raising:
            self._raise(self._stopper)


def _close(calls: Any, limits: _Limits, stopper: _Flag) -> None:
    calls.subgraph_flag_close(limits.flag)
    calls.subgraph_flag_close(stopper)


def held_by(library: Library, target: Any) -> Optional[Held]:
    """The target that the library keeps open, where it is one of `prepare`: it is opened at the first question."""
    if not isinstance(target, Prepared):
        return None
    if target.held is None or target.held[0] is not library:
        target.held = library, library.opened(target.text, target.format)
    held: Optional[Held] = target.held[1]
    return held


def _pairs(less: Pairs) -> Any:
    """The pairs as an array, which has a place even if there are none."""
    return (_Pair * max(len(less), 1))(*(_Pair(*it) for it in less))


def _pairs_of(less: Pairs) -> Tuple[Any, Any]:
    """The pairs, and how many there are, as a call takes both."""
    return ctypes.byref(_pairs(less)), _size(len(less))


def options_of(question: Question, seed: int = 0, budget: int = GREATEST_BUDGET, rows: int = ROWS) -> _Options:
    """How a question is asked. The numbers have to be in their ranges."""
    return _options(seed, budget, rows, question.format, question.map, question.induced)


@lru_cache(maxsize=64)
def _options(seed: int, budget: int, rows: int, format: str, map: str, induced: bool) -> _Options:
    """These are only read, so calls of several threads may share them."""
    return _Options(seed, budget, rows, FORMATS.index(format), MAPS.index(map), induced)


def find_library() -> Optional[Library]:
    """The library, if there is one.

    It is the one that ``SUBGRAPH_LIBRARY`` names, else the one beside this module or in the ``lib`` that it is installed
    below, else the build of the repository that this package lies in, else the system's. Where that variable is empty
    there is none.

    Raises
    ------
    LibraryMissing
        The variable names a file that is not a library of this version.
    """
    named = os.environ.get(VARIABLE)
    if named == "":
        return None
    if named is not None:
        found = _load(named)
        if found is None:
            raise LibraryMissing(f"{named} is not a library of this version")
        return found
    here = Path(__file__).resolve().parent
    places = [here / NAME, here.parents[2] / NAME]
    if (here.parents[1] / "crates.txt").is_file():
        places.append(here.parents[1] / "build" / NAME)
    system = _of_system()
    paths = [str(it) for it in places if it.is_file()] + ([system] if system else [])
    return next((found for found in map(_load, paths) if found is not None), None)


def library_for(program: Optional[StrPath], threads: Optional[int], more: bool) -> Optional[Library]:
    """The library, where there is one and neither a program nor several threads nor more than it can do is asked for."""
    return None if program is not None or threads not in (None, 1) or more else find_library()


@lru_cache(maxsize=None)
def _of_system() -> Optional[str]:
    """The name of the system's library, which takes milliseconds to look for."""
    return ctypes.util.find_library("subgraph")


@lru_cache(maxsize=None)
def _load(path: str) -> Optional[Library]:
    """The library at this path, unless it is none or of another version."""
    try:
        found = Library(path)
    except (OSError, AttributeError):
        return None
    return found if found.version in VERSIONS else None


def find_by(
    library: Library,
    question: Question,
    seed: Optional[int],
    budget: Optional[int],
    book: Optional[int],
    held: Optional[Held] = None,
    stop: Optional[Stop] = None,
) -> Optional[List[int]]:
    """The images that the library finds, or ``None`` if no embedding exists. The target is read anew, if it is not held.

    A small question is asked with a small budget first. A search is the same as one with a larger budget up to where its own
    is spent, so the answer is that of one call.
    """
    whole = GREATEST_BUDGET if budget is None else budget
    choice, rows = 0 if seed is None else seed, ROWS if book is None else book
    if not (0 <= choice < 1 << 64 and 1 <= whole <= GREATEST_BUDGET and 0 <= rows <= MOST_ROWS):
        raise NotACommand("words: not a command", ["solve", *question.words()])
    first, said = min(whole, FIRST_BUDGET), None
    if len(question.texts[0]) + len(question.texts[1]) < LARGE_TEXTS:
        said = _ask(library, held, question, options_of(question, choice, first, rows))
    if said is None or (said.status == UNKNOWN and first < whole):
        flag = library.flagged(options_of(question, choice, whole, rows))
        said = heard(lambda: _ask(library, held, question, flag), flag.up, stop)
    if said.status == YES:
        return said.images
    if said.status == NONE:
        return None
    if said.status == UNKNOWN:
        raise Undecided(whole)
    raise Stopped() if said.status == STOPPED else _error(said, ["solve", *question.words()])


def _ask(library: Library, held: Optional[Held], question: Question, how: Asking) -> Said:
    """What is said of the target that is held, unless another thread asks it, and else of its text."""
    said = held.decide(question.texts[0], how, question.less) if held is not None else None
    return library.decide(question.texts, how, question.less) if said is None else said


def verify_by(library: Library, question: Question, images: Sequence[int]) -> bool:
    """Whether the images are an embedding, as the library says."""
    said = library.verify(question.texts, options_of(question), question.less, images)
    if said.status in (YES, NO_EMBEDDING):
        return said.status == YES
    raise _error(said, ["verify", *question.words()])


def _error(said: Said, words: List[str]) -> SubgraphError:
    """The exception that the program's status would be."""
    kinds = {OUT_OF_RANGE: lambda line: NotACommand(line, words), FAULT: TextRefused, NO_MEMORY: OutOfMemory}
    return kinds[said.status](said.line())
