"""The exceptions: one for each way to end without an answer."""
from __future__ import annotations

import re
from typing import Any, Dict, List, Optional, Sequence, Tuple


class SubgraphError(Exception):
    """The base class of all exceptions of this package.

    Attributes
    ----------
    status : int or None
        The program's exit status, ``None`` if it did not run.
    line : str
        The program's message, empty if there is none.
    """

    def __init__(self, message: str, status: Optional[int] = None, line: str = "") -> None:
        super().__init__(message)
        self.status = status
        self.line = line

    def __reduce__(self) -> Tuple[Any, ...]:
        """An exception goes to another process as it is."""
        return _as_it_was, (type(self), self.args, self.__dict__)


def _as_it_was(kind: Any, arguments: Tuple[Any, ...], state: Dict[str, Any]) -> SubgraphError:
    error: SubgraphError = kind.__new__(kind, *arguments)
    error.args = arguments
    error.__dict__.update(state)
    return error


class ProgramMissing(SubgraphError):
    """The program is not there. The message says how to build it."""


class LibraryMissing(SubgraphError):
    """The variable ``SUBGRAPH_LIBRARY`` names a file that is not the library, or is of another version."""


class NotAvailable(SubgraphError, NotImplementedError):
    """The program does not decide questions of this kind."""


class Undecided(SubgraphError):
    """The budget is spent, and it is open whether an embedding exists (status 2).

    Attributes
    ----------
    spent : int
        The failed guesses of each thread in the last run, which is its budget.
    threads : int
        The threads of that run.
    slices : list of int
        What each run spent, if there were several.
    """

    def __init__(self, spent: int, threads: int = 1, slices: Sequence[int] = ()) -> None:
        of_each = "" if threads == 1 else f" by each of {threads} threads"
        super().__init__(f"undecided: {spent} fails were spent{of_each}", 2)
        self.spent = spent
        self.threads = threads
        self.slices: List[int] = list(slices) or [spent]


class Stopped(SubgraphError):
    """The caller's `Stop` was set before it was decided whether an embedding exists."""

    def __init__(self) -> None:
        super().__init__("stopped before it was decided")

    def __reduce__(self) -> Tuple[Any, ...]:
        return type(self), ()


class NotACommand(SubgraphError, ValueError):
    """The program refuses the command line (status 3).

    A number is out of its range, or this build of the program does not know an option or a command.

    Attributes
    ----------
    words : list of str
        The command line, without the program's name.
    """

    def __init__(self, line: str, words: Sequence[str]) -> None:
        newer = [it for it in ("batch", "trim") if it in words[:1]] + [
            it for it in ("--threads", "--prove", "--map", "--less") if it in words
        ]
        hint = f" (this build of the program may not know {' or '.join(newer)})" if newer else ""
        super().__init__(f"{line}: {' '.join(words)}{hint}", 3, line)
        self.words = list(words)


class TextRefused(SubgraphError, ValueError):
    """A graph, mapping, encoding, log or list is not of its form, or too large (status 4).

    Attributes
    ----------
    who : str
        ``pattern``, ``less``, ``target``, ``mapping``, ``encoding``, ``log`` or ``list``.
    job : int or None
        The number of the question in a batch, from 1, if it is a graph of a batch.
    place : tuple of (str, int), or None
        ``("word", number)``, ``("line", number)`` or ``("pair", number)`` of the first fault, from 1; ``None`` if the text
        is too long.
    cause : str
        The fault's name, as ``TooMany``.
    """

    def __init__(self, line: str) -> None:
        super().__init__(line, 4, line)
        named = re.fullmatch(r"job (\d+) (.*)", line)
        self.job: Optional[int] = int(named[1]) if named else None
        who, _, rest = (str(named[2]) if named else line).partition(": ")
        self.who = who
        found = re.fullmatch(r"(word|line|pair) (\d+): (\w+)", rest)
        self.place: Optional[Tuple[str, int]] = (found[1], int(found[2])) if found else None
        self.cause = found[3] if found else rest


class Fault(SubgraphError, OSError):
    """The program could not read or write a file, or its output (status 5)."""

    def __init__(self, line: str) -> None:
        SubgraphError.__init__(self, line, 5, line)


class OutOfMemory(SubgraphError, MemoryError):
    """The program ran out of memory (status 6)."""

    def __init__(self, line: str) -> None:
        super().__init__(line, 6, line)

    def __reduce__(self) -> Tuple[Any, ...]:
        return type(self), (self.line,)


class LogRefused(SubgraphError):
    """``check`` or ``trim`` refuses the log, at its first faulty line (status 7).

    Attributes
    ----------
    number : int
        The first faulty line, from 1.
    cause : str
        The fault's name, as ``NoConflict``.
    """

    def __init__(self, line: str) -> None:
        super().__init__(line, 7, line)
        found = re.fullmatch(r"log: line (\d+): (\w+)", line)
        self.number = int(found[1]) if found else 0
        self.cause = found[2] if found else line


class ProgramFailed(SubgraphError):
    """The program was stopped from outside, or ended with a status that it does not have."""


class WorkerLost(SubgraphError):
    """Two workers of a cluster died while they asked this question.

    Attributes
    ----------
    job : int
        The number of the question in its batch, from 1.
    """

    def __init__(self, job: int) -> None:
        super().__init__(f"job {job}: two workers died while they asked it")
        self.job = job


def error_of(status: int, line: str, words: Sequence[str]) -> SubgraphError:
    """The exception for a status that is no answer."""
    if status == 3:
        return NotACommand(line, words)
    if status == 4:
        return TextRefused(line)
    if status == 5:
        return Fault(line)
    if status == 6:
        return OutOfMemory(line)
    if status == 7 and line.startswith("log: "):
        return LogRefused(line)
    how = f"was stopped by signal {-status}" if status < 0 else f"ended with status {status}"
    return ProgramFailed(f"the program {how}{': ' if line else ''}{line}", status, line)
