"""The program: where it is, how it is run, and what a caller sees of a long run."""
from __future__ import annotations

import os
import shutil
import subprocess
import sys
import time
from dataclasses import dataclass
from pathlib import Path
from typing import IO, Callable, List, Optional, Sequence, Tuple, Union

from .errors import ProgramMissing
from .stopping import Stop, ended_by, raise_if

StrPath = Union[str, "os.PathLike[str]"]
#: The environment variable that names the program.
VARIABLE = "SUBGRAPH_PROGRAM"
#: Where a wheel that has the program puts it.
INSTALLED = Path(__file__).resolve().parent / "bin" / "subgraph"
HOW_TO_BUILD = (
    "the program `subgraph` was not found. At the top of its repository `./subgraph demo 7` builds it, and "
    f"`make install PREFIX=..` installs it. Or name it by program=.. or in the variable {VARIABLE}"
)


@dataclass(frozen=True)
class Progress:
    """How far a long search is.

    Attributes
    ----------
    seconds : float
        The time since the question was asked.
    slice : int
        The number of this run, from 1.
    budget : int
        The most failed guesses of this run.
    spent : tuple of int
        What each undecided run has spent.
    ended : bool
        Has this run just ended, undecided?
    """

    seconds: float
    slice: int
    budget: int
    spent: Tuple[int, ...]
    ended: bool


Watcher = Callable[[], None]


def find_program(program: Optional[StrPath] = None) -> str:
    """The path of the program.

    It is the argument, else the one that ``SUBGRAPH_PROGRAM`` names, else the one that was installed with this package, else
    the build of the repository that this package lies in, else ``subgraph`` on the path.

    Raises
    ------
    ProgramMissing
        There is none. The message says how to build it.
    """
    named = program or os.environ.get(VARIABLE)
    if named:
        found = shutil.which(os.fspath(named))
        if found is None:
            raise ProgramMissing(f"{os.fspath(named)} is not a program. {HOW_TO_BUILD}")
        return found
    if os.access(INSTALLED, os.X_OK):
        return str(INSTALLED)
    top = Path(__file__).resolve().parents[2]
    built = top / "crates" / "subgraph" / "out" / "subgraph"
    if (top / "crates.txt").is_file() and os.access(built, os.X_OK):
        return str(built)
    found = shutil.which("subgraph")
    if found is None:
        raise ProgramMissing(HOW_TO_BUILD)
    return found


def run(
    program: str,
    words: Sequence[str],
    out: Optional[IO[bytes]] = None,
    watcher: Optional[Watcher] = None,
    every: float = 0.5,
    cwd: Optional[str] = None,
    stop: Optional[Stop] = None,
) -> Tuple[int, str, str]:
    """Runs the program. Answers its exit status, its output and its message.

    When this call ends, also by an interrupt, the program has ended. If the `stop` is set before, it is killed.

    Parameters
    ----------
    program : str
    words : sequence of str
        The words behind the program's name.
    out : file, optional
        Gets the output, which is then not answered.
    watcher : callable, optional
        Called every `every` seconds.
    every : float
    cwd : str, optional
        The folder that the program runs in. A relative path of the program is one from there.
    stop : Stop, optional

    Raises
    ------
    Stopped
        The `stop` was set before the program had ended.
    """
    raise_if(stop)
    whole: List[str] = [program, *words]
    with subprocess.Popen(
        whole,
        stdin=subprocess.DEVNULL,
        stdout=subprocess.PIPE if out is None else out,
        stderr=subprocess.PIPE,
        cwd=cwd,
    ) as process:
        try:
            with ended_by(stop, process.kill):
                while True:
                    try:
                        told, error = process.communicate(timeout=every if watcher else None)
                        break
                    except subprocess.TimeoutExpired:
                        if watcher:
                            watcher()
        except BaseException:
            # An interrupt may come before `ended_by` has begun.
            process.kill()
            process.wait()
            raise
    if process.returncode < 0:
        raise_if(stop)
    return process.returncode, (told or b"").decode("ascii", "replace"), _line(error)


def options(**numbers: Optional[int]) -> List[str]:
    """The options of the program for those numbers that are named."""
    return [word for name, it in numbers.items() if it is not None for word in (f"--{name}", str(int(it)))]


def images_of(out: str) -> List[int]:
    """The images in the output of `solve`, in the order of the pattern's vertices."""
    return [int(line.split(" -> ")[1]) for line in out.splitlines()[1:]]


def _line(error: bytes) -> str:
    return error.decode("utf-8", "replace").strip()


class Teller:
    """Tells the progress of a search: on standard error, or to the caller's function."""

    def __init__(self, to: Union[bool, Callable[[Progress], None]]) -> None:
        self.to = self._write if to is True else to
        self.begun = time.monotonic()
        self.spent: List[int] = []
        self.slice = 0
        self.budget = 0

    def begin(self, budget: int) -> None:
        """A run begins."""
        self.slice += 1
        self.budget = budget

    def going(self) -> None:
        """The run goes on."""
        self._tell(False)

    def ended(self) -> None:
        """The run ended undecided."""
        self.spent.append(self.budget)
        self._tell(True)

    def _tell(self, ended: bool) -> None:
        if callable(self.to):
            seconds = time.monotonic() - self.begun
            self.to(Progress(seconds, self.slice, self.budget, tuple(self.spent), ended))

    @staticmethod
    def _write(it: Progress) -> None:
        on_terminal = sys.stderr.isatty()
        if not it.ended and not on_terminal:
            return
        spent = f"{sum(it.spent):,} fails spent" if it.spent else "no fails spent yet"
        text = f"{it.seconds:8.1f} s  slice {it.slice} of {it.budget:,} fails  {spent}"
        head, end = ("\r", "" if not it.ended else "\n") if on_terminal else ("", "\n")
        print(head + text, end=end, file=sys.stderr, flush=True)
