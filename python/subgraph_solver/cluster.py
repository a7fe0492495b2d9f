"""The questions of a batch on many machines: on the workers of a `dask.distributed` scheduler."""
from __future__ import annotations

import importlib
import pickle
import time
import uuid
from collections import deque
from dataclasses import dataclass, field
from typing import Any, Deque, Dict, Generator, Iterator, List, Optional, Sequence, Tuple

from .answers import Failed
from .errors import WorkerLost
from .jobs import Chunk, Pace, Part
from .program import Watcher
from .runs import How, Said, Stopped, said_of

#: The most parts for each thread of the workers: asked, waiting there, or answered and not yet taken.
AHEAD = 3
#: The seconds after which the threads of the workers are counted anew.
COUNTED = 5.0
#: What the note of a part says: no worker was at it; a worker has all of it in hand. Else it is the place of the question
#: that a worker has in hand, or bytes: what is said of all of them.
IDLE, WHOLE = -2, -1
#: The seconds that a worker waits for a note.
PATIENCE = 60


def distributed() -> Any:
    """The module, where it is installed."""
    try:
        return importlib.import_module("distributed")
    except ImportError:
        raise ImportError("a batch with a client needs dask.distributed, which is not installed") from None


def ask(chunk: Chunk, how: How, note: str, one_by_one: bool) -> None:
    """Asks the questions of a part, and writes what is said of them and the seconds that it took into the note.

    This runs on a worker, and the scheduler calls it again where the worker dies. The note is kept by the scheduler,
    and outlives the worker. So a second call sees that there was a first one, and asks nothing. What is said is not
    fetched from a worker, which may have died since.
    """
    dask = distributed()
    mark = dask.Variable(note, client=dask.get_client())
    if mark.get(timeout=PATIENCE) != IDLE:
        return
    begun = time.monotonic()
    watcher = _watcher(dask.get_worker())
    said: List[Said] = []
    for place in range(len(chunk.jobs)) if one_by_one else [WHOLE]:
        mark.set(place)
        said += said_of(chunk if place == WHOLE else chunk.part([place]), how, watcher)
    mark.set(pickle.dumps((said, time.monotonic() - begun)))


def _watcher(worker: Any) -> Watcher:
    """Raises `Stopped` once the scheduler does not want the task's answer any more."""
    key = worker.get_current_task()
    tasks = getattr(getattr(worker, "state", None), "tasks", {})

    def look() -> None:
        if getattr(tasks.get(key), "state", "") == "cancelled":
            raise Stopped

    return look


@dataclass
class _Piece:
    """A part, and what is said of its questions by now."""

    part: Part
    said: Dict[int, Said] = field(default_factory=dict)

    def is_done(self) -> bool:
        return len(self.said) == len(self.part.jobs)


@dataclass
class _Asked:
    """Questions of a piece that a worker has, or will have."""

    piece: _Piece
    places: Sequence[int]
    one_by_one: bool
    note: Any


class Cluster:
    """Asks the workers of a client's scheduler.

    A part whose worker dies is asked again, one question after the other, and one such part at a time. A question at
    which the worker dies then is told as failed: this is the second worker that died of it. The others are asked once
    more.

    Parameters
    ----------
    client : distributed.Client
    how : How
    pace : Pace
    as_done : bool
        Are parts answered as they are done? Else in their order.
    """

    def __init__(self, client: Any, how: How, pace: Pace, as_done: bool) -> None:
        self._dask = distributed()
        self._client = client
        self._how = how
        self._pace = pace
        self._as_done = as_done
        self._done = self._dask.as_completed(loop=client.loop)
        self._asked: Dict[Any, _Asked] = {}
        self._pieces: Deque[_Piece] = deque()
        self._suspects: Deque[Tuple[_Piece, Sequence[int]]] = deque()
        self._counted = float("-inf")
        self._threads = 1

    def said(self, parts: Iterator[Part]) -> Generator[Tuple[Part, List[Said]], None, None]:
        """The parts, each with what is said of its questions. What was not taken when this is closed is given up."""
        left: Optional[Iterator[Part]] = parts
        try:
            while left is not None or self._pieces:
                while left is not None and len(self._pieces) < self._room():
                    part = next(left, None)
                    if part is None:
                        left = None
                    else:
                        self._begin(part)
                yield from self._ready()
                if self._asked:
                    self._hear(next(self._done))
        finally:
            self._give_up()

    def _room(self) -> int:
        """How many pieces there may be."""
        if time.monotonic() - self._counted > COUNTED:
            self._threads = max(1, sum(self._client.nthreads().values()))
            self._counted = time.monotonic()
        return AHEAD * self._threads

    def _begin(self, part: Part) -> None:
        piece = _Piece(part)
        self._pieces.append(piece)
        if part.jobs:
            self._submit(piece, range(len(part.jobs)), False)

    def _submit(self, piece: _Piece, places: Sequence[int], one_by_one: bool) -> None:
        name = f"subgraph-{uuid.uuid4().hex}"
        note = self._dask.Variable(name, client=self._client)
        note.set(IDLE)
        chunk = piece.part.chunk.part(places)
        future = self._client.submit(ask, chunk, self._how, name, one_by_one, key=name, pure=False)
        self._asked[future] = _Asked(piece, places, one_by_one, note)
        self._done.add(future)

    def _hear(self, future: Any) -> None:
        """Takes what came of a task."""
        asked = self._asked.pop(future)
        error = future.exception()
        if error is not None and not isinstance(error, self._dask.KilledWorker):
            asked.note.delete()
            raise error
        heard = asked.note.get(timeout=PATIENCE)
        asked.note.delete()
        if not isinstance(heard, int):
            said, seconds = pickle.loads(heard)
            asked.piece.said.update(zip(asked.places, said))
            self._pace.took(len(asked.places), seconds)
        elif heard == IDLE:
            self._submit(asked.piece, asked.places, asked.one_by_one)
        elif heard == WHOLE:
            self._suspects.append((asked.piece, asked.places))
        else:
            self._killed(asked, heard)
        if self._suspects and not any(it.one_by_one for it in self._asked.values()):
            self._submit(*self._suspects.popleft(), True)

    def _killed(self, asked: _Asked, at: int) -> None:
        """A second worker died of this question. Those before and behind it are asked again."""
        place = asked.places[at]
        asked.piece.said[place] = Failed(WorkerLost(asked.piece.part.chunk.numbers[place]))
        for rest in (asked.places[:at], asked.places[at + 1 :]):
            if rest:
                self._submit(asked.piece, rest, False)

    def _ready(self) -> Iterator[Tuple[Part, List[Said]]]:
        """The pieces whose turn it is, without those that are not done."""
        waiting: Deque[_Piece] = deque()
        while self._pieces and (self._as_done or self._pieces[0].is_done()):
            piece = self._pieces.popleft()
            if piece.is_done():
                yield piece.part, [piece.said[at] for at in range(len(piece.part.jobs))]
            else:
                waiting.append(piece)
        self._pieces.extendleft(reversed(waiting))

    def _give_up(self) -> None:
        for future, asked in self._asked.items():
            future.cancel()
            asked.note.delete()
        self._asked.clear()
