"""Ending a question from outside: an interrupt does, and so does a `Stop` that another thread sets."""
from __future__ import annotations

import threading
from contextlib import contextmanager
from typing import Callable, Iterator, List, Optional, TypeVar

from .errors import Stopped

It = TypeVar("It")
End = Callable[[], None]


class Stop:
    """Ends the questions that it is given to: each raises `Stopped` soon after another thread calls `set`.

    It stays set, and a question that gets it then is not asked. Many questions may share one.
    """

    def __init__(self) -> None:
        # A handler of a signal may set it while its own thread is in here.
        self._lock = threading.RLock()
        self._ends: List[End] = []
        self._set = False

    def set(self) -> None:
        """Ends the questions. It waits for none of them."""
        with self._lock:
            self._set = True
            for end in self._ends:
                end()

    def is_set(self) -> bool:
        """Was it set?"""
        return self._set

    @contextmanager
    def calling(self, end: End) -> Iterator[None]:
        """Calls the function once it is set, as long as the block lasts; at once, if it was set before."""
        with self._lock:
            self._ends.append(end)
            if self._set:
                end()
        try:
            yield
        finally:
            with self._lock:
                self._ends.remove(end)


def raise_if(stop: Optional[Stop]) -> None:
    """Raises `Stopped` if the stop was set."""
    if stop is not None and stop.is_set():
        raise Stopped()


@contextmanager
def ended_by(stop: Optional[Stop], end: End) -> Iterator[None]:
    """Calls the function if the stop is set during the block, or if the block is left by an exception."""
    try:
        if stop is None:
            yield
        else:
            with stop.calling(end):
                yield
    except BaseException:
        end()
        raise


def heard(call: Callable[[], It], end: End, stop: Optional[Stop]) -> It:
    """What a call answers in a thread of its own, while this one hears signals. What ends the wait ends the call."""
    # Few questions need it, and to import it takes longer than most of them.
    from concurrent.futures import ThreadPoolExecutor

    with ThreadPoolExecutor(1) as pool, ended_by(stop, end):
        return pool.submit(call).result()
