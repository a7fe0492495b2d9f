"""Ending a question from outside: by an interrupt, and by a `Stop`."""
from __future__ import annotations

import os
import pickle
import random
import signal
import subprocess
import sys
import threading
import unittest
from contextlib import contextmanager
from typing import Any, Callable, Dict, Iterator, List, Optional, Tuple
from unittest import mock

from subgraph_solver import Stop, Stopped, batch, find, prepare
from subgraph_solver import library as library_module
from subgraph_solver.library import VARIABLE
from subgraph_solver.program import run

from .asked import CYCLE, PATH, TRIANGLE, StandIn, needs_program
from .test_library import needs_library, random_question


def in_parts(parts: int, size: int) -> List[Any]:
    """A graph in which vertices of different parts are neighbours."""
    names = [(part, n) for part in range(parts) for n in range(size)]
    return [(a, b) for a in names for b in names if a[0] < b[0]]


#: A question of seconds: twelve neighbours of each other, where eleven are the most.
PATTERN, TARGET = in_parts(12, 1), in_parts(11, 4)
#: What is called as soon as a question is put to the library, and to the program.
Place = Tuple[Any, str]
LIBRARY: Place = (library_module, "_ask")
PROGRAM: Place = (subprocess.Popen, "communicate")
#: A process that asks it and tells how it ended.
ASKING = """
from subgraph_solver import find, prepare, batch
from tests.test_stopping import LIBRARY, PATTERN, PROGRAM, TARGET, told_by
try:
    with told_by({place}, lambda: print("asks", flush=True)):
        {call}
except KeyboardInterrupt:
    print("interrupted", flush=True)
"""


@contextmanager
def told_by(place: Place, tell: Callable[[], Any]) -> Iterator[None]:
    """Tells of each call at this place, before it goes on. No small budget is spent before."""
    called = getattr(*place)

    def telling(*words: Any, **more: Any) -> Any:
        tell()
        return called(*words, **more)

    with mock.patch.object(*place, telling), mock.patch.object(library_module, "LARGE_TEXTS", 0):
        yield


@contextmanager
def set_at(place: Place, stop: Stop) -> Iterator[None]:
    """Another thread sets the stop as soon as there is a call at this place."""
    asked = threading.Event()
    setting = threading.Thread(target=lambda: (asked.wait(), stop.set()))
    setting.start()
    try:
        with told_by(place, asked.set):
            yield
    finally:
        asked.set()
        setting.join()


@needs_library
class Interrupted(unittest.TestCase):
    """An interrupt, as the terminal sends it."""

    def ends(self, call: str, place: str = "LIBRARY", **variables: str) -> None:
        """Interrupts a process as soon as it asks."""
        words = [sys.executable, "-c", ASKING.format(call=call, place=place)]
        folder = os.path.dirname(os.path.dirname(os.path.abspath(__file__)))
        with subprocess.Popen(words, cwd=folder, stdout=subprocess.PIPE, env={**os.environ, **variables}) as asking:
            assert asking.stdout is not None
            self.assertEqual(asking.stdout.readline(), b"asks\n")
            asking.send_signal(signal.SIGINT)
            self.assertEqual(asking.stdout.read(), b"interrupted\n")

    def test_text(self) -> None:
        self.ends("find(PATTERN, TARGET)")

    def test_kept(self) -> None:
        self.ends("find(PATTERN, prepare(TARGET))")

    def test_batch(self) -> None:
        self.ends("list(batch([(PATTERN, TARGET)]))")

    @needs_program
    def test_program(self) -> None:
        self.ends("find(PATTERN, TARGET)", "PROGRAM", **{VARIABLE: ""})


class ByStop(unittest.TestCase):
    """A `Stop` that another thread sets."""

    def stopped(self, place: Place, target: Any = TARGET, **how: Any) -> None:
        """Stops a question while it is asked, and another one before."""
        stop = Stop()
        with set_at(place, stop), self.assertRaises(Stopped):
            find(PATTERN, target, stop=stop, **how)
        self.assertTrue(stop.is_set())
        with self.assertRaises(Stopped):
            find(PATH, CYCLE, stop=stop, **how)

    @needs_library
    def test_library(self) -> None:
        self.stopped(LIBRARY)

    @needs_library
    def test_kept(self) -> None:
        """The target stays open, and another question may follow."""
        kept = prepare(TARGET)
        self.stopped(LIBRARY, kept)
        self.assertIsNotNone(find(TRIANGLE, kept, stop=Stop()))

    @needs_program
    def test_program(self) -> None:
        with mock.patch.dict(os.environ, {VARIABLE: ""}):
            self.stopped(PROGRAM)
            self.stopped(PROGRAM, threads=2)
            self.stopped(PROGRAM, progress=lambda _: None)

    @needs_library
    def test_two(self) -> None:
        """One stop of two questions: it is set once both are asked."""
        stop, asked = Stop(), threading.Barrier(3)
        ended: List[BaseException] = []

        def ask() -> None:
            try:
                find(PATTERN, TARGET, stop=stop)
            except Stopped as error:
                ended.append(error)

        asking = [threading.Thread(target=ask) for _ in range(2)]
        with told_by(LIBRARY, asked.wait):
            for it in asking:
                it.start()
            asked.wait()
            stop.set()
            for it in asking:
                it.join()
        self.assertEqual(len(ended), 2)

    def test_run(self) -> None:
        """A program that ended by itself is not said to be stopped."""
        with StandIn(3, "", "words: not a command") as program:
            self.assertEqual(run(program.path, [], stop=Stop())[0], 3)

    def test_pickle(self) -> None:
        self.assertIsInstance(pickle.loads(pickle.dumps(Stopped())), Stopped)


@needs_library
class SameAnswer(unittest.TestCase):
    """A question that is asked by two calls has the answer of one. (Calls of at most 64 fails leave out the small search.)"""

    def asked(self, first: int, large: int, *graphs: Any, **how: Any) -> Optional[Dict[Any, Any]]:
        changed = {"FIRST_BUDGET": first, "LARGE_TEXTS": large}
        with mock.patch.dict(library_module.__dict__, changed):
            return find(*graphs, **how)

    def test_random_questions(self) -> None:
        for number in range(500):
            rng = random.Random(number)
            pattern, target, how = random_question(rng)
            with self.subTest(number=number):
                one = self.asked(1 << 62, 1 << 62, pattern, target, **how)
                for first, large in ((65, 1 << 62), (300, 1 << 62), (65, 0)):
                    self.assertEqual(self.asked(first, large, pattern, target, **how), one)

    def test_hard_questions(self) -> None:
        for number in range(30):
            rng = random.Random(number)
            target = [(a, b) for a in range(24) for b in range(a) if rng.random() < 0.5]
            pattern = [(a, b) for a in range(9) for b in range(a) if rng.random() < 0.6]
            with self.subTest(number=number):
                one = self.asked(1 << 62, 1 << 62, pattern, prepare(target), induced=True)
                for first in (65, 300, 1000):
                    self.assertEqual(self.asked(first, 1 << 62, pattern, prepare(target), induced=True), one)

    def test_batch(self) -> None:
        questions = [(PATH, CYCLE), (TRIANGLE, CYCLE), (TRIANGLE, TARGET)]
        due = list(batch(questions))
        with mock.patch.object(library_module, "LARGE_TEXTS", 0):
            self.assertEqual(list(batch(questions)), due)
