"""The library beside the program: the same answers to random questions, the same exceptions, and which is asked."""
from __future__ import annotations

import copy
import os
import pickle
import random
import threading
import unittest
from typing import Any, Dict, List, Tuple
from unittest import mock

import subgraph_solver as solver
from subgraph_solver import Graph, batch, find, prepare, verify
from subgraph_solver import library as library_module
from subgraph_solver.asking import question_of
from subgraph_solver.errors import LibraryMissing
from subgraph_solver.library import VARIABLE, Library, find_library, options_of
from subgraph_solver.program import find_program

from .asked import CYCLE, PATH, TRIANGLE, StandIn, needs_program

#: How many random questions are asked side by side.
QUESTIONS = 2000
#: A ring of nine, and a grid of 16, in which each ring is even.
RING = [(n, (n + 1) % 9) for n in range(9)]
GRID = [((a, b), c) for a in range(4) for b in range(4) for c in ((a + 1, b), (a, b + 1)) if max(c) < 4]
needs_library = unittest.skipUnless(find_library(), "the library is not built")


def random_graph(rng: random.Random, most: int, directed: bool, labelled: bool, edge_labelled: bool) -> Graph:
    """A graph with names that are no numbers of places, and with loops."""
    names = [f"v{n}" for n in rng.sample(range(100), rng.randint(0, most))]
    density = rng.random()
    pairs = [(a, b) for a in names for b in names if rng.random() < (density / 4 if a == b else density)]
    labels = {it: rng.choice("xy") for it in names} if labelled else None
    edges = {frozenset(it): rng.choice("st") for it in pairs}
    edge_labels = {it: edges[frozenset(it)] for it in pairs} if edge_labelled else None
    return Graph(pairs, names, labels, directed, edge_labels)


def random_question(rng: random.Random) -> Tuple[Graph, Graph, Dict[str, Any]]:
    """Two graphs of one of the formats, and what is asked of a map."""
    shape = [rng.random() < 0.5 for _ in range(3)]
    pattern, target = (random_graph(rng, most, *shape) for most in (5, 8))
    how: Dict[str, Any] = {"map": rng.choice(["injective", "injective", "local", "any"])}
    how["induced"] = how["map"] == "injective" and rng.random() < 0.5
    if len(pattern) > 1 and rng.random() < 0.4:
        how["less"] = [tuple(rng.sample(pattern.names, 2)) for _ in range(rng.randint(1, 3))]
    return pattern, target, how


def answer(*graphs: Any, **how: Any) -> Tuple[str, Any]:
    """The answer of `find`, or the exception."""
    try:
        return "answer", find(*graphs, **how)
    except solver.SubgraphError as error:
        return type(error).__name__, str(error)


@needs_library
class SideBySide(unittest.TestCase):
    """The library and the program."""

    @needs_program
    def test_random_questions(self) -> None:
        program = find_program()
        for number in range(QUESTIONS):
            rng = random.Random(number)
            pattern, target, how = random_question(rng)
            numbers = {"seed": rng.randrange(1 << 64), "budget": rng.choice([1, 3, None])}
            with self.subTest(number=number):
                mine = answer(pattern, target, **how, **numbers)
                self.assertEqual(mine, answer(pattern, target, **how, **numbers, program=program))
                tried: Dict[Any, Any] = mine[1] if isinstance(mine[1], dict) else {}
                if not tried and len(target):
                    tried = {it: rng.choice(target.names) for it in pattern.names}
                said = verify(pattern, target, tried, **how)
                self.assertEqual(said, verify(pattern, target, tried, **how, program=program))

    @needs_program
    def test_refused(self) -> None:
        large = Graph([], range(1025))
        rows: List[Tuple[Any, Any, Dict[str, Any]]] = [
            (large, TRIANGLE, {}),
            (PATH, Graph([], range(8193)), {}),
            (PATH, TRIANGLE, {"budget": 0}),
            (PATH, TRIANGLE, {"budget": 1 << 63}),
            (PATH, TRIANGLE, {"seed": -1}),
            (PATH, TRIANGLE, {"seed": 1 << 64}),
            (PATH, TRIANGLE, {"book": 4194305}),
        ]
        for pattern, target, how in rows:
            with self.subTest(how):
                by_library = answer(pattern, target, **how)
                by_program = answer(pattern, target, **how, program=find_program())
                self.assertEqual(by_library[0], by_program[0])
                if by_library[0] == "TextRefused":
                    self.assertEqual(by_library, by_program)


@needs_library
class Kept(unittest.TestCase):
    """A target of `prepare` that the library keeps open, beside its text."""

    def setUp(self) -> None:
        self.library = find_library()

    def test_random_questions(self) -> None:
        for number in range(QUESTIONS // 4):
            rng = random.Random(number)
            pattern, target, how = random_question(rng)
            kept = prepare(target)
            for budget in (None, 1, None):
                with self.subTest(number=number, budget=budget):
                    self.assertEqual(answer(pattern, kept, **how, budget=budget), answer(pattern, target, **how, budget=budget))
            self.assertTrue(kept.held is None or kept.held[1] is not None)

    def test_copies(self) -> None:
        kept = prepare(CYCLE)
        self.assertIsNotNone(find(PATH, kept))
        for again in (pickle.loads(pickle.dumps(kept)), copy.copy(kept), prepare(kept)):
            self.assertIsNone(again.held)
            self.assertEqual(find(PATH, again), find(PATH, kept))

    def test_two_at_once(self) -> None:
        kept = prepare(GRID)
        find(PATH, kept)
        held = kept.held[1] if kept.held else None
        self.assertIsNotNone(held)
        room = held._free.pop()
        self.assertIsNone(held.decide(b"0", options_of(question_of(PATH, kept, (None, None), False, "injective", ())), ()))
        self.assertIsNotNone(find(PATH, kept))
        held._free.append(room)
        self.assertIsNotNone(held.decide(b"0", options_of(question_of(PATH, kept, (None, None), False, "injective", ())), ()))

    def test_refused(self) -> None:
        self.assertIsNone(self.library.opened(b"1", "lad"))
        self.assertIsNotNone(self.library.opened(b"0", "labelledlad"))

    def test_batch(self) -> None:
        targets = [prepare(it) for it in (CYCLE, GRID)]
        questions = [(pattern, target) for target in targets for pattern in (PATH, TRIANGLE, RING, PATH)]
        due = [find(*it) for it in questions]
        self.assertEqual(list(batch(questions)), due)


@needs_library
class Choice(unittest.TestCase):
    """Which of the two is asked."""

    def setUp(self) -> None:
        self.library = find_library()

    def asks(self, pattern: Any = TRIANGLE, target: Any = CYCLE, **how: Any) -> List[List[str]]:
        """The words that a stand-in gets which `SUBGRAPH_PROGRAM` names, for a question with the answer ``None``."""
        with StandIn(1, "none\n") as program, mock.patch.dict(os.environ, {"SUBGRAPH_PROGRAM": program.path}):
            self.assertIsNone(find(pattern, target, **how))
            return program.words() if os.path.exists(program.notes) else []

    def test_each(self) -> None:
        self.assertEqual(self.asks(), [])
        self.assertEqual(self.asks(threads=1, seed=4, budget=9, book=0), [])
        self.assertEqual(len(self.asks(threads=2)), 1)
        self.assertEqual(len(self.asks(progress=lambda _: None)), 1)

    def test_none(self) -> None:
        with mock.patch.dict(os.environ, {VARIABLE: ""}):
            self.assertIsNone(find_library())
            self.assertEqual(len(self.asks()), 1)

    def test_no_library(self) -> None:
        with mock.patch.dict(os.environ, {VARIABLE: __file__}), self.assertRaises(LibraryMissing):
            find(TRIANGLE, CYCLE)

    def test_long(self) -> None:
        """What is not decided soon is asked again, by the library too."""
        self.assertEqual(self.asks(RING, GRID), [])
        with mock.patch.object(library_module, "FIRST_BUDGET", 1):
            self.assertEqual(self.asks(RING, GRID), [])

    def test_room(self) -> None:
        question = question_of(PATH, TRIANGLE, (None, None), False, "injective", ())
        assert self.library is not None
        said = self.library.decide(question.texts, options_of(question), [], 2)
        self.assertEqual((said.status, said.cause, said.images), (3, 9, []))

    def test_threads(self) -> None:
        """Calls of several threads at once."""
        found: List[Any] = []

        def ask() -> None:
            found.extend(find(TRIANGLE, CYCLE) for _ in range(50))

        going = [threading.Thread(target=ask) for _ in range(4)]
        for it in going:
            it.start()
        for it in going:
            it.join()
        self.assertEqual(found, [None] * 200)

    def test_version(self) -> None:
        assert self.library is not None
        numbers = [int(it) for it in solver.__version__.split(".")]
        self.assertEqual(self.library.version, numbers[0] * 10000 + numbers[1] * 100 + numbers[2])
        self.assertIsInstance(self.library, Library)
