"""Answers in a notebook and in another process; targets that are prepared; batches that the library answers."""
from __future__ import annotations

import pickle
import sys
import unittest
import xml.etree.ElementTree as tree
from pathlib import Path
from typing import Any, List
from unittest import mock

import subgraph_solver as solver
from subgraph_solver import Embedding, Failed, Graph, Proof, Unknown, batch, draw, find, prepare, verify
from subgraph_solver import batch as batch_module
from subgraph_solver.asking import question_of
from subgraph_solver.library import FAULT, NONE, UNKNOWN, YES, Said

from .asked import CYCLE, PATH, TRIANGLE, StandIn, needs, needs_program

EMBEDDING = Embedding.of({"a": 0, "b": 1, "c": 2}, Graph(PATH), Graph(CYCLE))


class Notebook(unittest.TestCase):
    def test_picture(self) -> None:
        svg = EMBEDDING._repr_svg_()
        self.assertEqual(svg, draw(PATH, CYCLE, EMBEDDING))
        self.assertIn(svg, EMBEDDING._repr_html_())
        titles = [it.text for it in tree.fromstring(svg).iter("{http://www.w3.org/2000/svg}title")]
        self.assertEqual(sorted(titles), sorted(["a", "b", "c", "0", "1", "2", "3"]))

    def test_large(self) -> None:
        """A table stands for a picture that would take long, and for one of files."""
        large = Embedding.of({"<a>": 3}, Graph(vertices=["<a>"]), Graph(vertices=range(1000)))
        for it in (large, Embedding({"<a>": 3})):
            self.assertIsNone(it._repr_svg_())
            self.assertIn("<td>&lt;a&gt;</td><td>3</td>", it._repr_html_())
        self.assertIn("and 900 more", Embedding(enumerate(range(1000)))._repr_html_())

    def test_others(self) -> None:
        for it, text in (
            (Proof(Path("a<.opb"), Path("b")), "a&lt;.opb"),
            (Unknown(1234), "1,234"),
            (Failed(solver.WorkerLost(7)), "job 7"),
        ):
            self.assertIn(text, it._repr_html_())
            self.assertFalse(it)

    def test_is_a_dict(self) -> None:
        self.assertEqual(EMBEDDING, {"a": 0, "b": 1, "c": 2})
        self.assertEqual(repr(EMBEDDING), "{'a': 0, 'b': 1, 'c': 2}")
        again = pickle.loads(pickle.dumps(EMBEDDING))
        self.assertEqual((again, again._repr_svg_()), (EMBEDDING, EMBEDDING._repr_svg_()))


class Exceptions(unittest.TestCase):
    def test_in_another_process(self) -> None:
        """They keep their texts and attributes."""
        for error in (
            solver.Undecided(5, 2, [2, 5]),
            solver.NotACommand("words: not a command", ["batch"]),
            solver.TextRefused("job 3 target: word 2: TooMany"),
            solver.Fault("files: fault"),
            solver.OutOfMemory("memory: refused"),
            solver.LogRefused("log: line 5: NoConflict"),
            solver.NotAvailable("no"),
            solver.WorkerLost(4),
        ):
            with self.subTest(error):
                again = pickle.loads(pickle.dumps(error))
                self.assertIs(type(again), type(error))
                self.assertEqual((str(again), vars(again)), (str(error), vars(error)))


class Prepared(unittest.TestCase):
    LABELLED = Graph([(1, 2), (2, 3)], labels={1: "C", 2: "C", 3: "O"})

    def test_texts(self) -> None:
        """The target's text stays, whatever labels patterns have."""
        target = prepare(self.LABELLED)
        for labels, wanted in (({0: "O"}, b"1\n1 0\n"), ({0: "C"}, b"1\n0 0\n"), ({0: "N"}, b"1\n2 0\n")):
            question = question_of(Graph(vertices=[0], labels=labels), target, (None, None), False, "injective", ())
            self.assertEqual((question.format, question.texts), ("vertexlabelledlad", (wanted, target.text)))
            self.assertIs(question.texts[1], target.text)
        with self.assertRaisesRegex(ValueError, "the pattern has no labels"):
            find(PATH, target)

    def test_limits(self) -> None:
        with self.assertRaises(solver.TextRefused) as told:
            prepare(Graph(vertices=range(8193)))
        self.assertEqual((told.exception.who, told.exception.place, told.exception.cause), ("target", ("word", 1), "TooMany"))

    @needs("networkx")
    def test_labels_of_the_target(self) -> None:
        """A pattern is labelled as the target was, if nothing else is said."""
        import networkx

        graph = networkx.Graph([(0, 1)])
        networkx.set_node_attributes(graph, {0: "x", 1: "y"}, "kind")
        target = prepare(graph, node_label="kind")
        question = question_of(graph.subgraph([1]), target, (None, None), False, "injective", ())
        self.assertEqual(question.texts, (b"1\n1 0\n", b"2\n0 1 1\n1 1 0\n"))
        self.assertIs(question_of(graph, target, ("kind", None), False, "injective", ()).texts[1], target.text)

    @needs_program
    def test_as_any_target(self) -> None:
        target = prepare(CYCLE)
        images = find(PATH, target)
        assert images is not None
        self.assertTrue(verify(PATH, target, images))
        self.assertIsNone(find(TRIANGLE, target))
        self.assertEqual([it is None for it in batch([(PATH, target), (TRIANGLE, target)])], [False, True])
        self.assertIn("<svg", images._repr_html_())


class FakeLibrary:
    """Answers by the number of the pattern's vertices, and notes how often it was asked."""

    def __init__(self) -> None:
        self.asked = 0

    def decide(self, texts: Any, options: Any, less: Any, room: int = 0) -> Said:
        self.asked += 1
        size = int(texts[0].split()[0])
        status = {1: YES, 2: NONE, 3: UNKNOWN, 4: FAULT}[size]
        return Said(status, [0] if status == YES else [], 1, 1, 2)


class ByLibrary(unittest.TestCase):
    """Batches that the library answers."""

    def told(self, *sizes: int, **how: Any) -> List[Any]:
        library = FakeLibrary()
        with mock.patch.object(sys.modules[batch_module.__module__], "library_for", lambda *_: library):
            answers = list(batch([(Graph(vertices=range(it)), Graph(vertices=range(9))) for it in sizes], **how))
        self.assertGreaterEqual(library.asked, len(sizes))
        return answers

    def test_each(self) -> None:
        self.assertEqual(self.told(1, 2, 1), [{0: 0}, None, {0: 0}])
        self.assertEqual(self.told(2, 3, budget=7), [None, Unknown(7)])
        with self.assertRaises(solver.TextRefused) as refused:
            self.told(1, 4)
        self.assertEqual(refused.exception.line, "job 2 pattern: word 1: TooMany")
        (good, bad) = self.told(1, 4, errors="answer")
        self.assertEqual((good, str(bad)), ({0: 0}, "failed: job 2 pattern: word 1: TooMany"))


class Pieces(unittest.TestCase):
    """Questions are taken and answered piece by piece."""

    def test_not_before_they_are_needed(self) -> None:
        taken: List[int] = []

        def questions() -> Any:
            for number in range(10):
                taken.append(number)
                yield PATH, TRIANGLE

        with StandIn(0, "1: none\n2: none\n") as program:
            answers = batch(questions(), program=program.path, piece=2)
            for number in range(1, 7):
                self.assertIsNone(next(answers))
                self.assertEqual(len(taken), 2 * ((number + 1) // 2))
            answers.close()

    def test_faults(self) -> None:
        rows = [(PATH, TRIANGLE), (PATH, Graph(directed=True)), (PATH, TRIANGLE), ("a", TRIANGLE)]
        with StandIn(0, "1: none\n2: none\n") as program:
            told = list(batch(rows, program=program.path, errors="answer"))
            self.assertEqual([isinstance(it, Failed) for it in told], [False, True, False, True])
            numbered = dict(batch(rows[:1] + rows[2:3], program=program.path, as_done=True))
            self.assertEqual(numbered, {1: None, 2: None})
            for how in ({"errors": "none"}, {"piece": 0}, {"piece": 1001}):
                with self.assertRaises(ValueError):
                    batch(rows, program=program.path, **how)


if __name__ == "__main__":
    unittest.main()
