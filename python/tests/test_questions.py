"""Questions with known answers, put to the program itself."""
import os
import tempfile
import unittest

from subgraph_solver import (
    DiGraphMatcher,
    Graph,
    GraphMatcher,
    LogRefused,
    Proof,
    TextRefused,
    Undecided,
    check,
    encode,
    find,
    verify,
)

from .asked import CYCLE, PATH, TRIANGLE, needs_program, takes

#: A log that a triangle does not go into a cycle of four.
LOG = """embedding proof 1
m 34
p 0.1 15 24 + 6 + ;
p 0.2 15 26 + 6 + ;
u 0.3 ~x1 ; 0.1 0.2 11 ;
p 0.4 16 23 + 6 + ;
p 0.5 16 25 + 6 + ;
u 0.6 ~x2 ; 0.4 0.5 12 ;
p 0.7 17 24 + 6 + ;
p 0.8 17 26 + 6 + ;
u 0.9 ~x3 ; 0.7 0.8 13 ;
p 0.10 18 23 + 6 + ;
p 0.11 18 25 + 6 + ;
u 0.12 ~x4 ; 0.10 0.11 14 ;
u 0.13 ; 0.3 0.6 0.9 0.12 1 ;
e 0.13
"""


@needs_program
class Find(unittest.TestCase):
    def test_answers(self) -> None:
        rows = (
            ("a path goes round a triangle", PATH, TRIANGLE, False, True),
            ("and does not induced", PATH, TRIANGLE, True, False),
            ("no triangle in a cycle of four", TRIANGLE, CYCLE, False, False),
            ("nothing in nothing", [], [], False, True),
            ("nothing in something", [], TRIANGLE, True, True),
            ("a vertex in nothing", Graph(vertices="a"), [], False, False),
            ("a loop wants a loop", [(0, 0)], TRIANGLE, False, False),
            ("and finds one", [(0, 0)], [(0, 1), (1, 1)], False, True),
            ("neighbours by name", {"a": ["b"], "b": []}, {1: [2], 2: [3]}, False, True),
        )
        for what, pattern, target, induced, exists in rows:
            with self.subTest(what):
                images = find(pattern, target, induced)
                self.assertEqual(images is not None, exists)
                if exists:
                    self.assertTrue(verify(pattern, target, images, induced))

    def test_names_and_labels(self) -> None:
        pattern = Graph([("x", "y")], labels={"x": "carbon", "y": "oxygen"})
        target = Graph([(1, 2), (2, 3)], labels={1: "carbon", 2: "carbon", 3: "oxygen"})
        self.assertEqual(find(pattern, target), {"x": 2, "y": 3})
        self.assertIsNone(find(pattern, Graph([(1, 2)], labels={1: "carbon", 2: "nitrogen"})))
        with self.assertRaisesRegex(ValueError, "target has no labels"):
            find(pattern, TRIANGLE)
        self.assertEqual(find([("a", 1)], [("b", 2)], node_label=lambda name, _: type(name).__name__), {"a": "b", 1: 2})

    def test_budget(self) -> None:
        with self.assertRaises(Undecided) as told:
            find(TRIANGLE, CYCLE, budget=3)
        self.assertEqual((told.exception.spent, told.exception.status), (3, 2))
        self.assertIsNone(find(TRIANGLE, CYCLE, budget=4))

    def test_seed(self) -> None:
        target = [(a, b) for a in range(30) for b in range(a) if (a + b) % 7 in (1, 2)]
        found = {tuple(find(PATH, target, seed=seed).items()) for seed in range(8)}
        self.assertGreater(len(found), 1)
        self.assertEqual(find(PATH, target, seed=3), find(PATH, target, seed=3))

    def test_refused(self) -> None:
        with self.assertRaises(TextRefused) as told:
            find(Graph(vertices=range(1025)), TRIANGLE)
        it = told.exception
        self.assertEqual((it.who, it.place, it.cause, it.status), ("pattern", ("word", 1), "TooMany", 4))

    def test_directions(self) -> None:
        ring, turned = [(0, 1), (1, 2), (2, 0)], [(0, 1), (1, 2), (0, 2)]
        rows = (
            ("a path goes round a ring", [("a", "b"), ("b", "c")], ring, False, True),
            ("and does not induced", [("a", "b"), ("b", "c")], ring, True, False),
            ("no ring with an edge turned", ring, turned, False, False),
            ("nor is that in a ring", turned, ring, False, False),
            ("one that leads to two", [("a", "b"), ("a", "c")], ring, False, False),
            ("both ways", [("a", "b"), ("b", "a")], [(0, 1), (1, 2)], False, False),
            ("one way in both", [("a", "b")], [(0, 1), (1, 0)], False, True),
            ("and not induced", [("a", "b")], [(0, 1), (1, 0)], True, False),
            ("a loop wants a loop", [("a", "a")], [(0, 1), (1, 1)], False, True),
            ("nothing in nothing", [], [], False, True),
        )
        for what, pattern, target, induced, exists in rows:
            with self.subTest(what):
                graphs = Graph(pattern, directed=True), Graph(target, directed=True)
                images = find(*graphs, induced)
                self.assertEqual(images is not None, exists)
                if exists:
                    self.assertTrue(verify(*graphs, images, induced))

    def test_labels_of_edges(self) -> None:
        rows = (
            ("the second edge", {("a", "b"): "double"}, {(1, 2): "single", (2, 3): "double"}, {2, 3}),
            ("none has the label", {("a", "b"): "triple"}, {(1, 2): "single", (2, 3): "double"}, None),
            ("a label of a loop", {("a", "a"): "x"}, {(1, 1): "y", (2, 2): "x"}, {2}),
            ("and none", {("a", "a"): "x"}, {(1, 1): "y", (2, 1): "x"}, None),
            ("great numbers", {("a", "b"): (1 << 32) - 1}, {(1, 2): 0, (2, 3): (1 << 32) - 1}, {2, 3}),
        )
        for what, pattern, target, found in rows:
            for directed in (False, True):
                with self.subTest(what, directed=directed):
                    graphs = [Graph(it, directed=directed, edge_labels=it) for it in (pattern, target)]
                    images = find(*graphs)
                    self.assertEqual(images and set(images.values()), found)
                    if images:
                        self.assertTrue(verify(*graphs, images))

    def test_labels_of_both(self) -> None:
        pattern = Graph([("x", "y")], (), {"x": "C", "y": "O"}, True, {("x", "y"): 1})
        target = Graph([(1, 2), (2, 3)], (), {1: "C", 2: "O", 3: "C"}, True, {(1, 2): 1, (2, 3): 1})
        self.assertEqual(find(pattern, target), {"x": 1, "y": 2})
        self.assertFalse(verify(pattern, target, {"x": 3, "y": 2}))
        self.assertIsNone(find(pattern, Graph([(2, 1)], (), {1: "C", 2: "O"}, True, {(2, 1): 1})))
        step = {"edge_label": lambda a, b, _: abs(a - b)}
        self.assertEqual(sorted(find([(0, 2)], [(5, 6), (6, 8)], **step).values()), [6, 8])

    def test_not_alike(self) -> None:
        one_way, labelled = Graph([(0, 1)], directed=True), Graph([(0, 1)], edge_labels={(0, 1): 1})
        rows = (
            (one_way, TRIANGLE, "the pattern is directed, and the target is undirected"),
            (TRIANGLE, one_way, "the pattern is undirected, and the target is directed"),
            (labelled, TRIANGLE, "the target has no labels of edges"),
            (TRIANGLE, labelled, "the pattern has no labels of edges"),
        )
        for pattern, target, text in rows:
            with self.subTest(text), self.assertRaisesRegex(ValueError, text):
                find(pattern, target)

    def test_matcher(self) -> None:
        matcher = GraphMatcher(TRIANGLE, PATH)
        self.assertTrue(matcher.subgraph_is_monomorphic())
        self.assertEqual(set(matcher.mapping.values()), {"a", "b", "c"})
        self.assertFalse(matcher.subgraph_is_isomorphic())
        self.assertEqual(matcher.mapping, {})
        graphs = Graph([(0, 1), (1, 2)], directed=True), Graph([("a", "b"), ("c", "b")], directed=True)
        self.assertTrue(DiGraphMatcher(graphs[0], graphs[0]).subgraph_is_isomorphic())
        self.assertFalse(DiGraphMatcher(*graphs).subgraph_is_monomorphic())


@needs_program
class Later(unittest.TestCase):
    """What a build of the program may not know yet."""

    def test_threads(self) -> None:
        if not takes(threads=2):
            self.skipTest("this build of the program does not know --threads")
        self.assertIsNone(find(TRIANGLE, CYCLE, threads=8))
        self.assertTrue(verify(PATH, TRIANGLE, find(PATH, TRIANGLE, threads=4)))

    def test_prove(self) -> None:
        if not takes(prove=True):
            self.skipTest("this build of the program does not know --prove")
        for threads in (None, 4):
            with tempfile.TemporaryDirectory() as folder:
                proof = find(TRIANGLE, CYCLE, prove=folder, threads=threads)
                self.assertIsInstance(proof, Proof)
                self.assertFalse(proof)
                self.assertEqual(check(proof.encoding, proof.log), "unsatisfiable")
        self.assertEqual(set(find(PATH, TRIANGLE, prove=True)), {"a", "b", "c"})

    def test_prove_in_each_format(self) -> None:
        if not takes(prove=True):
            self.skipTest("this build of the program does not know --prove")
        labels, others = {0: "C", 1: "C"}, {0: "C", 1: "O"}
        rows = (
            (Graph([(0, 1)], labels=labels), Graph([(0, 1)], labels=others)),
            (Graph([(0, 1), (1, 0)], directed=True), Graph([(0, 1), (1, 2)], directed=True)),
            (Graph([(0, 1)], edge_labels={(0, 1): 1}), Graph([(0, 1)], edge_labels={(0, 1): 2})),
            (Graph([(0, 1)], (), labels, True, {(0, 1): 1}), Graph([(1, 0)], (), others, True, {(1, 0): 1})),
        )
        for pattern, target in rows:
            with self.subTest(pattern), tempfile.TemporaryDirectory() as folder:
                proof = find(pattern, target, prove=folder)
                self.assertIsInstance(proof, Proof)
                self.assertEqual(check(proof.encoding, proof.log), "unsatisfiable")
                self.assertEqual(set(find(pattern, pattern, prove=folder)), {0, 1})


@needs_program
class Others(unittest.TestCase):
    def setUp(self) -> None:
        self.folder = tempfile.TemporaryDirectory()
        self.addCleanup(self.folder.cleanup)
        self.encoding = os.path.join(self.folder.name, "encoding.opb")
        self.log = os.path.join(self.folder.name, "proof.log")

    def _write_log(self, text: str) -> None:
        with open(self.log, "w", encoding="ascii", newline="\n") as file:
            file.write(text)

    def test_verify(self) -> None:
        self.assertFalse(verify(PATH, TRIANGLE, {"a": 0, "b": 1, "c": 0}))
        self.assertFalse(verify(PATH, TRIANGLE, {"a": 0, "b": 1}))
        self.assertFalse(verify(PATH, TRIANGLE, {"a": 0, "b": 1, "c": 2}, induced=True))
        with self.assertRaisesRegex(ValueError, "target has no vertex 7"):
            verify(PATH, TRIANGLE, {"a": 0, "b": 1, "c": 7})
        with self.assertRaisesRegex(ValueError, "pattern has no vertex 'd'"):
            verify(PATH, TRIANGLE, {"a": 0, "b": 1, "c": 2, "d": 0})

    def test_encode(self) -> None:
        self.assertEqual(encode([(0, 1)], [(0, 1)], self.encoding), (4, 10))
        with open(self.encoding, encoding="ascii") as file:
            lines = file.read().splitlines()
        self.assertEqual((lines[0], lines[7], len(lines)), ("* #variable= 4 #constraint= 10", "-1 x1 +1 x4 >= 0 ;", 11))
        one_way = Graph([(0, 1)], directed=True)
        self.assertEqual(encode(one_way, one_way, self.encoding), (4, 10))
        with open(self.encoding, encoding="ascii") as file:
            self.assertEqual(file.read().splitlines()[8], "-1 x2 >= 0 ;")

    def test_check(self) -> None:
        encode(TRIANGLE, CYCLE, self.encoding)
        self._write_log(LOG)
        self.assertEqual(check(self.encoding, self.log), "unsatisfiable")
        self._write_log("embedding proof 1\nm 34\nq\n")
        self.assertEqual(check(self.encoding, self.log), "undecided")
        self._write_log(LOG.replace("0.1 0.2 11", "0.1 11"))
        with self.assertRaises(LogRefused) as told:
            check(self.encoding, self.log)
        self.assertEqual((told.exception.number, told.exception.cause, told.exception.status), (5, "NoConflict", 7))


if __name__ == "__main__":
    unittest.main()
