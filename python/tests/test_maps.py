"""Maps of each kind, and images in order: the words that the program gets, and its answers."""
import os
import tempfile
import unittest

from subgraph_solver import Graph, Proof, TextRefused, check, draw, encode, find, verify

from .asked import CYCLE, PATH, TRIANGLE, StandIn, needs_program
from .test_command import ask

EDGE = [(0, 1)]
LOOP = [(0, 0)]
RING = [(a, (a + 1) % 6) for a in range(6)]
#: A pattern, a target, the kind of map, the pairs in order, and whether an embedding exists.
ROWS = (
    ("a path goes to and fro", PATH, EDGE, "any", (), True),
    ("and has two ends", PATH, EDGE, "local", (), False),
    ("and three vertices", PATH, EDGE, "injective", (), False),
    ("a ring of six goes twice round", RING, TRIANGLE, "local", (), True),
    ("a ring of four does not", CYCLE, TRIANGLE, "local", (), False),
    ("nor with ends apart", CYCLE, TRIANGLE, "any", (), True),
    ("all at a loop", TRIANGLE, LOOP, "any", (), True),
    ("but for neighbours of one vertex", TRIANGLE, LOOP, "local", (), False),
    ("two neighbours at a loop", EDGE, LOOP, "local", (), True),
    ("the lesser first", EDGE, EDGE, "injective", [(0, 1)], True),
    ("or the greater", EDGE, EDGE, "injective", [(1, 0)], True),
    ("and not both", EDGE, EDGE, "injective", [(0, 1), (1, 0)], False),
    ("nor at one place", EDGE, LOOP, "any", [(0, 1)], False),
    ("the middle first", PATH, TRIANGLE, "any", [("b", "a"), ("b", "c")], True),
    ("three in a row", PATH, EDGE, "any", [("a", "b"), ("b", "c")], False),
)


class Words(unittest.TestCase):
    """What the program gets, and what it never sees."""

    def test_each(self) -> None:
        rows = (
            ({}, []),
            ({"map": "injective", "less": []}, []),
            ({"map": "local"}, ["--map", "local"]),
            ({"induced": True, "less": [("b", "a")]}, ["--induced", "--less", "1,0"]),
            ({"map": "any", "less": [("a", "c"), ("c", "b")]}, ["--map", "any", "--less", "0,2:2,1"]),
        )
        for how, options in rows:
            with self.subTest(how), StandIn(1, "none\n") as program:
                self.assertIsNone(find(PATH, TRIANGLE, program=program.path, **how))
                self.assertEqual(program.words()[0][:-2], ["solve", *options])
            with self.subTest(how), StandIn(0, "embedding\n") as program:
                self.assertTrue(verify(PATH, TRIANGLE, dict.fromkeys("abc", 0), program=program.path, **how))
                self.assertEqual(program.words()[0][:-3], ["verify", *options])

    def test_refused(self) -> None:
        rows = (
            ({"map": "all"}, "no map 'all'"),
            ({"map": "local", "induced": True}, "an induced copy has an injective map"),
            ({"less": [("a", "d")]}, "no vertex 'd'"),
            ({"less": [("a", "a")]}, "the vertex 'a' twice"),
            ({"less": [("a", "b")] * 65}, "65 pairs"),
        )
        with StandIn() as program:
            for how, text in rows:
                with self.subTest(text), self.assertRaisesRegex(ValueError, text):
                    find(PATH, TRIANGLE, program=program.path, **how)
        with StandIn(4, "", "less: pair 2: NoSuchVertex\n") as program, self.assertRaises(TextRefused) as told:
            find(PATH, TRIANGLE, program=program.path)
        it = told.exception
        self.assertEqual((it.who, it.place, it.cause), ("less", ("pair", 2), "NoSuchVertex"))


@needs_program
class Answers(unittest.TestCase):
    def test_each(self) -> None:
        for what, pattern, target, kind, less, exists in ROWS:
            with self.subTest(what):
                images = find(pattern, target, map=kind, less=less)
                self.assertEqual(images is not None, exists)
                if images is not None:
                    self.assertTrue(verify(pattern, target, images, map=kind, less=less))
                    order = Graph(target).number
                    self.assertTrue(all(order[images[a]] < order[images[b]] for a, b in less))
                    self.assertIn("<svg", draw(pattern, target, images))

    def test_proofs(self) -> None:
        for what, pattern, target, kind, less, exists in ROWS:
            if exists:
                continue
            for threads in (1, 4):
                with self.subTest(what, threads=threads), tempfile.TemporaryDirectory() as folder:
                    proof = find(pattern, target, map=kind, less=less, prove=folder, threads=threads)
                    self.assertIsInstance(proof, Proof)
                    self.assertEqual(check(proof.encoding, proof.log), "unsatisfiable")

    def test_verify(self) -> None:
        images = {"a": 0, "b": 1, "c": 0}
        rows = (
            ("injective", (), False),
            ("local", (), False),
            ("any", (), True),
            ("any", [("a", "c")], False),
            ("any", [("c", "b")], True),
        )
        for kind, less, told in rows:
            with self.subTest(kind, less=less):
                self.assertEqual(verify(PATH, EDGE, images, map=kind, less=less), told)

    def test_encode(self) -> None:
        less = ["-1 x1 +1 x4 >= 0 ;", "-1 x2 >= 0 ;", "-1 x3 >= 0 ;", "+1 x1 -1 x4 >= 0 ;"]
        rows = (
            (EDGE, LOOP, {"map": "any"}, (2, 6), ["-1 x1 +1 x2 >= 0 ;", "+1 x1 -1 x2 >= 0 ;"]),
            (EDGE, EDGE, {"less": EDGE}, (4, 14), less),
            (PATH, EDGE, {"map": "local"}, (6, 16), ["+1 x4 -1 x5 >= 0 ;", "+1 x3 -1 x6 >= 0 ;"]),
        )
        with tempfile.TemporaryDirectory() as folder:
            path = os.path.join(folder, "it.opb")
            for pattern, target, how, sizes, last in rows:
                with self.subTest(how):
                    self.assertEqual(encode(pattern, target, path, **how), sizes)
                    with open(path, encoding="ascii") as file:
                        lines = file.read().splitlines()
                    self.assertEqual(lines[-len(last) :], last)

    def test_command(self) -> None:
        with tempfile.TemporaryDirectory() as folder:
            texts = {"path.edges": "a b\nb c\n", "edge.edges": "x y\n", "answer.txt": "a -> x\nb -> y\nc -> x\n"}
            for name, text in texts.items():
                with open(os.path.join(folder, name), "w", encoding="utf-8") as file:
                    file.write(text)
            rows = (
                ("find", "", 1, "none\n"),
                ("find", "--map any --less a b", 0, "yes\na -> x\nb -> y\nc -> x\n"),
                ("find", "--map any --less a b --less b c", 1, "none\n"),
                ("verify answer.txt", "--map any", 0, "embedding\n"),
                ("verify answer.txt", "--map local", 7, "not an embedding\n"),
            )
            for command, options, status, out in rows:
                name, *mapping = command.split()
                words = [name, "path.edges", "edge.edges", *mapping, *options.split()]
                with self.subTest(words):
                    self.assertEqual(ask(*words, cwd=folder)[:2], (status, out))


if __name__ == "__main__":
    unittest.main()
