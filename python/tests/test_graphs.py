"""Graphs, their texts and files; no program and no library is asked."""
import copy
import os
import tempfile
import unittest
from unittest import mock

from subgraph_solver import Graph, as_graph, draw, prepare, read_graph
from subgraph_solver import prepared as prepared_module
from subgraph_solver.graph import edge_label_numbers, label_numbers, lad_text, read_lad
from subgraph_solver.layout import layout, turned_like

from .asked import CYCLE, PATH, TRIANGLE


class Graphs(unittest.TestCase):
    def test_text(self) -> None:
        self.assertEqual(lad_text(Graph(CYCLE)), "4\n2 1 3\n2 0 2\n2 1 3\n2 0 2\n")
        self.assertEqual(lad_text(Graph([("a", "b"), ("b", "a"), ("b", "b")], "c")), "3\n0\n1 2\n2 1 2\n")
        labelled = Graph([("a", "b")], labels={"a": 8, "b": 6})
        self.assertEqual(lad_text(labelled, {8: 8, 6: 6}), "2\n8 1 1\n6 1 0\n")

    def test_read(self) -> None:
        for graph in (Graph(CYCLE), Graph(), Graph([(0, 0)], range(3))):
            self.assertEqual(read_lad(lad_text(graph)).neighbours, graph.neighbours)
        labelled = read_lad("2 7 1 1 9 0", True)
        self.assertEqual((labelled.labels, labelled.edges()), ([7, 9], [(0, 1)]))
        for text in ("", "2 1", "1 1 5"):
            with self.assertRaises(ValueError):
                read_lad(text)

    def test_directions_and_labels_of_edges(self) -> None:
        pairs, names = [("a", "b"), ("b", "a"), ("b", "c"), ("c", "c")], {"a": 4, "b": 5, "c": 4}
        kinds, either = dict(zip(pairs, (7, 8, 7, 9))), {("b", "a"): 7, ("b", "c"): 8, ("c", "c"): 9}
        same = {it: it for it in range(10)}
        rows = (
            ("directed", Graph(pairs, directed=True), (), "3\n1 1\n2 0 2\n1 2\n"),
            ("and vertices labelled", Graph(pairs, (), names, True), (same,), "3\n4 1 1 0\n5 2 0 0 2 0\n4 1 2 0\n"),
            ("and edges", Graph(pairs, (), names, True, kinds), (same, same), "3\n4 1 1 7\n5 2 0 8 2 7\n4 1 2 9\n"),
            ("edges alone", Graph(pairs, (), None, True, kinds), (None, same), "3\n0 1 1 7\n0 2 0 8 2 7\n0 1 2 9\n"),
            ("undirected", Graph(pairs, edge_labels=either), (None, same), "3\n0 1 1 7\n0 2 0 7 2 8\n0 2 1 8 2 9\n"),
        )
        for what, graph, numbers, text in rows:
            with self.subTest(what):
                self.assertEqual(lad_text(graph, *numbers), text)
                again = read_lad(text, bool(numbers), True, bool(numbers))
                self.assertEqual(again.neighbours, graph.neighbours)
                if len(numbers) == 2:
                    labels = {(a, b): graph.edge_label(a, b) for a, b in again.edges()}
                    self.assertEqual(again.edge_labels, labels)
        self.assertEqual(repr(rows[2][1]), "<Graph of 3 vertices and 4 directed edges, labelled>")
        with self.assertRaisesRegex(ValueError, "two labels for the edge from 0 to 1"):
            read_lad("2 0 2 1 5 1 6 0 0", True, True, True)

    def test_edge_label_numbers(self) -> None:
        def of(*labels: object) -> Graph:
            edges = [(0, number) for number in range(len(labels))]
            return Graph(edges, edge_labels=dict(zip(edges, labels)))

        self.assertIsNone(edge_label_numbers(Graph(TRIANGLE), Graph()))
        self.assertEqual(edge_label_numbers(of(2, 1), of(3)), {2: 2, 1: 1, 3: 3})
        self.assertEqual(edge_label_numbers(of(1.0, 1.5), of(2.0, 1.0)), {1.0: 0, 1.5: 1, 2.0: 2})
        with self.assertRaisesRegex(ValueError, "the target has no labels of edges"):
            edge_label_numbers(of(1), Graph(TRIANGLE))

    def test_label_numbers(self) -> None:
        def of(*labels: object) -> Graph:
            return Graph(vertices=range(len(labels)), labels=dict(enumerate(labels)))

        self.assertIsNone(label_numbers(Graph(), Graph()))
        self.assertEqual(label_numbers(of(6, 8), of(6, 7)), {6: 6, 8: 8, 7: 7})
        self.assertEqual(label_numbers(of("C", "O"), of("O", "N")), {"C": 0, "O": 1, "N": 2})
        self.assertEqual(label_numbers(of(-1), of(4)), {-1: 0, 4: 1})
        self.assertEqual(label_numbers(of(True), of(False)), {True: 0, False: 1})

    def test_text_of_a_pattern(self) -> None:
        """It is written once, and anew where the pattern or the numbers of its labels are others."""
        edges = {(0, 1): "s", (1, 2): "t"}
        pattern = Graph(edges, range(3), dict(enumerate("xyx")), edge_labels=edges)
        targets = [prepare(Graph(edges, range(3), dict(enumerate(it)), edge_labels=edges)) for it in ("xyz", "xyx", "yxx", "zzy")]
        # Whether the text is another one for the first target.
        changes = (
            (lambda: None, False),
            (lambda: pattern.labels.__setitem__(2, "w"), True),
            (lambda: pattern.edge_labels.__setitem__((0, 1), "t"), True),
            (lambda: [pattern.neighbours[it].discard(1 - it) for it in (0, 1)], True),
            (lambda: pattern.names.__setitem__(0, "name"), False),
        )
        for change, other in changes:
            before = targets[0].text_of(pattern)
            change()
            self.assertEqual(targets[0].text_of(pattern) != before, other)
            for target in targets:
                fresh = copy.copy(pattern)
                fresh.written = None
                self.assertEqual(target.text_of(pattern), target.text_of(fresh))
        # Both targets have the same numbers for these labels.
        pattern.labels[2] = "x"
        targets[0].text_of(pattern)
        with mock.patch.object(prepared_module, "lad_text", side_effect=AssertionError("it is written again")):
            for target in targets[:2]:
                target.text_of(pattern)

    def test_faults(self) -> None:
        with self.assertRaisesRegex(ValueError, "'b' has no label"):
            Graph([("a", "b")], labels={"a": 1})
        with self.assertRaisesRegex(ValueError, r"\('a', 'b'\) has no label"):
            Graph([("a", "b")], directed=True, edge_labels={("b", "a"): 1})
        with self.assertRaisesRegex(ValueError, r"\('a', 'b'\) has two labels"):
            Graph([("a", "b")], edge_labels={("a", "b"): 1, ("b", "a"): 2})
        with self.assertRaisesRegex(ValueError, "no attributes"):
            as_graph(PATH, "colour")
        with self.assertRaisesRegex(ValueError, "no attributes"):
            as_graph(PATH, edge_label="colour")
        with self.assertRaises(TypeError):
            as_graph("0 1")

    def test_files(self) -> None:
        with tempfile.TemporaryDirectory() as folder:
            path = os.path.join(folder, "g.edges")
            with open(path, "w", encoding="utf-8") as file:
                file.write("a b # first\n\nb c\nd\n")
            graph = read_graph(path)
            self.assertEqual((graph.names, graph.edges()), (["a", "b", "c", "d"], [(0, 1), (1, 2)]))
            self.assertEqual(read_graph(path, directed=True).neighbours, [{1}, {2}, set(), set()])
            with self.assertRaisesRegex(ValueError, "no kind of graph"):
                read_graph(os.path.join(folder, "g.odd"))
            with open(path, "w", encoding="utf-8") as file:
                file.write("a b\na b c\n")
            with self.assertRaisesRegex(ValueError, "line 2"):
                read_graph(path)
            with open(path, "w", encoding="utf-8") as file:
                file.write("2\n1 1\n2 0 1\n")
            self.assertEqual(read_graph(path, "directedlad").edges(), [(0, 1), (1, 0), (1, 1)])


class Pictures(unittest.TestCase):
    def test_layout(self) -> None:
        graph = Graph(CYCLE, ["far"])
        places = layout(graph.neighbours)
        self.assertEqual(places, layout(graph.neighbours))
        around = [places[graph.number[v]] for v in range(4)]
        for (x, y), (u, v) in zip(around, around[1:] + around[:1]):
            self.assertAlmostEqual(((x - u) ** 2 + (y - v) ** 2) ** 0.5, 1.0, delta=0.4)
        self.assertEqual(layout([]), [])

    def test_turned(self) -> None:
        corner = [(0.0, 0.0), (2.0, 0.0), (2.0, 1.0)]
        mirrored = [(0.0, 0.0), (0.0, 2.0), (1.0, 2.0)]
        found = turned_like(corner, mirrored)
        for (x, y), (u, v) in zip(found, mirrored):
            self.assertAlmostEqual(x - found[0][0], u, places=6)
            self.assertAlmostEqual(y - found[0][1], v, places=6)

    def test_drawn(self) -> None:
        import xml.dom.minidom as xml

        many = [(a, (a * a + 1) % 200) for a in range(200)]
        for target, mapping in ((TRIANGLE, {"a": 0, "b": 1, "c": 2}), (TRIANGLE, None), ([], None), (many, None)):
            with self.subTest(size=len(target)), tempfile.TemporaryDirectory() as folder:
                path = os.path.join(folder, "picture.svg")
                picture = draw(PATH, target, mapping, path)
                with open(path, encoding="utf-8") as file:
                    self.assertEqual(file.read(), picture)
                circles = xml.parseString(picture).getElementsByTagName("circle")
                self.assertGreaterEqual(len(circles), 3 + len(as_graph(target)))

    def test_arrows(self) -> None:
        target = Graph([*TRIANGLE, (1, 0), (2, 2)], directed=True)
        picture = draw(Graph(PATH, directed=True), target, {"a": 0, "b": 1, "c": 2})
        self.assertEqual(picture.count("<polygon"), 2 + 4)
        self.assertNotIn("<polygon", draw(PATH, TRIANGLE))

    def test_texts_are_escaped(self) -> None:
        self.assertIn("&lt;a&amp;b&gt;", draw([("<a&b>", "c")], TRIANGLE))
        self.assertIn(">unknown</text>", draw(PATH, TRIANGLE, answer="unknown"))


if __name__ == "__main__":
    unittest.main()
