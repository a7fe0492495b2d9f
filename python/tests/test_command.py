"""The quick command, as a user gives it."""
import os
import subprocess
import sys
import tempfile
import unittest

from .asked import needs, needs_program

HERE = os.path.dirname(os.path.dirname(os.path.abspath(__file__)))


def ask(*words: str, cwd: str) -> "tuple":
    """The status and the two streams of a command."""
    environment = {**os.environ, "PYTHONPATH": HERE}
    whole = [sys.executable, "-m", "subgraph_solver", *words]
    done = subprocess.run(whole, cwd=cwd, env=environment, capture_output=True, text=True, timeout=60)
    return done.returncode, done.stdout, done.stderr


@needs_program
class Command(unittest.TestCase):
    def setUp(self) -> None:
        folder = tempfile.TemporaryDirectory()
        self.addCleanup(folder.cleanup)
        self.folder = folder.name
        self.write("path.edges", "a b\nb c\n")
        self.write("triangle.edges", "x y\ny z\nz x\n")
        self.write("cycle.lad", "4\n2 1 3\n2 0 2\n2 1 3\n2 0 2\n")

    def write(self, name: str, text: str) -> None:
        with open(os.path.join(self.folder, name), "w", encoding="utf-8") as file:
            file.write(text)

    def test_find(self) -> None:
        status, out, error = ask("find", "path.edges", "triangle.edges", "--draw", "it.svg", cwd=self.folder)
        self.assertEqual((status, error), (0, ""))
        self.assertEqual(out.splitlines()[0], "yes")
        self.assertEqual({line.split(" -> ")[1] for line in out.splitlines()[1:]}, {"x", "y", "z"})
        self.assertTrue(os.path.getsize(os.path.join(self.folder, "it.svg")) > 500)
        self.assertEqual(ask("find", "path.edges", "triangle.edges", "--induced", cwd=self.folder)[:2], (1, "none\n"))
        shared = ask("find", "triangle.edges", "cycle.lad", "--threads", "2", "--book", "0", cwd=self.folder)
        self.assertEqual(shared, (1, "none\n", ""))
        spent = ask("find", "triangle.edges", "cycle.lad", "--budget", "3", cwd=self.folder)
        self.assertEqual(spent[:2], (2, "unknown\n"))

    def test_directions(self) -> None:
        self.write("ring.edges", "a b\nb c\nc a\n")
        self.write("turned.edges", "x y\ny z\nx z\n")
        rows = (((), (0, "yes")), (("--directed",), (1, "none")))
        for options, told in rows:
            status, out, error = ask("find", "ring.edges", "turned.edges", *options, cwd=self.folder)
            self.assertEqual((status, out.splitlines()[0], error), (*told, ""))
        status, _, error = ask("find", "path.edges", "cycle.lad", "--directed", cwd=self.folder)
        self.assertEqual(status, 3)
        self.assertIn("the pattern is directed, and the target is undirected", error)

    @needs("networkx")
    def test_labels_of_edges(self) -> None:
        head = 'graph [ {} node [ id 0 label "a" ] node [ id 1 label "b" ] node [ id 2 label "c" ] '
        edge = 'edge [ source {} target {} kind "{}" ] '
        for name, first in (("plain", ""), ("directed", "directed 1")):
            self.write(f"{name}.gml", head.format(first) + edge.format(0, 1, "x") + edge.format(1, 2, "y") + "]")
            self.write(f"{name}_part.gml", head.format(first) + edge.format(2, 1, "y") + "]")
            graphs = (f"{name}_part.gml", f"{name}.gml")
            status, out, error = ask("find", *graphs, "--edge-label", "kind", "--draw", "it.svg", cwd=self.folder)
            self.assertEqual((status, error), (0, ""))
            self.assertEqual(out.splitlines()[:2], ["yes", "a -> a"])
        self.assertEqual(out.splitlines()[2:], ["b -> c", "c -> b"])
        self.assertEqual(ask("encode", *graphs, "it.opb", "--edge-label", "kind", cwd=self.folder)[0], 0)
        status, _, error = ask("find", *graphs, "--edge-label", "size", cwd=self.folder)
        self.assertIn("has no attribute 'size'", error)

    def test_verify_encode_draw(self) -> None:
        self.write("good.txt", "yes\na -> z\nb -> x\nc -> y\n")
        self.write("bad.txt", "a -> z\nb -> x\nc -> x\n")
        graphs = ("path.edges", "triangle.edges")
        self.assertEqual(ask("verify", *graphs, "good.txt", cwd=self.folder)[:2], (0, "embedding\n"))
        self.assertEqual(ask("verify", *graphs, "bad.txt", cwd=self.folder)[:2], (7, "not an embedding\n"))
        self.assertEqual(ask("encode", *graphs, "it.opb", cwd=self.folder)[:2], (0, "9 variables, 21 constraints\n"))
        self.assertEqual(ask("draw", *graphs, "it.svg", cwd=self.folder)[0], 0)
        self.write("it.log", "embedding proof 1\nm 21\ny x3 x4 x8\n")
        self.assertEqual(ask("check", "it.opb", "it.log", cwd=self.folder)[:2], (0, "accepted satisfiable\n"))

    def test_batch(self) -> None:
        self.write("triangle.lad", "3 2 1 2 2 0 2 2 0 1")
        self.write("odd.lad", "2 / 0")
        self.write("list", "cycle.lad cycle.lad induced\ntriangle.lad cycle.lad\n")
        status, out, error = ask("batch", "list", cwd=self.folder)
        self.assertEqual((status, error, out.splitlines()[1]), (0, "", "2: none"))
        self.assertRegex(out, r"^1: yes( [0-3]){4}\n")
        self.assertEqual(ask("batch", "list", "--budget", "3", cwd=self.folder)[0], 2)
        self.assertEqual(ask("batch", "list", "--prove", "proofs", "--as-done", cwd=self.folder)[0], 0)
        self.assertEqual(sorted(os.listdir(os.path.join(self.folder, "proofs"))), ["2.opb", "2.proof"])
        self.write("list", "triangle.lad odd.lad\ntriangle.lad cycle.lad\n")
        self.assertEqual(ask("batch", "list", cwd=self.folder)[0], 4)
        told = ask("batch", "list", "--errors", "answer", cwd=self.folder)
        self.assertEqual(told, (8, "1: failed: job 1 target: word 2: NotNumber\n2: none\n", ""))

    def test_faults(self) -> None:
        status, out, error = ask("find", "no.edges", "triangle.edges", cwd=self.folder)
        self.assertEqual((status, out), (3, ""))
        self.assertIn("no.edges", error)
        self.assertIn("no kind of graph", ask("find", "a.odd", "b.odd", cwd=self.folder)[2])

    @needs("rdkit")
    def test_molecules(self) -> None:
        status, out, _ = ask("find", "smiles:NC=O", "smiles:CN1C=NC2=C1C(=O)N(C(=O)N2C)C", cwd=self.folder)
        self.assertEqual((status, out.splitlines()[0]), (0, "yes"))
        words = ("find", "smiles:C[O-]", "smiles:CCO")
        self.assertEqual(ask(*words, cwd=self.folder)[1].splitlines()[0], "yes")
        self.assertEqual(ask(*words, "--label", "element", "--label", "charge", cwd=self.folder)[1], "none\n")


if __name__ == "__main__":
    unittest.main()
