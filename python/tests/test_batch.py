"""Many questions in one run, and trimmed logs: by stand-ins, and by the program where it knows these commands."""
import os
import tempfile
import unittest

import subgraph_solver as solver
from subgraph_solver import Graph, Unknown, batch, check, find, trim, verify
from subgraph_solver.program import find_program, run

from .asked import CYCLE, PATH, TRIANGLE, StandIn, needs_program

#: A program that answers each line of its list by `none`, and notes its words and the list with the graphs that it names.
NOTES = """import sys
lines = [line.split() for line in open(sys.argv[-1])]
with open({notes!r}, "a") as notes:
    notes.write(" ".join(sys.argv[1:]) + "\\n")
    for words in lines:
        notes.write(" ".join(words) + "\\n")
        notes.write("".join(open(it).read().replace("\\n", "|") + "\\n" for it in words[:2]))
for number, _ in enumerate(lines, 1):
    print(f"{number}: none")
"""


def knows(command: str) -> bool:
    """Does this build of the program know the command? With empty files it ends with another status than 3."""
    try:
        with tempfile.TemporaryDirectory() as folder:
            path = os.path.join(folder, "empty")
            open(path, "w", encoding="ascii").close()
            words = {"batch": [path], "trim": [path, path, os.path.join(folder, "out")]}[command]
            return run(find_program(), [command, *words])[0] != 3
    except solver.ProgramMissing:
        return False


class BatchWords(unittest.TestCase):
    """What the program gets, and what becomes of what it says."""

    def test_graphs_of_one_kind_in_one_run(self) -> None:
        with StandIn(body=NOTES) as program:
            how = {"threads": 4, "seed": 7, "budget": 9, "book": 5}
            told = list(batch([(PATH, TRIANGLE), (TRIANGLE, TRIANGLE, True)], program=program.path, **how))
            self.assertEqual(told, [None, None])
            words, *lines = program.words()
        self.assertEqual(words, "batch --budget 9 --seed 7 --threads 4 --book 5 list".split())
        jobs = [line for line in lines if line[0].endswith(".lad")]
        self.assertEqual(jobs, [["0.lad", "1.lad"], ["1.lad", "1.lad", "induced"]])
        self.assertEqual(lines[1:3], [["3|1", "1|2", "0", "2|1", "1|"], ["3|2", "1", "2|2", "0", "2|2", "0", "1|"]])

    def test_each_kind_has_a_run(self) -> None:
        labelled, directed = Graph([(0, 1)], labels={0: "C", 1: "O"}), Graph([(0, 1)], directed=True)
        oxygen = Graph(vertices=[0], labels={0: "O"})
        with StandIn(body=NOTES) as program:
            told = list(batch([(PATH, TRIANGLE), (directed, directed), (oxygen, labelled), (PATH, CYCLE)], program=program.path))
            self.assertEqual(told, [None] * 4)
            lines = program.words()
        runs = [line[1:] for line in lines if line[0] == "batch"]
        self.assertEqual(runs, [["list"], ["--format", "directedlad", "list"], ["--format", "vertexlabelledlad", "list"]])
        self.assertIn(["1|0", "0|"], lines)
        self.assertIn(["2|1", "1", "1|0", "1", "0|"], lines)

    def test_a_thousand_a_run(self) -> None:
        with StandIn(body=NOTES) as program:
            self.assertEqual(list(batch([(PATH, TRIANGLE)] * 2001, piece=1000, program=program.path)), [None] * 2001)
            lines = program.words()
        runs = [at for at, line in enumerate(lines) if line[0] == "batch"]
        self.assertEqual([(b - a - 1) // 3 for a, b in zip(runs, [*runs[1:], len(lines)])], [1000, 1000, 1])

    def test_large_graphs_in_several_runs(self) -> None:
        large = Graph(vertices=range(8000))
        with tempfile.TemporaryDirectory() as folder, StandIn(body=NOTES) as program:
            path = os.path.join(folder, "large")
            with open(path, "w", encoding="ascii") as file:
                file.write("8000 " + "0 " * 8000)
            for pattern, target in ((Graph(vertices=[0]), large), (os.devnull, path)):
                with self.subTest(target=target):
                    self.assertEqual(list(batch([(pattern, target)] * 300, piece=1000, program=program.path)), [None] * 300)
            lines = [line for line in program.words() if line and (line[0] == "batch" or line[0].endswith(".lad"))]
        runs = [at for at, line in enumerate(lines) if line[0] == "batch"]
        self.assertEqual([b - a - 1 for a, b in zip(runs, [*runs[1:], len(lines)])], [135, 135, 30] * 2)

    def test_files(self) -> None:
        with tempfile.TemporaryDirectory() as folder, StandIn(body=NOTES) as program:
            paths = [os.path.join(folder, name) for name in ("a pattern", "target")]
            for path, size in zip(paths, "12"):
                with open(path, "w", encoding="ascii") as file:
                    file.write(size)
            self.assertEqual(list(batch([tuple(paths)], format="labelledlad", program=program.path)), [None])
            self.assertEqual(program.words()[0], ["batch", "--format", "labelledlad", "list"])
            self.assertEqual(program.words()[2:], [["1"], ["2"]])
            with self.assertRaisesRegex(ValueError, "question 2 has a file and a graph"):
                list(batch([(PATH, TRIANGLE), (paths[0], TRIANGLE)], program=program.path))

    def test_lists(self) -> None:
        rows = (
            (b"", []),
            (b"p t\np t induced", [["p", "t"], ["p", "t", "induced"]]),
            (b"p  t\n", "list: line 1: Form"),
            (b"p t\n\n", "list: line 2: Form"),
            (b"p t all\n", "list: line 1: Form"),
            (b"p t\r\n", "list: line 1: Form"),
            (b"p\n", "list: line 1: Form"),
        )
        with tempfile.TemporaryDirectory() as folder, StandIn(body=NOTES) as program:
            before = os.getcwd()
            self.addCleanup(os.chdir, before)
            os.chdir(folder)
            for name in ("p", "t"):
                open(name, "w", encoding="ascii").close()
            for text, wanted in rows:
                with self.subTest(text), open("jobs", "wb") as file:
                    file.write(text)
                    file.flush()
                    if isinstance(wanted, list):
                        self.assertEqual(list(batch("jobs", program=program.path)), [None] * len(wanted))
                        continue
                    with self.assertRaises(solver.TextRefused) as told:
                        list(batch("jobs", program=program.path))
                    self.assertEqual(told.exception.line, wanted)
            os.chdir(before)

    def test_answers(self) -> None:
        out = "1: yes 2 1 0\n2: unknown\n3: none\n"
        with StandIn(2, out) as program:
            other = [("x", "y"), ("y", "z")]
            told = list(batch([(PATH, other), (TRIANGLE, CYCLE), (TRIANGLE, CYCLE)], budget=3, program=program.path))
        self.assertEqual(told, [{"a": "z", "b": "y", "c": "x"}, Unknown(3), None])
        self.assertFalse(told[1])
        rows = ((0, "1: none\n"), (0, "2: none\n1: none\n"), (0, "1: none\n2: perhaps\n"), (1, "1: none\n2: none\n"))
        for status, wrong in rows:
            with self.subTest(wrong), StandIn(status, wrong) as program, self.assertRaises(solver.ProgramFailed):
                list(batch([(PATH, PATH)] * 2, program=program.path))

    def test_refused(self) -> None:
        directed = Graph([(0, 1)], directed=True)
        with StandIn(4, "", "job 2 target: word 3: NoSuchVertex\n") as program:
            with self.assertRaises(solver.TextRefused) as told:
                list(batch([(directed, directed), (PATH, PATH), (directed, directed)], program=program.path))
        it = told.exception
        self.assertEqual((it.job, it.who, it.place, it.cause), (3, "target", ("word", 3), "NoSuchVertex"))
        with StandIn(3, "", "words: not a command\n") as program:
            with self.assertRaisesRegex(solver.NotACommand, "may not know batch"):
                list(batch([(PATH, PATH)], program=program.path))
        with StandIn() as program:
            self.assertEqual(list(batch([], program=program.path)), [])
            for pattern, target, text in ((directed, PATH, "is directed"), (PATH, Graph(labels={}), "has no labels")):
                with self.subTest(text), self.assertRaisesRegex(ValueError, text):
                    list(batch([(pattern, target)], program=program.path))


class TrimWords(unittest.TestCase):
    def test_each(self) -> None:
        with StandIn(0, "kept 3 of 14\n") as program:
            self.assertEqual(trim("e.opb", "l.proof", "o.proof", program=program.path), (3, 14))
            self.assertEqual(program.words(), [["trim", "e.opb", "l.proof", "o.proof"]])
        rows = (
            (0, "", "", solver.ProgramFailed),
            (3, "", "words: not a command\n", solver.NotACommand),
            (4, "", "encoding: line 1: Header\n", solver.TextRefused),
            (5, "", "files: fault\n", solver.Fault),
            (7, "", "log: line 5: NoSuchName\n", solver.LogRefused),
        )
        for status, out, error, kind in rows:
            with self.subTest(status), StandIn(status, out, error) as program, self.assertRaises(kind):
                trim("e.opb", "l.proof", "o.proof", program=program.path)


@needs_program
@unittest.skipUnless(knows("batch"), "this build of the program does not know batch")
class Batch(unittest.TestCase):
    def test_as_alone(self) -> None:
        questions = [(PATH, TRIANGLE), (PATH, TRIANGLE, True), (TRIANGLE, CYCLE), ([], []), (Graph(vertices="a"), [(1, 1)], True)]
        for threads in (None, 1, 4):
            told = list(batch(questions, threads=threads))
            for (pattern, target, *how), images in zip(questions, told):
                with self.subTest(pattern=pattern, threads=threads):
                    self.assertEqual(images is None, find(pattern, target, *how) is None)
                    if isinstance(images, dict):
                        self.assertTrue(verify(pattern, target, images, *how))

    def test_labels(self) -> None:
        oxygen = Graph(vertices=["o"], labels={"o": "O"})
        target = Graph([(1, 2), (2, 3)], labels={1: "C", 2: "C", 3: "O"})
        other = Graph([(1, 2)], labels={1: "C", 2: "N"})
        self.assertEqual(list(batch([(oxygen, target), (TRIANGLE, CYCLE), (oxygen, other)])), [{"o": 3}, None, None])

    def test_budget(self) -> None:
        self.assertEqual(list(batch([(TRIANGLE, CYCLE)], budget=3)), [Unknown(3)])
        self.assertEqual(list(batch([(TRIANGLE, CYCLE)], budget=4)), [None])

    def test_files(self) -> None:
        with tempfile.TemporaryDirectory() as folder:
            texts = {"a path.lad": "3 1 1 1 2 0", "edge.lad": "2 1 1 0", "odd.lad": "2 / 0"}
            for name, text in texts.items():
                with open(os.path.join(folder, name), "w", encoding="ascii") as file:
                    file.write(text)
            path, edge, odd = (os.path.join(folder, name) for name in texts)
            (images,) = list(batch([(edge, path)]))
            self.assertEqual(set(images), {0, 1})
            with self.assertRaises(solver.TextRefused) as told:
                list(batch([(edge, path), (edge, odd)]))
            self.assertEqual((told.exception.job, told.exception.who, told.exception.cause), (2, "target", "NotNumber"))
            with self.assertRaises(solver.Fault):
                list(batch([(edge, os.path.join(folder, "none"))]))


@needs_program
@unittest.skipUnless(knows("trim"), "this build of the program does not know trim")
class Trim(unittest.TestCase):
    def test_a_proof(self) -> None:
        with tempfile.TemporaryDirectory() as folder:
            proof = find(TRIANGLE, CYCLE, prove=folder, threads=2)
            out = os.path.join(folder, "trimmed.log")
            kept, made = trim(proof.encoding, proof.log, out)
            self.assertTrue(0 < kept <= made)
            self.assertEqual(check(proof.encoding, out), "unsatisfiable")
            self.assertEqual(trim(proof.encoding, out, os.path.join(folder, "again.log")), (kept, kept))
            with open(proof.log, "a", encoding="ascii") as file:
                file.write("q\n")
            with self.assertRaises(solver.LogRefused):
                trim(proof.encoding, proof.log, out)


if __name__ == "__main__":
    unittest.main()
