"""What each status of the program becomes, by a stand-in that ends with it."""
import os
import signal
import subprocess
import sys
import tempfile
import time
import unittest

import subgraph_solver as solver

from .asked import PATH, TRIANGLE, StandIn

PACKAGE = os.path.dirname(os.path.dirname(os.path.abspath(solver.__file__)))


class Statuses(unittest.TestCase):
    def test_each(self) -> None:
        rows = (
            (2, "unknown\n", "", solver.Undecided, "undecided: 5 fails"),
            (3, "", "words: not a command\n", solver.NotACommand, "words: not a command: solve --budget 5"),
            (4, "", "pattern: word 3: NoSuchVertex\n", solver.TextRefused, "pattern: word 3: NoSuchVertex"),
            (4, "", "target: too long\n", solver.TextRefused, "target: too long"),
            (5, "", "files: fault\n", solver.Fault, "files: fault"),
            (6, "", "memory: refused\n", solver.OutOfMemory, "memory: refused"),
            (0, "", "", solver.ProgramFailed, "ended with status 0"),
            (1, "yes\n", "", solver.ProgramFailed, "ended with status 1"),
            (99, "", "odd\n", solver.ProgramFailed, "ended with status 99: odd"),
        )
        for status, out, error, kind, text in rows:
            with self.subTest(status=status, error=error), StandIn(status, out, error) as program:
                with self.assertRaises(kind) as told:
                    solver.find(PATH, TRIANGLE, budget=5, program=program.path)
                self.assertIn(text, str(told.exception))
                self.assertEqual(told.exception.status, status)
                self.assertEqual(told.exception.line, error.strip() if status != 2 else "")

    def test_kinds(self) -> None:
        self.assertTrue(issubclass(solver.OutOfMemory, MemoryError))
        self.assertTrue(issubclass(solver.Fault, OSError))
        self.assertTrue(issubclass(solver.TextRefused, ValueError))
        for kind in (solver.Undecided, solver.LogRefused, solver.ProgramMissing, solver.NotAvailable):
            self.assertTrue(issubclass(kind, solver.SubgraphError))

    def test_options_that_are_not_there_yet(self) -> None:
        with StandIn(3, "", "words: not a command\n") as program:
            with self.assertRaisesRegex(solver.NotACommand, "may not know --threads or --prove"):
                solver.find(PATH, TRIANGLE, threads=2, prove=True, program=program.path)

    def test_words(self) -> None:
        with StandIn(1, "none\n") as program:
            how = {"seed": 7, "budget": 9, "threads": 3, "induced": True, "node_label": lambda *_: "x"}
            self.assertIsNone(solver.find(PATH, TRIANGLE, program=program.path, **how))
            self.assertIsNone(solver.find(PATH, TRIANGLE, program=program.path))
            first, second = program.words()
        options = "solve --budget 9 --seed 7 --threads 3 --book 1048576 --induced --format vertexlabelledlad"
        self.assertEqual(first[:-2], options.split())
        self.assertEqual(second[:-2], ["solve"])

    def test_book(self) -> None:
        rows = (
            ({}, []),
            ({"threads": 1}, ["--threads", "1"]),
            ({"threads": 2}, ["--threads", "2", "--book", "1048576"]),
            ({"threads": 64, "book": 0}, ["--threads", "64", "--book", "0"]),
            ({"book": 70000}, ["--book", "70000"]),
            ({"threads": 1, "book": 4194304}, ["--threads", "1", "--book", "4194304"]),
        )
        for how, options in rows:
            with self.subTest(how), StandIn(1, "none\n") as program:
                self.assertIsNone(solver.find(PATH, TRIANGLE, program=program.path, **how))
                self.assertEqual(program.words()[0][:-2], ["solve", *options])

    def test_formats(self) -> None:
        def same(*_: object) -> str:
            return "x"

        directed = solver.Graph(PATH, directed=True)
        rows = (
            (PATH, {}, "lad"),
            (PATH, {"node_label": same}, "vertexlabelledlad"),
            (PATH, {"edge_label": same}, "labelledlad"),
            (PATH, {"node_label": same, "edge_label": same}, "labelledlad"),
            (directed, {}, "directedlad"),
            (solver.Graph(PATH, (), dict.fromkeys("abc", 1), True), {}, "labelledlad"),
            (solver.Graph(PATH, (), None, True, dict.fromkeys(PATH, 1)), {}, "labelledlad"),
        )
        for graph, how, kind in rows:
            with self.subTest(kind, labels=list(how)), StandIn(1, "none\n") as program:
                self.assertIsNone(solver.find(graph, graph, program=program.path, **how))
                options = [] if kind == "lad" else ["--format", kind]
                self.assertEqual(program.words()[0][:-2], ["solve", *options])

    def test_proof(self) -> None:
        body = (
            "import sys\n"
            "words = sys.argv[1:]\n"
            "if words[0] == 'check':\n"
            "    print('accepted', 'unsatisfiable' if open(words[2]).read() == 'log' else 'undecided'); sys.exit(0)\n"
            "for option, text in (('--prove', 'encoding'), ('--log', 'log')):\n"
            "    open(words[words.index(option) + 1], 'w').write(text)\n"
            "print('none'); sys.exit(1)\n"
        )
        with StandIn(body=body) as program, tempfile.TemporaryDirectory() as folder:
            proof = solver.find(PATH, TRIANGLE, prove=folder, program=program.path)
            self.assertEqual([it.read_text() for it in (proof.encoding, proof.log)], ["encoding", "log"])
            self.assertFalse(proof)
            kept = solver.find(PATH, TRIANGLE, prove=True, program=program.path)
            self.assertEqual(kept.log.read_text(), "log")
            for it in (kept.encoding, kept.log):
                os.remove(it)
            os.rmdir(kept.log.parent)
        with StandIn(body=body.replace("== 'log'", "== ''")) as program:
            with self.assertRaisesRegex(solver.SubgraphError, "accepted undecided"):
                solver.find(PATH, TRIANGLE, prove=True, program=program.path)

    def test_missing(self) -> None:
        with self.assertRaisesRegex(solver.ProgramMissing, "builds it"):
            solver.find(PATH, TRIANGLE, program="no/such/program")


class Interrupts(unittest.TestCase):
    def test_the_program_ends_too(self) -> None:
        body = "import os, time\nopen({notes!r}, 'w').write(str(os.getpid()))\ntime.sleep(300)\n"
        with StandIn(body=body) as program:
            words = f"import subgraph_solver as s; s.find([(0, 1)], [(0, 1)], program={program.path!r})"
            asking = subprocess.Popen([sys.executable, "-c", words], stderr=subprocess.DEVNULL, cwd=PACKAGE)
            number = self._number(program.notes)
            asking.send_signal(signal.SIGINT)
            self.assertNotEqual(asking.wait(60), 0)
            with self.assertRaises(ProcessLookupError):
                os.kill(number, 0)

    def _number(self, path: str) -> int:
        started = time.monotonic()
        while time.monotonic() < started + 60:  # a busy machine is slow to start a program
            if os.path.exists(path) and os.path.getsize(path):
                with open(path, encoding="ascii") as file:
                    return int(file.read())
            time.sleep(0.05)
        self.fail("the stand-in did not start")


class Slices(unittest.TestCase):
    def test_budgets_double(self) -> None:
        told = []
        with StandIn(2, "unknown\n") as program:
            with self.assertRaises(solver.Undecided) as ended:
                solver.find(PATH, TRIANGLE, budget=20000, progress=told.append, program=program.path)
            budgets = [int(words[words.index("--budget") + 1]) for words in program.words()]
        self.assertEqual(budgets, [4096, 8192, 16384, 20000])
        self.assertEqual(ended.exception.slices, budgets)
        self.assertEqual(ended.exception.spent, 20000)
        self.assertEqual([it.spent for it in told if it.ended], [tuple(budgets[:i]) for i in (1, 2, 3, 4)])

    def test_it_is_told_while_it_goes_on(self) -> None:
        told = []
        body = "import time\ntime.sleep(1.3)\nprint('none')\nraise SystemExit(1)\n"
        with StandIn(body=body) as program:
            self.assertIsNone(solver.find(PATH, TRIANGLE, progress=told.append, program=program.path))
        self.assertGreaterEqual(len(told), 2)
        self.assertFalse(any(it.ended for it in told))
        self.assertLess(told[0].seconds, told[-1].seconds)


if __name__ == "__main__":
    unittest.main()
