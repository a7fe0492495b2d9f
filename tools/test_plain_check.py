#!/usr/bin/env python3
"""Holds the plain checker and the plain trimmer against worked cases, and runs the checker once as a program; no other program is needed."""
import io
import subprocess
import sys
import tempfile
import unittest
from contextlib import redirect_stderr, redirect_stdout
from pathlib import Path
from typing import Tuple

TOOLS = Path(__file__).resolve().parent
sys.path.insert(0, str(TOOLS))

import check_cases  # noqa: E402
import plain_check  # noqa: E402
import plain_trim  # noqa: E402

FORMATS = TOOLS.parent / "examples" / "formats"


class PlainCheck(unittest.TestCase):
    def setUp(self) -> None:
        folder = tempfile.TemporaryDirectory()
        self.addCleanup(folder.cleanup)
        self.files = [Path(folder.name, name) for name in ("encoding", "log")]

    def judge(self, encoding: bytes, log: bytes) -> Tuple[str, int]:
        """What is printed, and the status."""
        for file, text in zip(self.files, (encoding, log)):
            file.write_bytes(text)
        out = io.StringIO()
        with redirect_stdout(out), redirect_stderr(out), self.assertRaises(SystemExit) as ended:
            plain_check.main([str(file) for file in self.files])
        return out.getvalue().rstrip("\n"), int(ended.exception.code or 0)

    def test_cases(self) -> None:
        for what, encoding, log, told in check_cases.cases():
            with self.subTest(what):
                self.assertEqual(self.judge(encoding, log), (told, check_cases.status_of(told)))

    def test_hints_dropped(self) -> None:
        for what, encoding, log, told in check_cases.cases():
            if told.startswith("accepted"):
                with self.subTest(what):
                    self.assertEqual(self.judge(encoding, check_cases.without_hints(log)), (told, 0))

    def test_program(self) -> None:
        command = [sys.executable, str(TOOLS / "plain_check.py"), *map(str, self.files)]
        for file, text in zip(self.files, (check_cases.MODEL, "embedding proof 1\nm 5\nu 0.1 ; 4 5 1 ;\ne 0.1\n")):
            file.write_text(text)
        done = subprocess.run(command, capture_output=True, text=True)
        self.assertEqual((done.returncode, done.stdout, done.stderr), (0, "accepted unsatisfiable\n", ""))
        self.files[1].write_text("embedding proof 1\n")
        done = subprocess.run(command, capture_output=True, text=True)
        self.assertEqual((done.returncode, done.stdout, done.stderr), (7, "", "log: line 2: EndsEarly\n"))


class PlainTrim(unittest.TestCase):
    ENCODING = b"* #variable= 1 #constraint= 2\n+1 x1 >= 1 ;\n-1 x1 >= 0 ;\n"

    def test_rows(self) -> None:
        rows = (
            ("what nothing names is left out", "p 0.1 1 2 + ;/u 0.2 x1 ; 1 ;/u 0.3 ; 1 2 ;/e 0.3", "u 0.1 ; 1 2 ;/e 0.1", 3),
            ("a name is deleted behind its last use", "p 0.1 1 2 + ;/p 0.2 0.1 2 * ;/e 0.2", "p 0.1 1 2 + ;/p 0.2 0.1 2 * ;/d 0.1/e 0.2", 2),
            ("a log that claims nothing needs nothing", "p 0.1 1 ;/q", "q", 1),
            ("a row is the name that it shares", "p 3.1 1 ;/n 7 3.1/d 3.1/u 2.1 ; #7 2 ;/e 2.1", "p 0.1 1 ;/u 0.2 ; 0.1 2 ;/d 0.1/e 0.2", 2),
            ("several by rising number", "p 5.1 2 ;/p 0.1 1 ;/p 0.2 0.1 5.1 + ;/e 0.2", "p 0.1 2 ;/p 0.2 1 ;/p 0.3 0.2 0.1 + ;/d 0.1/d 0.2/e 0.3", 3),
        )
        model = plain_check.read_encoding(self.ENCODING)
        for what, log, wanted, made in rows:
            with self.subTest(what):
                texts = [f"embedding proof 1\nm 2\n{it}\n".replace("/", "\n").encode() for it in (log, wanted)]
                kept = sum(it[:2] in ("p ", "u ") for it in wanted.split("/"))
                self.assertEqual(plain_trim.trim(model, texts[0]), (texts[1], kept, made))

    def test_cases(self) -> None:
        for what, encoding, log, told in check_cases.cases():
            if told.startswith("accepted"):
                with self.subTest(what):
                    model = plain_check.read_encoding(encoding)
                    for text in (log, check_cases.without_hints(log)):
                        out, kept, _ = plain_trim.trim(model, text)
                        self.assertEqual(f"accepted {plain_check.judge(model, out)}", told)
                        self.assertEqual(plain_trim.trim(model, out), (out, kept, kept))


if __name__ == "__main__":
    unittest.main()
