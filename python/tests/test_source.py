"""The source is of the least Python that the package states, and its types hold."""
import ast
import subprocess
import sys
import unittest
from pathlib import Path

from .asked import needs

HERE = Path(__file__).resolve().parents[1]
LEAST = (3, 9)


class Source(unittest.TestCase):
    def test_syntax(self) -> None:
        files = [*(HERE / "subgraph_solver").glob("*.py"), *(HERE / "tests").glob("*.py")]
        self.assertGreater(len(files), 20)
        for path in files:
            with self.subTest(path.name):
                ast.parse(path.read_text(encoding="utf-8"), feature_version=LEAST)

    @needs("mypy")
    def test_types(self) -> None:
        words = [sys.executable, "-m", "mypy", "--strict", "--cache-dir", "/dev/null", "subgraph_solver"]
        done = subprocess.run(words, cwd=HERE, capture_output=True, text=True)
        self.assertEqual((done.returncode, done.stderr), (0, ""), done.stdout)


if __name__ == "__main__":
    unittest.main()
