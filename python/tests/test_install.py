"""The package is installed by pip without a network, alone and as a wheel with a program inside."""
from __future__ import annotations

import os
import shutil
import subprocess
import sys
import tempfile
import unittest
from pathlib import Path
from typing import Any, Dict

import subgraph_solver

from .asked import StandIn, needs

TOP = Path(__file__).resolve().parents[2]
OFFLINE = ("--no-build-isolation", "--no-index", "--no-deps", "--quiet", "--disable-pip-version-check")
#: Prints the version, the program that is found, and an answer of it.
ASKS = """import subgraph_solver as it
from subgraph_solver.program import find_program
print(it.__version__, find_program())
print(it.find([(0, 1)], [(0, 1)]))
"""


def ran(*words: str, **environment: str) -> str:
    """The output of this Python, away from the repository."""
    kept = {name: it for name, it in os.environ.items() if not name.startswith(("PYTHON", "SUBGRAPH"))}
    whole: Dict[str, Any] = {"env": {**kept, "SUBGRAPH_LIBRARY": "", **environment}, "cwd": tempfile.gettempdir()}
    done = subprocess.run([sys.executable, *words], capture_output=True, text=True, **whole)
    if done.returncode:
        raise AssertionError(done.stdout + done.stderr)
    return done.stdout


@needs("pip")
@needs("setuptools")
@needs("wheel")
class Install(unittest.TestCase):
    def setUp(self) -> None:
        if not (TOP / "tools" / "wheel.py").is_file():
            self.skipTest("the package stands without its repository")
        folder = tempfile.TemporaryDirectory()
        self.addCleanup(folder.cleanup)
        self.folder = Path(folder.name)
        self.into = str(self.folder / "installed")

    def test_alone(self) -> None:
        """`pip install ./python`, in a copy, since pip leaves files there."""
        for name in ("VERSION", "crates.txt"):
            shutil.copy2(TOP / name, self.folder)
        kept = shutil.ignore_patterns("__pycache__", "build", "*.egg-info")
        shutil.copytree(TOP / "python", self.folder / "python", ignore=kept)
        ran("-m", "pip", "install", *OFFLINE, "--target", self.into, str(self.folder / "python"))
        with StandIn(0, "yes\n0 -> 1\n1 -> 0\n") as program:
            told = ran("-c", ASKS, PYTHONPATH=self.into, SUBGRAPH_PROGRAM=program.path)
        self.assertEqual(told, f"{subgraph_solver.__version__} {program.path}\n{{0: 1, 1: 0}}\n")

    def test_wheel(self) -> None:
        with StandIn(body="printf 'yes\\n0 -> 1\\n1 -> 0\\n'\n", by="/bin/sh") as program:
            made = ran(str(TOP / "tools" / "wheel.py"), program.path, "--to", str(self.folder)).strip()
        self.assertRegex(os.path.basename(made), r"^subgraph_solver-[\d.]+-py3-none-(many)?linux_\w+\.whl$")
        ran("-m", "pip", "install", *OFFLINE, "--target", self.into, made)
        told = ran("-c", ASKS, PYTHONPATH=self.into)
        inside = os.path.join(self.into, "subgraph_solver", "bin", "subgraph")
        self.assertEqual(told, f"{subgraph_solver.__version__} {os.path.realpath(inside)}\n{{0: 1, 1: 0}}\n")


if __name__ == "__main__":
    unittest.main()
