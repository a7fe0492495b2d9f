#!/usr/bin/env python3
"""Makes a wheel of the Python package with the program inside, and the library if it is built; `make wheel` calls it.

    tools/wheel.py PROGRAM [LIBRARY] [--to FOLDER]

The package is copied into a folder of its own and built there by pip and setuptools of this Python, without a network. The wheel's
tag is that of the oldest glibc which program and library run with, as `readelf` tells it, and `linux` where it tells none. The path
of the wheel is printed.
"""
from __future__ import annotations

import argparse
import re
import shutil
import subprocess
import sys
import tempfile
from pathlib import Path
from typing import List

TOP = Path(__file__).resolve().parent.parent
#: The oldest glibc that pip has a tag for.
OLDEST = (2, 17)


def tag(files: List[Path]) -> str:
    """The tag of the platform that the files run on."""
    machine = subprocess.run(["uname", "-m"], capture_output=True, text=True, check=True).stdout.strip()
    needed = [OLDEST]
    for it in files:
        try:
            said = subprocess.run(["readelf", "--version-info", str(it)], capture_output=True, text=True)
        except OSError:
            return f"linux_{machine}"
        if said.returncode:
            return f"linux_{machine}"
        needed += [(int(a), int(b)) for a, b in re.findall(r"GLIBC_(\d+)\.(\d+)", said.stdout)]
    return "manylinux_{}_{}_{}".format(*max(needed), machine)


def staged(room: Path, files: List[Path]) -> None:
    """The package as it goes into the wheel."""
    package = room / "subgraph_solver"
    (package / "bin").mkdir(parents=True)
    for it in (TOP / "python" / "subgraph_solver").iterdir():
        if it.suffix == ".py" or it.name == "py.typed":
            shutil.copy2(it, package)
    for name in ("pyproject.toml", "README.md"):
        shutil.copy2(TOP / "python" / name, room)
    shutil.copy2(TOP / "VERSION", package)
    for it, name in zip(files, ("bin/subgraph", "libsubgraph.so")):
        shutil.copy2(it, package / name)
        (package / name).chmod(0o755)
    (room / "setup.cfg").write_text(f"[bdist_wheel]\nplat_name = {tag(files)}\n")


def main() -> int:
    words = argparse.ArgumentParser(description=__doc__.splitlines()[0])
    words.add_argument("program", type=Path)
    words.add_argument("library", type=Path, nargs="?")
    words.add_argument("--to", type=Path, default=TOP / "build")
    asked = words.parse_args()
    files = [asked.program, *([asked.library] if asked.library and asked.library.is_file() else [])]
    with tempfile.TemporaryDirectory(prefix="subgraph-wheel-") as room, tempfile.TemporaryDirectory() as made:
        staged(Path(room), files)
        offline = ["--no-build-isolation", "--no-index", "--no-deps", "--quiet"]
        done = subprocess.run([sys.executable, "-m", "pip", "wheel", *offline, "--wheel-dir", made, room])
        if done.returncode:
            return done.returncode
        asked.to.mkdir(parents=True, exist_ok=True)
        for it in Path(made).glob("*.whl"):
            print(shutil.move(str(it), str(asked.to / it.name)))
    return 0


if __name__ == "__main__":
    sys.exit(main())
