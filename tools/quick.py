#!/usr/bin/env python3
"""Runs every test without proving anything, for a first look; `make quick` calls it.

    tools/quick.py [--at-once N] [CRATE ..]

Each crate that has a `#[test]` is tested by `rt try --test`, as many side by side as there are processors, and is told when it is done.
Beside these the program is built without a proof. It then gives the answers on the pages and runs the Python tests. What each step said
is kept in out/quick. Where crates are named, their tests are all that runs. The status is 1 where something fails. Nothing is proved here:
`rt ci` is the gate.
"""
from __future__ import annotations

import argparse
import os
import re
import shutil
import signal
import subprocess
import sys
import time
from concurrent.futures import FIRST_COMPLETED, ThreadPoolExecutor, wait
from pathlib import Path
from typing import Dict, List, Set, Tuple

from build import CRATES, TOP, all_below, dependencies, files_of, processors, tail

ROOM = TOP / "out" / "quick"
PROGRAM = ROOM / "subgraph"
#: The seconds that a crate's tests, and the program's trial, may take.
SECONDS = "600"
#: What runs once the program stands: each with its folder and words.
STEPS: Dict[str, Tuple[Path, List[str]]] = {
    "answers on the pages": (TOP, ["examples/check.py", "--program", str(PROGRAM)]),
    "tests of the Python package": (TOP / "python", ["-m", "unittest"]),
    "tests of the plain checker": (TOP, ["tools/test_plain_check.py"]),
    "manual page": (TOP, ["tools/man.py", "--check"]),
    "picture of the crates": (TOP, ["docs/crates.py", "--check"]),
    "picture of two workers": (TOP, ["docs/two_workers.py", "--check"]),
    "lists of claims": (TOP, ["tools/claims.py", "--check"]),
}
children: Set[subprocess.Popen] = set()


def log_of(name: str) -> Path:
    return ROOM / f"{name.replace(' ', '-')}.log"


def call(name: str, folder: Path, words: List[str], **more: str) -> subprocess.Popen:
    """Begins a command whose output goes to the log of that name."""
    with open(log_of(name), "wb") as out:
        how = {"stdin": subprocess.DEVNULL, "stdout": out, "stderr": subprocess.STDOUT}
        child = subprocess.Popen(words, cwd=folder, env={**os.environ, **more}, start_new_session=True, **how)
    children.add(child)
    return child


def stop() -> None:
    """Ends what is running."""
    for it in list(children):
        try:
            os.killpg(it.pid, signal.SIGTERM)
        except ProcessLookupError:
            pass


def ended(child: subprocess.Popen) -> int:
    status = child.wait()
    children.discard(child)
    return status


def tested(name: str) -> Tuple[bool, str]:
    """Runs the tests of a crate, and tells how many passed."""
    status = ended(call(name, CRATES / name, ["rt", "try", "--test", "--seconds", SECONDS]))
    said = log_of(name).read_text(errors="replace")
    counts = re.search(r"^test result: \w+\. (\d+) passed; (\d+) failed", said, re.M)
    told = f"{counts[1]} tests passed, {counts[2]} failed" if counts else f"no result, status {status}"
    return status == 0 and counts is not None and counts[2] == "0", told


def built() -> Tuple[bool, str]:
    """Builds the program by a trial. `rt try` removes what it builds, so the program gets a second link as soon as it stands."""
    room = ROOM / "room"
    room.mkdir()
    PROGRAM.unlink(missing_ok=True)
    words = ["rt", "try", "--seconds", SECONDS, "--", "demo", "7"]
    child = call("program", CRATES / "subgraph", words, TMPDIR=str(room))
    while child.poll() is None:
        time.sleep(0.02)
        if not PROGRAM.exists():
            keep_program(room)
    good = ended(child) == 0 and PROGRAM.exists()
    return good, "built without a proof" if good else "not built"


def keep_program(room: Path) -> None:
    """Links the program that a trial in this folder has built, if there is one by now."""
    for folder, _, names in os.walk(room):
        for name in names:
            file = Path(folder, name)
            try:
                if os.access(file, os.X_OK) and ".tmp" not in name:
                    os.link(file, PROGRAM)
                    return
            except OSError:
                pass


def sizes(deps: Dict[str, List[str]]) -> Dict[str, int]:
    """For each crate that has tests the bytes of its text and of all below it: what a trial compiles. The program is one of them."""
    own = {name: sum(it.stat().st_size for it in files_of(name) if it.suffix == ".rt") for name in deps}
    with_tests = [name for name in deps if any("#[test]" in it.read_text() for it in files_of(name) if it.suffix == ".rt")]
    return {name: own[name] + sum(own[it] for it in all_below(name, deps)) for name in [*with_tests, "subgraph"]}


def say(name: str, good: bool, told: str, since: float) -> None:
    print(f"{'ok  ' if good else 'FAIL'} {name}: {told}, {time.monotonic() - since:.0f} s", flush=True)
    if not good:
        print("\n".join(f"     {it}" for it in tail(log_of(name)).splitlines()), flush=True)


def test_all(size: Dict[str, int], at_once: int) -> List[str]:
    """Tests the crates and builds the program, the largest first, and answers what failed."""
    failed = []
    print(f"{len(size)} builds, {at_once} at once, the largest first", flush=True)

    def one(name: str) -> Tuple[str, bool, str, float]:
        since = time.monotonic()
        return ("program", *built(), since) if name == "subgraph" else (name, *tested(name), since)

    with ThreadPoolExecutor(at_once) as pool:
        running = {pool.submit(one, name) for name in sorted(size, key=lambda it: -size[it])}
        try:
            while running:
                done, running = wait(running, return_when=FIRST_COMPLETED)
                for name, good, told, since in (it.result() for it in done):
                    say(name, good, told, since)
                    failed += [] if good else [name]
        except BaseException:
            for it in running:
                it.cancel()
            stop()
            raise
    return failed


def run_steps() -> List[str]:
    """Takes the steps that follow, and answers which failed."""
    failed = []
    for name, (folder, words) in STEPS.items():
        since = time.monotonic()
        good = ended(call(name, folder, [sys.executable, *words], SUBGRAPH_PROGRAM=str(PROGRAM))) == 0
        said = [it for it in log_of(name).read_text(errors="replace").splitlines() if it.strip()]
        say(name, good, said[-1] if said else "as it should be", since)
        failed += [] if good else [name]
    return failed


def main() -> int:
    words = argparse.ArgumentParser(description=__doc__.splitlines()[0])
    words.add_argument("crates", nargs="*")
    words.add_argument("--at-once", type=int, default=processors())
    asked = words.parse_args()
    signal.signal(signal.SIGTERM, lambda number, _: sys.exit("stopped by a signal"))
    begun = time.monotonic()
    shutil.rmtree(ROOM, ignore_errors=True)
    ROOM.mkdir(parents=True)
    size = sizes(dependencies())
    unknown = [it for it in asked.crates if it not in size]
    if unknown:
        words.error(f"no crate with tests: {', '.join(unknown)}")
    try:
        failed = test_all({it: size[it] for it in asked.crates or size}, max(1, asked.at_once))
        failed += [] if asked.crates else run_steps()
    finally:
        stop()
    used = os.times()
    minutes = (used.children_user + used.children_system) / 60
    print(f"{'failed: ' + ', '.join(failed) if failed else 'all passed'}, after {time.monotonic() - begun:.0f} s; logs are in out/quick")
    print(f"It took {minutes:.0f} minutes of processor time.")
    print("Nothing was proved. The gate is `rt ci`.")
    return 1 if failed else 0


if __name__ == "__main__":
    sys.exit(main())
