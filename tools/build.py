#!/usr/bin/env python3
"""Proves the crates below a program or a static library side by side, and then builds it; `./subgraph` and `make lib`
call it.

    tools/build.py [CRATE] [--at-once N] [--trial WORDS]

Crates are taken in the order of crates.txt's dependencies, those with the longest way to the program first, as many at once as
there are processors and memory for; each is told on standard error when it is proved. Since `rt` works in one crate of a
checkout at a time, each is proved in a copy of its own under out/, where the libraries that it stands on are links to
those that are built already, and what came out of it is put into its own folder. The program itself is built last. A crate
whose text and whose libraries have not changed since is left alone.

The status is 0 where the program, or libCRATE.a, stands in crates/CRATE/out and is of today's sources. Else it is 1, the
end of what `rt` said is on standard error, all of it in out/build, and there is no program and no library.
"""
from __future__ import annotations

import argparse
import contextlib
import fcntl
import hashlib
import os
import re
import shutil
import signal
import subprocess
import sys
import time
from concurrent.futures import FIRST_COMPLETED, Future, ThreadPoolExecutor, wait
from pathlib import Path
from typing import Dict, Iterator, List, Set

TOP = Path(__file__).resolve().parent.parent
CRATES = TOP / "crates"
ROOM = TOP / "out" / "build"
SOURCES = ("src", "specs", "proofs", "args", "stdin", "stdout", "status", "data")
#: The memory that the proof of a crate may take.
MEMORY = 3_000_000_000
#: Words for the program that need no file: it must be able to answer them.
TRIAL = "demo 7"


class Failed(Exception):
    """A crate is not proved, or the program is not built."""


def listed() -> List[str]:
    """The lines of crates.txt that list a crate."""
    lines = (it.partition("#")[0].strip() for it in (TOP / "crates.txt").read_text().splitlines())
    return [f"{it}\n" for it in lines if ":" in it]


def name_in(line: str) -> str:
    """The crate that a line lists."""
    return line.partition(":")[0].split()[0]


def is_static(name: str) -> bool:
    """Is the crate a static library?"""
    return any(it.partition(":")[0].split()[:2] == [name, "staticlib"] for it in listed())


def made_by(name: str) -> Path:
    """What is built of a program or a static library."""
    return CRATES / name / "out" / (f"lib{name}.a" if is_static(name) else name)


def dependencies() -> Dict[str, List[str]]:
    """For each crate of crates.txt those of its crates that it stands on."""
    found = {name_in(it): it.partition(":")[2].split() for it in listed()}
    return {name: [it for it in below if it in found] for name, below in found.items()}


def all_below(name: str, deps: Dict[str, List[str]]) -> Set[str]:
    """Each crate that a crate stands on, directly or not."""
    found: Set[str] = set()
    waiting = list(deps[name])
    while waiting:
        it = waiting.pop()
        if it not in found:
            found.add(it)
            waiting += deps[it]
    return found


def sizes(names: Set[str]) -> Dict[str, int]:
    """The bytes of each crate's sources, by which the time of its proof is guessed."""
    return {name: sum(it.stat().st_size for it in files_of(name)) for name in names}


def files_of(name: str) -> List[Path]:
    folders = [CRATES / name / it for it in ("src", "specs", "proofs")]
    return sorted(it for folder in folders for it in folder.rglob("*") if it.is_file())


def stamps(names: Set[str], deps: Dict[str, List[str]]) -> Dict[str, str]:
    """For each crate a sum of its text, of the crates that it stands on, and of the kit."""
    kit = subprocess.run(["rt", "version"], stdout=subprocess.PIPE, text=True, check=True).stdout
    made: Dict[str, str] = {}

    def of(name: str) -> str:
        if name not in made:
            sum_ = hashlib.sha256(kit.encode())
            for it in files_of(name):
                sum_.update(f"{it.relative_to(CRATES)}\0".encode() + hashlib.sha256(it.read_bytes()).digest())
            for dep in deps[name]:
                sum_.update(of(dep).encode())
            made[name] = sum_.hexdigest()
        return made[name]

    return {name: of(name) for name in names}


class Build:
    """The state of one build: what is proved, what is running."""

    def __init__(self, program: str, at_once: int, trial: List[str]) -> None:
        self.deps = dependencies()
        self.program = program
        self.trial = trial
        self.libraries = all_below(program, self.deps)
        self.stamps = stamps({program, *self.libraries}, self.deps)
        self.at_once = at_once
        self.done = {it for it in self.libraries if self._is_kept(it)}
        self.far = self._distances(sizes(self.libraries | {program}))
        self.running: Dict[Future, str] = {}
        self.children: Set[subprocess.Popen] = set()

    def _is_kept(self, name: str) -> bool:
        mark = CRATES / name / "out" / "built-from"
        return mark.is_file() and mark.read_text() == self.stamps[name] and (CRATES / name / "out" / "rlib").is_dir()

    def _distances(self, size: Dict[str, int]) -> Dict[str, int]:
        """For each crate the bytes of the longest way from it up to the program."""
        far = {self.program: size[self.program]}
        above: Dict[str, List[str]] = {it: [] for it in size}
        for name in size:
            for dep in self.deps[name]:
                above[dep].append(name)

        def of(name: str) -> int:
            if name not in far:
                far[name] = size[name] + max((of(it) for it in above[name]), default=0)
            return far[name]

        return {name: of(name) for name in size}

    def run(self) -> None:
        """Proves the libraries, and then builds the program."""
        begun = time.monotonic()
        if self.libraries - self.done:
            say(f"{len(self.done)} of {len(self.libraries) + 1} crates are proved; the others come, {self.at_once} at once")
        with ThreadPoolExecutor(self.at_once) as pool:
            try:
                while self.libraries - self.done:
                    self._start(pool)
                    for it in wait(self.running, return_when=FIRST_COMPLETED).done:
                        name = self.running.pop(it)
                        it.result()
                        self.done.add(name)
                        say(f"{len(self.done)} of {len(self.libraries) + 1} {name}, after {time.monotonic() - begun:.0f} s")
            except BaseException:
                self.stop()
                raise
        self._build_program()

    def _start(self, pool: ThreadPoolExecutor) -> None:
        """Starts what can be started; where little can, it gets more processors each."""
        going = set(self.running.values())
        ready = [it for it in self.libraries - self.done - going if self.done.issuperset(self.deps[it])]
        ready = sorted(ready, key=lambda it: -self.far[it])[: self.at_once - len(going)]
        for name in ready:
            jobs = max(1, self.at_once // (len(going) + len(ready)))
            self.running[pool.submit(self._prove, name, jobs)] = name

    def stop(self) -> None:
        """Ends what is running."""
        for it in list(self.children):
            try:
                os.killpg(it.pid, signal.SIGTERM)
            except ProcessLookupError:
                pass

    def _prove(self, name: str, jobs: int) -> None:
        """Proves one library in a copy, and puts what came of it into the crate's folder."""
        room = ROOM / name
        shutil.rmtree(room, ignore_errors=True)
        needed = {name, *all_below(name, self.deps)}
        for it in needed:
            copied(it, room / "crates" / it, whole=it == name)
        (room / "crates.txt").write_text("".join(it for it in listed() if name_in(it) in needed))
        if (TOP / "HANDLES").is_file():
            shutil.copy2(TOP / "HANDLES", room / "HANDLES")
        folder = room / "crates" / name
        self._call(name, folder, ["rt", "lib", "--jobs", str(jobs)])
        (folder / "out" / "built-from").write_text(self.stamps[name])
        with alone_in(CRATES / name):
            old = CRATES / name / "out"
            if old.exists():
                old.rename(room / "old")
            (folder / "out").rename(old)
        shutil.rmtree(room)

    def _call(self, name: str, folder: Path, words: List[str]) -> None:
        log = ROOM / f"{name}.log"
        with open(log, "wb") as out:
            how = {"stdin": subprocess.DEVNULL, "stdout": out, "stderr": subprocess.STDOUT}
            child = subprocess.Popen(words, cwd=folder, start_new_session=True, **how)
            self.children.add(child)
            status = child.wait()
            self.children.discard(child)
        if status:
            raise Failed(f"{name}: `{' '.join(words)}` ended with status {status}:\n{tail(log)}")

    def _build_program(self) -> None:
        """Builds the program and has it answer something, so that what stands there is what was built now; or the library."""
        words = ["rt", "lib"] if is_static(self.program) else ["rt", "run", "--", *self.trial]
        try:
            self._call(self.program, CRATES / self.program, words)
        except BaseException:
            self.stop()
            raise
        if not made_by(self.program).is_file():
            raise Failed(f"{self.program}: nothing was built:\n{tail(ROOM / f'{self.program}.log')}")


@contextlib.contextmanager
def alone_in(folder: Path) -> Iterator[None]:
    """Waits until no `rt` works in a crate's folder, and keeps others out."""
    held = os.open(folder, os.O_RDONLY)
    try:
        fcntl.flock(held, fcntl.LOCK_EX)
        yield
    finally:
        os.close(held)


def copied(name: str, to: Path, whole: bool) -> None:
    """A copy of a crate: its text, and links to its built library, or to all that earlier runs left."""
    at = CRATES / name
    to.mkdir(parents=True)
    for it in SOURCES:
        if (at / it).is_dir():
            shutil.copytree(at / it, to / it)
        elif (at / it).is_file():
            shutil.copy2(at / it, to / it)
    kept = Path("out") if whole else Path("out", "rlib")
    if (at / kept).is_dir():
        shutil.copytree(at / kept, to / kept, copy_function=os.link)


def tail(log: Path, lines: int = 20) -> str:
    return "\n".join(log.read_text(errors="replace").splitlines()[-lines:])


def say(text: str) -> None:
    print(f"subgraph: {text}", file=sys.stderr, flush=True)


def processors() -> int:
    """As many proofs at once as there are processors, and memory for."""
    free = re.search(r"MemAvailable: +(\d+) kB", Path("/proc/meminfo").read_text())
    most = int(free[1]) * 1024 // MEMORY if free else 1
    return max(1, min(len(os.sched_getaffinity(0)), most))


def main() -> int:
    words = argparse.ArgumentParser(description=__doc__.splitlines()[0])
    words.add_argument("crate", nargs="?", default="subgraph")
    words.add_argument("--at-once", type=int, default=processors())
    words.add_argument("--trial", default=TRIAL, help="words that the program must answer with status 0")
    asked = words.parse_args()
    signal.signal(signal.SIGTERM, lambda number, _: sys.exit(128 + number))
    ROOM.mkdir(parents=True, exist_ok=True)
    with open(ROOM / "lock", "w") as lock:
        fcntl.flock(lock, fcntl.LOCK_EX)
        built = False
        try:
            Build(asked.crate, asked.at_once, asked.trial.split()).run()
            built = True
        except (Failed, OSError, subprocess.CalledProcessError) as error:
            say(f"{asked.crate} could not be built. {error}")
            return 1
        except KeyboardInterrupt:
            say("interrupted; what is proved by now is kept")
            return 130
        finally:
            if not built:
                made_by(asked.crate).unlink(missing_ok=True)
    return 0


if __name__ == "__main__":
    sys.exit(main())
