#!/usr/bin/env python3
"""Refuses each allocation of a run in turn, and looks what comes of it: the right answer or `memory: refused`, and no half-truth in any file.

usage: python3 bench/refused_memory.py PROGRAM [--cases WORD ..] [--threads N ..] [--most N] [--seed S] [--full]

PROGRAM is the built program (crates/subgraph/out/subgraph), which is run as it is: `refuse.c`, compiled here by cc and preloaded, stands before the C
library. Each run of a case is told the number of one allocation, which is refused, and then all later ones too. Numbers go from 1 to the number of
allocations of a run that gets all memory; where these are more than --most, so many are taken evenly.

Right is: the answer of a run with all memory, which for `solve` may be another map; or status 6, the line `memory: refused`, and on standard output
nothing, or for `encode` a front of its text. With --prove, after an answer the encoding is whole and the plain checker accepts the log for that
answer; at status 6 the encoding's file is not there or holds a front of it, and the log's is there only beside a whole encoding. With --full the
error stream is /dev/full, which takes nothing, and all but its lines is to be the same. Prints a row for each case, and each run that is not as it
should be, whose number makes the status 1.
"""
import argparse
import collections
import os
import random
import subprocess
import sys
import tempfile
from dataclasses import dataclass
from typing import List, Optional

import plain
from agree import text_of
from asked import Asked
from check_logs import check_cases
from plain import Answer

HERE = os.path.dirname(os.path.abspath(__file__))
FORMATS = os.path.join(os.path.dirname(HERE), "examples", "formats")
REFUSED = Answer(6, b"", b"memory: refused\n")
SHOWN = {"yes": b"accepted satisfiable\n", "none": b"accepted unsatisfiable\n", "unknown": b"accepted undecided\n"}


@dataclass
class Case:
    """A command over files of the folder, and what it answers with all memory; None where any answer to the question will do."""

    name: str
    words: List[str]
    answer: Optional[Answer] = None
    proves: bool = False
    asked: Asked = Asked()


def ring(size):
    """A cycle."""
    return [0] * size, {pair for a in range(size) for pair in ((a, (a + 1) % size), ((a + 1) % size, a))}


def two_sides(rng, size):
    """A random graph whose edges go between its two halves, so that no odd cycle is in it; a search for one has to restart."""
    pairs = [(a, b) for a in range(size) for b in range(size, 2 * size) if rng.random() < 0.5]
    return [0] * (2 * size), {pair for a, b in pairs for pair in ((a, b), (b, a))}


def write_files(folder, seed):
    """The files of all cases, by name."""
    texts = {
        "triangle": text_of(ring(3), "lad"),
        "pentagon": text_of(ring(5), "lad"),
        "square": text_of(ring(4), "lad"),
        "sides": text_of(two_sides(random.Random(seed), 14), "lad"),
        "cut": "3\n2 1",
        "map": "yes\n0 -> 1\n1 -> 2\n2 -> 3\n3 -> 0\n",
        "wrong": "yes\n0 -> 1\n1 -> 3\n2 -> 2\n3 -> 0\n",
        "one way": "2\n7 1 1 5\n8 0\n",
        "there": "yes\n0 -> 0\n1 -> 1\n",
    }
    texts = {name: text.encode() for name, text in texts.items()}
    texts["opb"] = plain.encode([texts["triangle"], texts["square"]], "lad", Asked()).out
    for name, file in (("proof", "triangle-in-four-cycle.proof"), ("gap", "step-left-out.proof")):
        with open(os.path.join(FORMATS, file), "rb") as f:
            texts[name] = f.read()
    texts["proof without hints"] = check_cases.without_hints(texts["proof"])
    texts["gap without hints"] = texts["proof without hints"].replace(b"u 0.3 ~x1 ;", b"u 0.3 x1 ;")
    for name, text in texts.items():
        with open(os.path.join(folder, name), "wb") as f:
            f.write(text)
    return texts


def cases(texts, threads):
    """The short commands, and those that search by each number of threads."""
    square = [texts["square"]] * 2
    yield Case("no command", ["solve", "square"], Answer(3, b"", b"words: not a command\n"))
    yield Case("a pair refused", ["encode", "square", "square", "--less", "0,4"], Answer(4, b"", b"less: pair 1: NoSuchVertex\n"))
    yield Case("a text refused", ["solve", "cut", "square"], Answer(4, b"", b"pattern: word 4: EndsEarly\n"))
    yield Case("encode", ["encode", "triangle", "square"], Answer(0, texts["opb"]))
    yield Case("encode, induced", ["encode", "--induced", "square", "square"], plain.encode(square, "lad", Asked(True)))
    yield Case("verify", ["verify", "square", "square", "map"], Answer(0, b"embedding\n"))
    yield Case("verify, no embedding", ["verify", "square", "square", "wrong"], Answer(7, b"", b"mapping: not an embedding\n"))
    yield Case("verify, labels of edges", ["verify", "--format", "labelledlad", "one way", "one way", "there"], Answer(0, b"embedding\n"))
    local = Asked(False, "local", ((0, 1), (2, 1)))
    yield Case("encode, local and in order", ["encode", "square", "square", *local.options()], plain.encode(square, "lad", local))
    yield Case("verify, any", ["verify", "square", "square", "wrong", "--map", "any"], plain.verify(square, texts["wrong"], "lad", Asked(False, "any")))
    for hints in ("", " without hints"):
        yield Case(f"check{hints}", ["check", "opb", f"proof{hints}"], Answer(0, b"accepted unsatisfiable\n"))
        yield Case(f"check{hints}, refused", ["check", "opb", f"gap{hints}"], Answer(7, b"", b"log: line 5: NoConflict\n"))
    none, unknown = Answer(1, b"none\n"), Answer(2, b"unknown\n")
    for count in threads:
        by = ["--threads", str(count)]
        for question, answer, asked in (
            (["triangle", "square"], none, Asked()),
            (["square", "sides"], None, Asked()),
            (["pentagon", "sides"], none, Asked()),
            (["pentagon", "sides", "--budget", "40"], unknown, Asked()),
            (["square", "triangle"], none, Asked(False, "local")),
            (["square", "triangle"], None, Asked(False, "any", ((0, 1), (0, 3)))),
            (["square", "square"], none, Asked(less=((0, 1), (1, 2), (2, 0)))),
        ):
            for prove in ([], ["--prove", "e", "--log", "l"], ["--prove", "e", "--log", "l", "--profile", "2"]):
                words = ["solve", *question, *asked.options(), *by, *prove]
                yield Case(" ".join(words), words, answer, bool(prove), asked)
        yield Case(f"demo, {count} threads", ["demo", "7", *by], Answer(0, b"planted yes\ncycle none\nlog accepted\n"))


class Runs:
    """Runs of the program in a folder, each refused one allocation or all from one on."""

    def __init__(self, program, folder, texts, full):
        self.full = full
        self.program = os.path.abspath(program)
        self.folder = folder
        self.texts = texts
        self.refuser = os.path.join(folder, "refuse.so")
        subprocess.run(["cc", "-shared", "-fPIC", "-O2", "-o", self.refuser, os.path.join(HERE, "refuse.c")], check=True)

    def path(self, name):
        return os.path.join(self.folder, name)

    def read(self, name):
        """A file's bytes, None where it is not there."""
        if not os.path.exists(self.path(name)):
            return None
        with open(self.path(name), "rb") as f:
            return f.read()

    def run(self, case, at, all_later):
        """The answer, and how many allocations were asked for."""
        for name in ("e", "l"):
            if os.path.exists(self.path(name)):
                os.remove(self.path(name))
        env = {"LD_PRELOAD": self.refuser, "REFUSE_AT": str(at), "REFUSE_COUNT": self.path("count")}
        if all_later:
            env["REFUSE_ALL"] = "1"
        words = [self.program, *case.words]
        with open("/dev/full", "wb") as device:
            streams = {"stdin": subprocess.DEVNULL, "stdout": subprocess.PIPE, "stderr": device if self.full else subprocess.PIPE}
            done = subprocess.run(words, **streams, env=env, cwd=self.folder, timeout=600)
        return Answer(done.returncode, done.stdout, done.stderr or b""), int.from_bytes(self.read("count"), sys.byteorder)

    def seen(self, answer):
        """An answer as it is seen: without what it tells on the error stream, where that takes nothing."""
        return Answer(answer.status, answer.out, b"" if self.full else answer.err)

    def wanted(self, case, found):
        graphs = [self.texts.get(name) for name in case.words[1:3]]
        return case.answer or plain.solve(graphs, "lad", case.asked, found)

    def wrong(self, case, found):
        """What is wrong with an answer and with what it left; None where nothing is."""
        if found.status == REFUSED.status:
            front = case.words[0] == "encode" and case.answer.out.startswith(found.out)
            if found.err != self.seen(REFUSED).err or found.out and not front:
                return "memory was refused, and the streams hold something else"
        elif found != self.seen(self.wanted(case, found)):
            return "a wrong answer"
        return self.wrong_proof(case, found) if case.proves else None

    def wrong_proof(self, case, found):
        encoding, log = self.read("e"), self.read("l")
        right = plain.encode([self.texts[name] for name in case.words[1:3]], "lad", case.asked).out
        if found.status == REFUSED.status:
            if not right.startswith(encoding or b"") or log is not None and encoding != right:
                return "memory was refused, and the proof's files hold something else"
        elif encoding != right or plain.check(encoding, log or b"").out != SHOWN[found.out.split(b"\n")[0].decode()]:
            return "the proof is not one of the answer"
        elif not log.startswith(b"embedding proof 2\n" if "--profile" in case.words else b"embedding proof 1\n"):
            return "the log is of the other profile"
        return None


def sweep(runs, case, most):
    """What came of the runs of a case, and a line for each that is wrong."""
    came, told = collections.Counter(), []
    found, count = runs.run(case, 0, False)
    came["allocations"] = count
    if runs.wrong(case, found):
        told.append(f"{case.name}: with all memory: {runs.wrong(case, found)}: {found}")
    for i in range(min(count, most)):
        at = 1 + i * count // min(count, most)
        for all_later in (False, True):
            found, asked = runs.run(case, at, all_later)
            wrong = runs.wrong(case, found)
            came["runs"] += 1
            came["not reached" if asked < at else "refused" if found.status == REFUSED.status else "answered"] += 1
            if wrong:
                told.append(f"{case.name}: allocation {at}{' and all later' if all_later else ''} refused: {wrong}: {found}")
    return came, told


def main():
    parser = argparse.ArgumentParser()
    parser.add_argument("program")
    parser.add_argument("--cases", nargs="+", default=[""], help="only those whose name begins with one of these")
    parser.add_argument("--threads", type=int, nargs="+", default=[1, 2])
    parser.add_argument("--most", type=int, default=1000, help="how many allocations of a case are refused, at most")
    parser.add_argument("--seed", type=int, default=0, help="of the graph with two sides")
    parser.add_argument("--full", action="store_true", help="with an error stream that takes nothing")
    words = parser.parse_args()
    columns = ["allocations", "runs", "refused", "answered", "not reached"]
    print("| case | " + " | ".join(columns) + " | wrong |\n|---" + "|---" * (len(columns) + 1) + "|")
    total, wrong = collections.Counter(), 0
    with tempfile.TemporaryDirectory() as folder:
        texts = write_files(folder, words.seed)
        runs = Runs(words.program, folder, texts, words.full)
        for case in cases(texts, words.threads):
            if case.name.startswith(tuple(words.cases)):
                came, told = sweep(runs, case, words.most)
                total += came
                wrong += len(told)
                print(f"| {case.name} | " + " | ".join(str(came[it]) for it in columns) + f" | {len(told)} |", flush=True)
                for line in told:
                    print(line, file=sys.stderr, flush=True)
    print(f"{total['runs']} runs: {total['refused']} times memory was refused, {total['answered']} times the answer came all the same, {wrong} are wrong")
    sys.exit(1 if wrong else 0)


if __name__ == "__main__":
    main()
