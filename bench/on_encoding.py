#!/usr/bin/env python3
"""Solvers of pseudo-Boolean constraints and of clauses on the program's own encoding, behind the words of the other peers.

    on_encoding.py clasp|cadical PROGRAM OPB_CNF PATTERN TARGET [--induced] [--format F]

PROGRAM writes the encoding (`encode`); clasp reads it as it stands, CaDiCaL after OPB_CNF (`opb_cnf.cpp`, compiled) has made clauses of it. Prints `yes` with
a line `p -> t` for each vertex, or `none`, or `unknown`, and on standard error `seconds N`: the processor time of the solver alone. An encoding of
more than 300 MB is `unknown`, and one that clasp does not read `not taken`. Standard library only.
"""
import os
import re
import resource
import subprocess
import sys
import tempfile

MOST = 300_000_000
#: The status of clasp for a text that it does not read: it wants a term in each line, and an encoding without values has lines that have none.
NOT_READ = 65


def size_of(path):
    with open(path, encoding="ascii") as file:
        return int(file.read(32).split()[0])


def told(words, folder):
    """What a command prints, its status, and its processor seconds."""
    before = resource.getrusage(resource.RUSAGE_CHILDREN)
    with open(os.path.join(folder, "said"), "w+", encoding="ascii") as said:
        status = subprocess.run(words, stdout=said, stderr=subprocess.DEVNULL, check=False).returncode
        said.seek(0)
        text = said.read()
    after = resource.getrusage(resource.RUSAGE_CHILDREN)
    return text, status, after.ru_utime + after.ru_stime - before.ru_utime - before.ru_stime


def main():
    solver, program, opb_cnf, pattern, target, *more = sys.argv[1:]
    resource.setrlimit(resource.RLIMIT_FSIZE, (MOST, MOST))
    with tempfile.TemporaryDirectory(dir="/dev/shm" if os.path.isdir("/dev/shm") else None) as folder:
        encoding, clauses = os.path.join(folder, "opb"), os.path.join(folder, "cnf")
        with open(encoding, "wb") as file:
            made = subprocess.run([program, "encode", *more, pattern, target], stdout=file, stderr=subprocess.DEVNULL, check=False).returncode == 0
        if made and solver == "cadical":
            with open(encoding, "rb") as given, open(clauses, "wb") as file:
                made = subprocess.run([opb_cnf], stdin=given, stdout=file, check=False).returncode == 0
        if not made:
            print("unknown")
            return
        words = ["clasp", "--quiet=0,2", encoding] if solver == "clasp" else ["cadical", "-q", clauses]
        text, status, seconds = told(words, folder)
    print(f"seconds {seconds:.4f}", file=sys.stderr)
    if status == NOT_READ:
        print("not taken")
    elif re.search(r"^s UNSATISFIABLE", text, re.M):
        print("none")
    elif re.search(r"^s SATISFIABLE", text, re.M):
        values = size_of(target)
        print("yes")
        held = [int(word.lstrip("x")) for line in re.findall(r"^v (.*)$", text, re.M) for word in line.split() if not word.startswith("-")]
        for number in sorted(held):
            if 0 < number <= size_of(pattern) * values:
                print(f"{(number - 1) // values} -> {(number - 1) % values}")
    else:
        print("unknown")


if __name__ == "__main__":
    main()
