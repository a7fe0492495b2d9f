#!/usr/bin/env python3
"""Measures the most memory that runs take, by the size of their files, and by what numbers in short files state.

usage: python3 bench/memory.py PROGRAM [--megabytes N ..] [--fails N ..] [--only WORD ..] [--folder FOLDER]

PROGRAM is the built program (crates/subgraph/out/subgraph). Prints a row for each run: the bytes of its files, the most memory that it held at once
(resident, the program's own pages among it), how many bytes that is for each byte of the files, the processor time, the status and the first line. --megabytes
are the sizes of encodings and logs, which are written by pieces, so that 1000 needs room on the disk alone; --fails are those of searches with a
log. --only takes the runs whose names have one of the words. Needs GNU time (Debian: time).
"""
import argparse
import os
import random
import subprocess
import tempfile

from pairs import dense_none

TIME = "/usr/bin/time"
EDGE = "2\n1 1\n1 0\n"
MOST_BYTES = 67108864
PIECE = 1 << 20
FORMATS = ("lad", "vertexlabelledlad", "directedlad", "labelledlad")


def ring(size, reach, kind="lad"):
    """A graph whose vertices have edges to the `reach` next ones, each told at one end, where labels are all 0; vertex by vertex."""
    yield f"{size}\n"
    for a in range(size):
        near = " ".join(f"{(a + i + 1) % size}" + " 0" * (kind == "labelledlad") for i in range(reach))
        yield "0 " * kind.endswith("labelledlad") + f"{reach} {near}\n"


def reach_of(size, kind):
    """How many neighbours each vertex lists in the largest file."""
    words = len(str(size)) + 1 + 2 * (kind == "labelledlad")
    return min(size - 1, (MOST_BYTES - 16 * size) // (size * words))


def lonely(size, kind="lad"):
    yield f"{size}\n"
    for _ in range(size):
        yield "0 " * kind.endswith("labelledlad") + "0\n"


def lines_of(megabytes, line):
    """As many lines, each made from its number, as have that length together."""
    room, i = megabytes * 1_000_000, 0
    while room > 0:
        i += 1
        text = line(i)
        room -= len(text)
        yield text


def encoding(megabytes):
    """Its constraints come again and again, so that the number of them is known before the last is written."""
    line = "+1 x{} +1 x{} +1 x{} >= 1 ;\n"
    block = "".join(line.format(i % 1000 + 1, (i * 7) % 1000 + 1, (i * 31) % 1000 + 1) for i in range(1000))
    times = -(-megabytes * 1_000_000 // len(block))
    yield f"* #variable= 1000 #constraint= {1000 * times}\n"
    for _ in range(times):
        yield block


def graph_runs():
    yield "no vertices", ["solve"], [["0\n"], ["0\n"]]
    yield "demo", ["demo", "7"], []
    for kind in FORMATS:
        options = ["--format", kind]
        most = list(lonely(8192, kind))
        edge = list(ring(2, 1, kind))
        yield f"{kind}: solve, an edge into 8,192 vertices without edges", ["solve", *options], [edge, most]
        yield f"{kind}: verify, a vertex in 8,192 without edges", ["verify", *options], [lonely(1, kind), most, ["yes\n0 -> 8191\n"]]
        yield f"{kind}: solve, an edge into a ring of 8,192", ["solve", *options], [edge, ring(8192, 1, kind)]
        wide = reach_of(8192, kind)
        yield f"{kind}: solve, an edge into 8,192 vertices of 67 MB", ["solve", *options], [edge, ring(8192, wide, kind)]
        yield f"{kind}: verify, an edge in the same", ["verify", *options], [edge, ring(8192, wide, kind), ["yes\n0 -> 0\n1 -> 1\n"]]
        yield f"{kind}: solve, 1,024 in a ring into 8,192, one fail", ["solve", *options, "--budget", "1"], [ring(1024, 1, kind), ring(8192, 1, kind)]
        yield f"{kind}: encode, a ring of 20 into one of 2,000", ["encode", *options], [ring(20, 1, kind), ring(2000, 1, kind)]
    yield "solve induced, dense, 1,024 into 8,192, one fail", ["solve", "--induced", "--budget", "1"], [ring(1024, 100), ring(8192, 400)]
    yield "verify, a mapping of 67 MB", ["verify"], [[EDGE], [EDGE], ["yes\n" + " " * (MOST_BYTES - 4)]]


def stated_runs():
    """Short files with great numbers."""
    head = "* #variable= 4294967295 #constraint= 0\n"
    log = "embedding proof 1\nm 0\n"
    yield "8,192 vertices, and no more of them", ["solve"], [EDGE, "8192"]
    yield "a vertex of 4,294,967,295 neighbours", ["solve"], [EDGE, "8192 4294967295 1"]
    yield "4,294,967,295 variables", ["check"], [head, log + "q\n"]
    yield "2^63 - 1 constraints", ["check"], ["* #variable= 1 #constraint= 9223372036854775807\n", log]
    yield "a log over 2^63 - 1 constraints", ["check"], [head, "embedding proof 1\nm 9223372036854775807\nq\n"]
    yield "a name of 2^63 - 1", ["check"], [head, log + "p 0.9223372036854775807 x1 ;\n"]
    yield "the last `#K`", ["check"], [head, log + "p 0.1 x1 ;\nn 4194303 0.1\nq\n"]
    yield "x4294967295 in an operation", ["check"], [head, log + "p 0.1 x4294967295 ;\nq\n"]
    for variable in (1_000_000, 10_000_000, 100_000_000):
        yield f"x{variable} in a `u` line", ["check"], [head, log + f"u 0.1 x{variable} ; ;\n"]
        yield f"x{variable} in a solution", ["check"], [head, log + f"y x{variable}\n"]


def framed(first, lines, last):
    yield first
    yield from lines
    yield last


def proof_runs(megabytes):
    constraints = next(iter(encoding(megabytes))).split()[-1]
    yield f"an encoding of {megabytes} MB", ["check"], [encoding(megabytes), [f"embedding proof 1\nm {constraints}\nq\n"]]
    count = 500
    small = [f"* #variable= {2 * count} #constraint= {count}\n", *(f"+1 x{2 * k + 1} +1 x{2 * k + 2} >= 1 ;\n" for k in range(count))]
    for what, profile, line in (
        ("of lines `p`", 1, lambda i: f"p 0.{i} x{i % 1000 + 1} x{(i * 7) % 1000 + 1} + x{(i * 31) % 1000 + 1} + ;\n"),
        ("of lines `u`", 1, lambda i: f"u 0.{i} x{i % count * 2 + 1} x{i % count * 2 + 2} ; {i % count + 1} ;\n"),
        ("of lines `u` with 1,000 references", 1, lambda i: f"u 0.{i} x{i % count * 2 + 1} x{i % count * 2 + 2} ;{MANY} {i % count + 1} ;\n"),
        ("of lines `u` without hints", 2, lambda i: f"u 0.{i} x{i % count * 2 + 1} x{i % count * 2 + 2} ;\n"),
    ):
        log = framed(f"embedding proof {profile}\nm {count}\n", lines_of(megabytes, line), "q\n")
        yield f"a log of {megabytes} MB {what}", ["check"], [small, log]


#: Where a search writes its proof.
PROOF = ["--prove", "{folder}/e.opb", "--log", "{folder}/l.proof"]
#: References from which nothing follows.
MANY = " 1" * 999


def search_runs(fails):
    """A search that keeps a log, up to a budget, where one thread or four spend it, and the same search without a log."""
    *_, (pattern, target, induced, _) = dense_none(random.Random(1), "M")
    texts = [[pattern.text()], [target.text()]]
    options = ["--induced"] * induced + ["--book", "4194304", "--budget", str(fails)]
    yield f"solve, {fails:,} fails", ["solve", *options], texts
    for threads, what in ((1, "1 thread"), (4, "4 threads")):
        yield f"solve --prove, {fails:,} fails, {what}", ["solve", *options, "--threads", str(threads), *PROOF], texts


def refuted_runs():
    """Two refutations with their logs, and the check of each: pairs of pairs.py, the shorter one for a log without hints, which takes long to check."""
    for place, profile in ((1, "1"), (0, "2")):
        pattern, target, induced, _ = list(dense_none(random.Random("dense_none S 1"), "S"))[place]
        options = ["--induced"] * induced + ["--book", "4194304", "--profile", profile]
        what = f"dense_none-S-{place} refuted, {'with' if profile == '1' else 'without'} hints"
        yield f"solve --prove, {what}", ["solve", *options, *PROOF], [[pattern.text()], [target.text()]]
        yield f"check of its log, {what}", ["check", *PROOF[1::2]], []


def measure(program, words, texts, folder):
    """The bytes of the files, the peak in bytes, the processor time, the status and the first line that is told.

    GNU time stands between, since a run counts what the process held that started it. What is printed is read away by pieces."""
    words = [word.replace("{folder}", folder) for word in words]
    files = [os.path.join(folder, str(i)) for i in range(len(texts))]
    for file, pieces in zip(files, texts):
        with open(file, "w", encoding="ascii") as f:
            f.writelines(pieces)
    told = os.path.join(folder, "told")
    run = [TIME, "-q", "-o", told, "-f", "%M %U %S", program, *words, *files]
    with subprocess.Popen(run, stdin=subprocess.DEVNULL, stdout=subprocess.PIPE, stderr=subprocess.STDOUT) as done:
        line = done.stdout.readline(200).decode("ascii", "replace").strip()
        while done.stdout.read(PIECE):
            pass
    with open(told, encoding="ascii") as f:
        peak, *seconds = map(float, f.read().split())
    size = sum(os.path.getsize(it) for it in [*files, *(it for it in words if it.startswith(folder) and os.path.isfile(it))])
    for file in files:
        os.remove(file)
    return size, peak * 1024, sum(seconds), done.returncode, line


def main():
    parser = argparse.ArgumentParser()
    parser.add_argument("program")
    parser.add_argument("--megabytes", type=int, nargs="*", default=[1, 10, 100])
    parser.add_argument("--fails", type=int, nargs="*", default=[10000])
    parser.add_argument("--only", nargs="+", default=[""])
    parser.add_argument("--folder", help="where the files are written")
    words = parser.parse_args()
    print("| run | bytes of its files | most memory, MB | for each byte | seconds | status | first line |\n|---|---|---|---|---|---|---|")
    runs = [graph_runs(), stated_runs(), *map(proof_runs, words.megabytes), *map(search_runs, words.fails), refuted_runs()]
    with tempfile.TemporaryDirectory(dir=words.folder) as folder:
        for what, command, texts in (run for each in runs for run in each):
            if any(word in what for word in words.only):
                size, peak, seconds, status, line = measure(words.program, command, texts, folder)
                each = f"{peak / size:.1f}" if size > 1_000_000 else ""
                print(f"| {what} | {size:,} | {peak / 1e6:.1f} | {each} | {seconds:.2f} | {status} | `{line}` |", flush=True)


if __name__ == "__main__":
    main()
