#!/usr/bin/env python3
"""Times the checker of logs on logs that are made here, by a seed.

    checker.py PROGRAM [--times N] [--seed N] [--only WORD] [--closing N] [--peer PEER]

PROGRAM is the words that check a log, as `crates/subgraph/out/subgraph check`; an encoding and a log are put behind them. Five kinds of logs:

    follow   100,000 `u` lines over a ring of N implications: each line follows 20 of them that stand behind one another, to a conflict
    rows     20,000 `u` lines over N rows of 200 literals: each line makes all but one literal of a row false by 10 rows, to a conflict
    sum      `p` lines that sum N constraints of 20 terms each, from the left, over 20,000 variables: 1,000,000 references in all
    close    the lines of `follow`, as many as --closing says, in a log without hints
    close-r  the lines of `rows`, in a log without hints, at most as many

With `--peer PEER` another checker, as that of closing.cpp, judges the logs without hints too; its seconds stand in a last column.

A log's time is the least of N runs, less that of a log over the same encoding that ends at once; memory is the most that a run held.
"""
import argparse
import os
import random
import subprocess
import tempfile

LINES = 100_000
CHAIN = 20
ROW = 200
WIDTH = 20
VARIABLES = 20_000
REFERENCES = 1_000_000


def opb(variables, forms):
    """The text of a model: each form is its terms and its bound."""
    out = [f"* #variable= {variables} #constraint= {len(forms)}\n"]
    for terms, bound in forms:
        out.append("".join(f"{c:+d} x{v} " for v, c in terms) + f">= {bound} ;\n")
    return "".join(out)


def follow(seed, count):
    """Chains of implications."""
    rng = random.Random(seed)
    ring = [sorted([(k + 1, -1), ((k + 1) % count + 1, 1)]) for k in range(count)]
    lines = []
    for number in range(1, LINES + 1):
        start = rng.randrange(count - CHAIN)
        refs = " ".join(str(start + k + 1) for k in range(CHAIN))
        lines.append(f"u 0.{number} ~x{start + 1} x{start + CHAIN + 1} ; {refs} ;\n")
    return opb(count, [(terms, 0) for terms in ring]), lines, LINES * CHAIN, LINES * CHAIN * 2


def rows(seed, count):
    """Rows of 200 variables, at least one of each; and for each 20 of these that one literal makes false."""
    rng = random.Random(seed)
    forms, blocks = [], ROW // WIDTH
    for row in range(count // (blocks + 1)):
        base = row * (ROW + 1)
        forms.append(([(base + 1 + k, 1) for k in range(ROW)], 1))
        for block in range(blocks):
            inside = [(base + 1 + block * WIDTH + k, -1) for k in range(WIDTH)]
            forms.append((inside + [(base + ROW + 1, -WIDTH)], -WIDTH))
    lines = []
    for number in range(1, LINES // 5 + 1):
        row = rng.randrange(count // (blocks + 1))
        first = row * (blocks + 1) + 1
        refs = " ".join(str(first + 1 + k) for k in range(blocks)) + f" {first}"
        lines.append(f"u 0.{number} ~x{row * (ROW + 1) + ROW + 1} ; {refs} ;\n")
    variables = count // (blocks + 1) * (ROW + 1)
    read = ROW + blocks * (WIDTH + 1)
    return opb(variables, forms), lines, len(lines) * (blocks + 1), len(lines) * read


def sums(seed, count):
    """Sums from the left."""
    rng = random.Random(seed)
    forms = [(sorted((v, rng.choice([-1, 1])) for v in rng.sample(range(1, VARIABLES + 1), WIDTH)), 0) for _ in range(10_000)]
    lines = []
    for number in range(1, REFERENCES // count + 1):
        refs = [str(rng.randrange(len(forms)) + 1) for _ in range(count)]
        lines.append(f"p 0.{number} {refs[0]} " + " ".join(f"{r} +" for r in refs[1:]) + " ;\n")
    return opb(VARIABLES, forms), lines, REFERENCES, REFERENCES * WIDTH


def unhinted(make):
    """The same log with no hints. A reference then is one that the line's propagation needs at least."""
    def made(seed, count):
        model, lines, references, terms = make(seed, count)
        lines = [line[:line.index(";") + 1] + "\n" for line in lines]
        return model, lines, references, terms
    return made


def shortened(made, most):
    """The first lines of a log."""
    model, lines, references, terms = made
    kept = min(most, len(lines))
    return model, lines[:kept], references * kept // len(lines), terms * kept // len(lines)


def run(words):
    """Seconds of processor time, and megabytes at most."""
    child = subprocess.Popen(words, stdout=subprocess.PIPE, stderr=subprocess.STDOUT)
    said = child.stdout.read()
    _, status, used = os.wait4(child.pid, 0)
    child.returncode = os.waitstatus_to_exitcode(status)
    if child.returncode != 0:
        raise SystemExit(f"{' '.join(words)}: {said.decode()}")
    return used.ru_utime + used.ru_stime, used.ru_maxrss / 1024


def timed(call, encoding, log, empty, times):
    """The least seconds of the log less those of the empty one, and the most megabytes."""
    nothing = min(run(call + [encoding, empty])[0] for _ in range(times))
    taken = [run(call + [encoding, log]) for _ in range(times)]
    return max(min(t for t, _ in taken) - nothing, 1e-3), max(m for _, m in taken)


def main():
    words = argparse.ArgumentParser()
    words.add_argument("program")
    words.add_argument("--times", type=int, default=3)
    words.add_argument("--seed", type=int, default=7)
    words.add_argument("--only", default="")
    words.add_argument("--closing", type=int, default=LINES)
    words.add_argument("--peer")
    asked = words.parse_args()
    made = [("follow", follow, 1_000), ("follow", follow, 10_000), ("follow", follow, 100_000), ("rows", rows, 1_100),
            ("rows", rows, 11_000), ("sum", sums, 2), ("sum", sums, 10), ("sum", sums, 100), ("sum", sums, 1_000),
            ("close", unhinted(follow), 1_000), ("close", unhinted(follow), 10_000), ("close", unhinted(follow), 100_000),
            ("close-r", unhinted(rows), 1_100), ("close-r", unhinted(rows), 11_000)]
    print("| log | references | terms read | seconds | million references a second | million terms a second | MB | peer's seconds |")
    print("|---|---|---|---|---|---|---|---|")
    with tempfile.TemporaryDirectory() as folder:
        encoding, log, empty = (os.path.join(folder, name) for name in ("encoding", "log", "empty"))
        for name, make, count in made:
            if asked.only not in f"{name} {count}":
                continue
            is_hinted = not name.startswith("close")
            model, lines, references, terms = shortened(make(asked.seed, count), LINES if is_hinted else asked.closing)
            head = f"embedding proof {1 if is_hinted else 2}\nm {model.count(chr(10)) - 1}\n"
            for path, text in ((encoding, model), (log, head + "".join(lines) + "q\n"), (empty, head + "q\n")):
                with open(path, "w", encoding="ascii") as file:
                    file.write(text)
            seconds, most = timed(asked.program.split(), encoding, log, empty, asked.times)
            beside = "-"
            if asked.peer and not is_hinted:
                beside = f"{timed(asked.peer.split(), encoding, log, empty, asked.times)[0]:.2f}"
            print(f"| {name} {count:,} | {references:,} | {terms:,} | {seconds:.2f} | {references / seconds / 1e6:.2f} "
                  f"| {terms / seconds / 1e6:.0f} | {most:.0f} | {beside} |", flush=True)


main()
