#!/usr/bin/env python3
"""Runs `solve` on random problems with one thread and with several, and holds all answers against each other.

usage: python3 bench/agree.py PROGRAM [--runs N] [--jobs J] [--seed S] [--hard PERCENT]

PROGRAM is the built program (crates/subgraph/out/subgraph). A small problem (a pattern of at most 6 vertices, a target of at most 9,
in any of the four formats, with loops, either kind of copy, each kind of map and images in order among them) is decided by brute force too; a hard one (12 to 16 vertices into
24 to 36, near the point where half the patterns occur, so that searches restart and share what they have refuted; half of them with
directions) is decided by one thread, whose answer all others must give. Each mapping that is printed is tested here. Ends with status 1 at
the first disagreement, and tells it.
"""
import argparse
import concurrent.futures
import os
import random
import subprocess
import sys
import tempfile

from asked import differ, of_all

#: For each format: whether edges have directions, whether vertices have labels, and whether edges have.
FORMATS = {
    "lad": (False, False, False),
    "vertexlabelledlad": (False, True, False),
    "directedlad": (True, False, False),
    "labelledlad": (True, True, True),
}


def random_graph(rng, size, density, loops, labels, kind="lad"):
    """The labels of vertices, and for each ordered pair with an edge its label; a loop is a pair of a vertex with itself."""
    directed, labelled, edge_labelled = FORMATS[kind]
    edges = {}
    for a in range(size):
        if loops and rng.random() < 0.2:
            edges[a, a] = rng.randrange(labels) if edge_labelled else 0
        for b in range(a):
            for pair in ((a, b), (b, a)) if directed else ((a, b),):
                if rng.random() < density:
                    edges[pair] = rng.randrange(labels) if edge_labelled else 0
                    if not directed:
                        edges[b, a] = 0
    return [rng.randrange(labels) if labelled else 0 for _ in range(size)], edges


def text_of(graph, kind):
    _, labelled, edge_labelled = FORMATS[kind]
    labels, edges = graph
    lines = [str(len(labels))]
    for a in range(len(labels)):
        near = [b for b in range(len(labels)) if (a, b) in edges]
        words = ([labels[a]] if labelled else []) + [len(near)]
        for b in near:
            words += [b, edges[a, b]] if edge_labelled else [b]
        lines.append(" ".join(map(str, words)))
    return "\n".join(lines) + "\n"


def goes(pattern, target, asked, image, p, t):
    """Whether t may stand for p beside the images of the vertices before it."""
    images = image + [t]
    if pattern[0][p] != target[0][t] or any(images[a] >= images[b] for a, b in asked.less if max(a, b) == p):
        return False
    for q, u in enumerate(images):
        if u == t and q != p and differ(asked, pattern, p, q):
            return False
        for one_way, its_image in (((p, q), (t, u)), ((q, p), (u, t))):
            there = pattern[1].get(one_way)
            here = target[1].get(its_image)
            if there != here and (there is not None or asked.induced):
                return False
    return True


def occurs(pattern, target, asked, image):
    """Brute force: whether the images so far can be completed."""
    p = len(image)
    if p == len(pattern[0]):
        return True
    return any(
        goes(pattern, target, asked, image, p, t) and occurs(pattern, target, asked, image + [t])
        for t in range(len(target[0]))
    )


def is_embedding(pattern, target, asked, image):
    return len(image) == len(pattern[0]) and all(
        0 <= t < len(target[0]) and goes(pattern, target, asked, image[:p], p, t) for p, t in enumerate(image)
    )


def solve(program, files, options, pattern, target, asked):
    """The answer of one run: 'yes' with a mapping that was tested, or 'none'."""
    done = subprocess.run([program, "solve", *options, *files], capture_output=True, text=True, timeout=600)
    if done.returncode == 1 and done.stdout == "none\n":
        return "none"
    if done.returncode == 0 and done.stdout.startswith("yes\n"):
        lines = done.stdout.splitlines()[1:]
        image = [int(line.split(" -> ")[1]) for line in lines]
        if [line.split(" -> ")[0] for line in lines] == [str(p) for p in range(len(lines))] and is_embedding(
            pattern, target, asked, image
        ):
            return "yes"
        return "a wrong mapping: " + done.stdout
    return f"status {done.returncode}: {done.stdout}{done.stderr}"


def one(program, seed, hard):
    """One problem: how many runs by several threads were held against its answer, and what disagreed; no number where it stayed undecided."""
    rng = random.Random(seed)
    kind = rng.choice(["lad", "directedlad"] if hard else list(FORMATS))
    labels = rng.choice([1, 2, 3])
    if hard:
        # an edge in each direction asks twice: fewer of them make the problem as hard
        most = 0.6 if kind == "lad" else 0.4
        target = random_graph(rng, rng.randint(24, 36), rng.uniform(most / 2, most), False, 1, kind)
        pattern = random_graph(rng, rng.randint(12, 16) if kind == "lad" else rng.randint(8, 12), rng.uniform(most / 2, most), False, 1, kind)
    else:
        loops = rng.random() < 0.3
        target = random_graph(rng, rng.randint(0, 9), rng.random(), loops, labels, kind)
        pattern = random_graph(rng, rng.randint(0, 6), rng.random(), loops, labels, kind)
    asked = of_all(rng, len(pattern[0]))
    with tempfile.TemporaryDirectory() as folder:
        files = [os.path.join(folder, name) for name in ("p.lad", "t.lad")]
        for name, graph in zip(files, (pattern, target)):
            with open(name, "w", encoding="ascii") as f:
                f.write(text_of(graph, kind))
        common = asked.options() + (["--format", kind] if kind != "lad" else [])
        if hard:
            alone = solve(program, files, common + ["--budget", "20000"], pattern, target, asked)
            if alone.startswith("status 2"):
                return None, None
            wanted = alone
        else:
            wanted = "yes" if occurs(pattern, target, asked, []) else "none"
            alone = solve(program, files, common, pattern, target, asked)
        runs = 0
        if alone != wanted or alone not in ("yes", "none"):
            return runs, f"seed {seed}: {' '.join(common)} answers {alone}, wanted {wanted}"
        for _ in range(3):
            options = common + ["--threads", str(rng.randint(2, 8)), "--seed", str(rng.randrange(2**64))]
            if rng.random() < 0.3:
                options += ["--book", str(rng.choice([0, 1, 5, 100]))]
            answer = solve(program, files, options, pattern, target, asked)
            runs += 1
            if answer != wanted:
                return runs, f"seed {seed}: {' '.join(options)} answers {answer}, wanted {wanted}"
    return runs, None


def main():
    parser = argparse.ArgumentParser()
    parser.add_argument("program")
    parser.add_argument("--runs", type=int, default=10000, help="how many runs by several threads, at least")
    parser.add_argument("--jobs", type=int, default=2)
    parser.add_argument("--seed", type=int, default=0)
    parser.add_argument("--hard", type=float, default=10.0, help="how many of a hundred problems are hard")
    words = parser.parse_args()
    runs = problems = hard_ones = left_out = 0
    seed = words.seed
    with concurrent.futures.ThreadPoolExecutor(words.jobs) as pool:
        while runs < words.runs:
            batch = range(seed, seed + 50 * words.jobs)
            seed += len(batch)
            hard = [random.Random(-s - 1).random() * 100 < words.hard for s in batch]
            for is_hard, (count, wrong) in zip(hard, pool.map(one, [words.program] * len(batch), batch, hard)):
                if count is None:
                    left_out += 1
                    continue
                runs += count
                problems += 1
                hard_ones += is_hard
                if wrong:
                    print(wrong)
                    sys.exit(1)
    print(
        f"{runs} runs by several threads on {problems} problems, {hard_ones} of them hard, agree with one thread's answer, and with brute"
        f" force on the others; {left_out} hard problems were left out, undecided by one thread"
    )


if __name__ == "__main__":
    main()
