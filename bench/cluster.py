#!/usr/bin/env python3
"""Measures `subgraph_solver.batch` on local workers of dask.distributed, and prints a table for docs/CLUSTER.md.

usage: python3 bench/cluster.py PROGRAM FOLDER [--questions N] [--hard N] [--workers N ..] [--seed N]

Two lists of questions are written to FOLDER. The first has N pieces of molecules in molecules (`bench/batch.py`), which take the program
microseconds each. In the second dense random patterns are looked for in random graphs near the phase transition: most have none, and each
takes some 100 milliseconds. Each list is answered without a client, by one thread and by as many as there are workers, and by 1, 2 and more workers of
one thread. A worker is a process of this machine, which has answered a question before the clock starts. Prints for each way the seconds, the questions a second, and
how many times those of one worker. All ways have to give the same answers, which are counted; else the status is 1.
"""
import argparse
import collections
import contextlib
import os
import random
import sys
import time

HERE = os.path.dirname(os.path.abspath(__file__))
sys.path.append(os.path.join(os.path.dirname(HERE), "python"))

import batch as molecules  # noqa: E402
from pairs import random_graph  # noqa: E402
from subgraph_solver import Unknown, batch  # noqa: E402


def lad(graph):
    rows = (" ".join(map(str, [len(near), *sorted(near)])) for near in graph.near)
    return "\n".join([str(graph.size), *rows, ""])


def hard_pair(source):
    """A dense random pattern, and a random target which has it about once in ten times."""
    return random_graph(source, 14, 0.85), random_graph(source, 55, 0.5)


def written(folder, count, seed):
    """The list of hard questions."""
    source = random.Random(seed)
    path = os.path.join(folder, "hard.list")
    with open(path, "w", encoding="ascii") as lines:
        for number in range(count):
            names = [os.path.join(folder, f"{number}.{it}.hard.lad") for it in ("pattern", "target")]
            for name, graph in zip(names, hard_pair(source)):
                with open(name, "w", encoding="ascii") as file:
                    file.write(lad(graph))
            print(*names, file=lines)
    return path


def kind_of(answer):
    return "unknown" if isinstance(answer, Unknown) else "none" if answer is None else "yes" if isinstance(answer, dict) else str(answer)


def timed(path, form, **how):
    """The seconds, and how often each answer came."""
    begun = time.monotonic()
    found = collections.Counter(kind_of(it) for it in batch(path, format=form, **how))
    return time.monotonic() - begun, found


def ways(program, path, form, counts):
    """The name, seconds and answers of each way."""
    from distributed import Client, LocalCluster

    for threads in (1, max(counts)):
        yield f"no client, `threads={threads}`", timed(path, form, threads=threads, program=program)
    for count in counts:
        with LocalCluster(n_workers=count, threads_per_worker=1, dashboard_address=None, silence_logs=50) as cluster, Client(cluster) as client:
            with contextlib.closing(batch(path, format=form, program=program, client=client, piece=1)) as first:
                next(first)
            yield f"workers: {count}", timed(path, form, program=program, client=client)


def main():
    words = argparse.ArgumentParser(description=__doc__.splitlines()[0])
    words.add_argument("program")
    words.add_argument("folder")
    words.add_argument("--questions", type=int, default=4000)
    words.add_argument("--hard", type=int, default=200)
    words.add_argument("--workers", type=int, nargs="+", default=[1, 2, 4])
    words.add_argument("--seed", type=int, default=0)
    asked = words.parse_args()
    os.makedirs(asked.folder, exist_ok=True)
    folder, program = os.path.abspath(asked.folder), os.path.abspath(asked.program)
    lists = [("random pairs", written(folder, asked.hard, asked.seed), "lad", asked.hard)]
    if molecules.of_rdkit() and asked.questions:
        molecules.written(folder, molecules.questions(asked.seed, asked.questions))
        os.chdir(folder)
        lists.append(("pieces of molecules", "list", molecules.KIND, asked.questions))
    print("| questions | way | seconds | questions a second |\n|---|---|---|---|")
    for name, path, form, count in lists:
        known = None
        for way, (seconds, found) in ways(program, path, form, asked.workers):
            known = known or found
            print(f"| {count:,} {name} | {way} | {seconds:.2f} | {count / seconds:,.0f} |", flush=True)
            if found != known:
                print(f"{way} answers otherwise: {found} for {known}")
                return 1
        print(f"\n{name}: {dict(known)}, load {os.getloadavg()[0]:.1f}\n", flush=True)
    return 0


if __name__ == "__main__":
    sys.exit(main())
