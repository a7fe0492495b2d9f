#!/usr/bin/env python3
"""Runs programs over the pairs of a folder, holds their answers against each other, and prints a table of times by family.

    compare.py FOLDER NAME=COMMAND NAME=COMMAND .. [--limit SECONDS] [--only WORD,WORD] [--peers NAME,NAME] [--over-best] [--csv FILE]

A command is called with the words `PATTERN TARGET [--induced] [--map M] [--less L] [--format F]` behind its own, and prints `yes`, `none` or `unknown`
first; lines `p -> t` behind a `yes` are tested. One that prints `not taken` takes no such pairs, and is not held against them. Times are seconds
of processor time, reading and starting included, but where a program prints a line `seconds N` on standard error, as one does that is a library of
Python: these are its seconds then. A run over the limit counts as the limit. The table gives for each family and program how many pairs it decided,
of how many where it does not take all, and the ratio of the first program's time to its own: the geometric mean over the pairs that either decided, of
times that count for 2 milliseconds at least. With --peers there is one program more, which on each pair is the quickest of those named. With --over-best
there is a second table, by family and size: how many each decided, and the geometric mean of its times over the least of all programs on the pair, a pair
that it did not decide counting with the limit; 1.00 is a program that is the quickest everywhere. The status is 1 where two answers
differ, an answer is not the known one, or a map is no embedding.
"""
import argparse
import json
import math
import os
import re
import resource
import subprocess
import sys

from agree import FORMATS
from asked import Asked

LEAST = 0.002
BEST = "best peer"
NOT_TAKEN = "not taken"


def read_graph(path, kind):
    """The labels of vertices, and for each vertex its edges' ends with their labels; without directions each edge stands at both ends."""
    directed, labelled, edge_labelled = FORMATS[kind]
    with open(path, encoding="ascii") as file:
        numbers = iter(map(int, file.read().split()))
    size = next(numbers)
    labels, near = [], [{} for _ in range(size)]
    for v in range(size):
        labels.append(next(numbers) if labelled else 0)
        for _ in range(next(numbers)):
            u = next(numbers)
            near[v][u] = next(numbers) if edge_labelled else 0
            if not directed:
                near[u][v] = 0
    return labels, near


def asked_of(pair):
    """What a row of a folder's list asks; one that was written before there were maps and orders asks for none of them."""
    return Asked(pair["induced"], pair.get("map", "injective"), tuple(map(tuple, pair.get("less", ()))))


def are_apart(asked, near, images):
    """Whether the images differ that have to, and are in order; `near` are the ends of each vertex's edges."""
    if any(images[a] >= images[b] for a, b in asked.less):
        return False
    around = [set(it) - {v} for v, it in enumerate(near)]
    for v, it in enumerate(near):
        for u in it:
            around[u] |= {v} - {u}
    blocks = {"injective": [range(len(near))], "local": around, "any": []}[asked.maps]
    return all(len({images[v] for v in block}) == len(block) for block in blocks)


def embeds(folder, pair, lines):
    labels, near = read_graph(os.path.join(folder, pair["pattern"]), pair["format"])
    target_labels, target_near = read_graph(os.path.join(folder, pair["target"]), pair["format"])
    images = [int(line.split(" -> ")[1]) for line in lines]
    if len(images) != len(labels) or not are_apart(asked_of(pair), near, images):
        return False
    for p, t in enumerate(images):
        if labels[p] != target_labels[t]:
            return False
        for q, u in enumerate(images):
            here, there = near[p].get(q), target_near[t].get(u)
            if here != there and (here is not None or pair["induced"]):
                return False
    return True


def run(command, folder, pair, limit):
    """The answer, the lines behind it, and the seconds."""
    words = command.split() + [os.path.join(folder, pair["pattern"]), os.path.join(folder, pair["target"])]
    words += asked_of(pair).options()
    words += ["--format", pair["format"]] if pair["format"] != "lad" else []
    before = resource.getrusage(resource.RUSAGE_CHILDREN)

    def bound():
        resource.setrlimit(resource.RLIMIT_CPU, (math.ceil(limit), math.ceil(limit) + 1))

    done = subprocess.run(words, capture_output=True, text=True, preexec_fn=bound)
    after = resource.getrusage(resource.RUSAGE_CHILDREN)
    seconds = after.ru_utime + after.ru_stime - before.ru_utime - before.ru_stime
    told = re.search(r"^seconds (\S+)$", done.stderr, re.M)
    seconds = float(told.group(1)) if told else seconds
    lines = done.stdout.splitlines()
    if lines[:1] == [NOT_TAKEN]:
        return NOT_TAKEN, [], limit
    if done.returncode < 0 or not lines or seconds > limit or lines[0] not in ("yes", "none"):
        return "unknown", [], limit
    return lines[0], lines[1:], seconds


def cells_of(rows, first, name):
    """How many of these pairs a program decided, and the ratio of the first one's time to its own."""
    mine = [(answers, times) for _, answers, times in rows if answers[name] != NOT_TAKEN]
    decided = [{n for n in (first, name) if answers[n] in ("yes", "none")} for answers, _ in mine]
    count = str(sum(name in it for it in decided))
    logs = [math.log(max(times[first], LEAST) / max(times[name], LEAST)) for (_, times), it in zip(mine, decided) if it]
    ratio = f"{math.exp(sum(logs) / len(logs)):.2f}" if logs else ""
    return [count if len(mine) == len(rows) else f"{count} of {len(mine)}" if mine else "", ratio]


def table(rows, programs):
    first = programs[0]
    print(f"| family | pairs | {first} decides |" + "".join(f" {n} decides | {first} / {n} |" for n in programs[1:]))
    print("|---|---|---|" + "---|---|" * (len(programs) - 1))
    for family in list(dict.fromkeys(pair["family"] for pair, _, _ in rows)) + ["all"]:
        mine = [row for row in rows if family in ("all", row[0]["family"])]
        cells = cells_of(mine, first, first)[:1] + [cell for name in programs[1:] for cell in cells_of(mine, first, name)]
        print(f"| {family} | {len(mine)} | " + " | ".join(cells) + " |")


def over_best(rows, name):
    """How many of these pairs a program decided, of how many that it takes, and its times over the least of all."""
    mine = [(answers, times) for _, answers, times in rows if answers[name] != NOT_TAKEN]
    logs = []
    for answers, times in mine:
        deciding = [max(times[n], LEAST) for n, answer in answers.items() if answer in ("yes", "none")]
        if deciding:
            logs.append(math.log(max(times[name], LEAST) / min(deciding)))
    decided = sum(answers[name] in ("yes", "none") for answers, _ in mine)
    if not mine:
        return ""
    return f"{decided} of {len(mine)}; " + (f"{math.exp(sum(logs) / len(logs)):.2f}" if logs else "-")


def second_table(rows, programs):
    print("\n| family, size | pairs | " + " | ".join(programs) + " |\n|---|---|" + "---|" * len(programs))
    kinds = list(dict.fromkeys((pair["family"], pair["size"]) for pair, _, _ in rows))
    groups = [(f"{family}, {size}", [row for row in rows if (row[0]["family"], row[0]["size"]) == (family, size)]) for family, size in kinds]
    groups += [(family, [row for row in rows if row[0]["family"] == family]) for family in dict.fromkeys(family for family, _ in kinds)]
    for what, mine in [*groups, ("all", rows)]:
        print(f"| {what} | {len(mine)} | " + " | ".join(over_best(mine, name) for name in programs) + " |")


def main():
    words = argparse.ArgumentParser()
    words.add_argument("folder")
    words.add_argument("programs", nargs="+")
    words.add_argument("--limit", type=float, default=10)
    words.add_argument("--only", default="")
    words.add_argument("--peers", default="")
    words.add_argument("--over-best", action="store_true")
    words.add_argument("--csv")
    asked = words.parse_args()
    programs = dict(p.split("=", 1) for p in asked.programs)
    with open(os.path.join(asked.folder, "index.json"), encoding="ascii") as file:
        pairs = [p for p in json.load(file) if any(word in p["name"] for word in asked.only.split(","))]
    rows, faults = [], 0
    for pair in pairs:
        times, answers = {}, {}
        for name, command in programs.items():
            answer, lines, times[name] = run(command, asked.folder, pair, asked.limit)
            answers[name] = answer
            if answer == "yes" and lines and not embeds(asked.folder, pair, lines):
                print(f"{pair['name']}: the map of {name} is no embedding", file=sys.stderr)
                faults += 1
        told = {a for a in list(answers.values()) + [pair["answer"]] if a in ("yes", "none")}
        if len(told) > 1:
            print(f"{pair['name']}: the answers differ: {answers}, known: {pair['answer']}", file=sys.stderr)
            faults += 1
        if asked.peers:
            taking = [name for name in asked.peers.split(",") if answers[name] != NOT_TAKEN]
            quickest = min(taking, key=lambda name: (answers[name] == "unknown", times[name]), default=None)
            times[BEST], answers[BEST] = (times[quickest], answers[quickest]) if quickest else (asked.limit, NOT_TAKEN)
        rows.append((pair, answers, times))
        print(pair["name"], *(f"{n} {answers[n]} {times[n]:.3f}" for n in programs), file=sys.stderr)
    if asked.csv:
        with open(asked.csv, "w") as file:
            print("name,family," + ",".join(f"{n} answer,{n} seconds" for n in programs), file=file)
            for pair, answers, times in rows:
                print(pair["name"], pair["family"], *(f"{answers[n]},{times[n]:.4f}" for n in programs), sep=",", file=file)
    table(rows, list(programs) + [BEST] * bool(asked.peers))
    if asked.over_best:
        second_table(rows, list(programs))
    sys.exit(faults > 0)


if __name__ == "__main__":
    main()
