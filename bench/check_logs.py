#!/usr/bin/env python3
"""Holds the verdicts of two log checkers against each other, on logs, on worked cases, on random logs, and on mutants of these.

usage: python3 bench/check_logs.py CHECKER OTHER [FOLDER ..] [--cases] [--random N] [--closed N] [--mutants N] [--seed S] [--most BYTES] [--keep FOLDER]

CHECKER and OTHER are commands, to which an encoding and a log are added: 'crates/subgraph/out/subgraph check' and
'python3 tools/plain_check.py'. In a FOLDER each NAME.proof is a log over NAME.opb; --cases adds the worked cases of
tools/check_cases.py, whose verdicts are known; --random adds encodings and logs of right form at random, with hints; --closed adds
such without hints, of which most are accepted. Each pair is judged as it is, and in --mutants mutants: from one to three times a line
of the log, or of the encoding in one mutant of five, is dropped, doubled or exchanged with another, a number, a sign, a name, a byte
or the order of words is changed, a word is dropped or put in, or the end is cut. A pair with a file above --most bytes is left out.
The first line that is printed and the status are compared. Prints a table of the verdicts; a difference is told, kept under --keep,
and makes the status 1.
"""
import argparse
import collections
import os
import random
import re
import shlex
import subprocess
import sys
import tempfile

TOP = os.path.dirname(os.path.dirname(os.path.abspath(__file__)))
sys.path.insert(0, os.path.join(TOP, "tools"))

import check_cases  # noqa: E402
from closed_logs import closed_pair  # noqa: E402

NUMBER = re.compile(rb"[0-9]+")


def other_number(rng, number):
    """A number near it, a small one, one at the end of a range, or the same with a zero in front."""
    near = max(0, int(number[:60]) + rng.choice([-2, -1, 1, 2]))
    ends = [64, 65, 4194303, 4194304, 2**32 - 1, 2**32, 2**63 - 1, 2**63, 2**125, 2**125 + 1]
    chosen = rng.choice([near, near, near, rng.randrange(4), rng.randrange(40), rng.choice(ends)])
    return b"0" * (rng.random() < 0.05) + b"%d" % chosen


def other_words(rng, line):
    """The line with one change in it."""
    how = rng.choice(["number", "number", "number", "sign", "name", "name", "swap", "word", "byte"])
    words = line.split(b" ")
    if how == "number" and NUMBER.search(line):
        found = rng.choice(list(NUMBER.finditer(line)))
        return line[: found.start()] + other_number(rng, found.group()) + line[found.end() :]
    if how == "sign":
        signed = [i for i, word in enumerate(words) if re.match(rb"[-+~x]", word)]
        if signed:
            i = rng.choice(signed)
            turned = {b"-": b"+", b"+": b"-", b"~": b""}.get(words[i][:1], b"~x")
            words[i] = turned + words[i][1:]
            return b" ".join(words)
    if how == "name":
        named = [i for i, word in enumerate(words) if re.match(rb"#|[0-9]+\.", word)]
        if named:
            words[rng.choice(named)] = b"%d.%d" % (rng.randrange(3), rng.randrange(1, 20)) if rng.random() < 0.7 else b"#%d" % rng.randrange(5)
            return b" ".join(words)
    if how == "byte":
        at = rng.randrange(len(line) + 1)
        return line[:at] + rng.choice([b" ", b"\t", b"\r", b";", b"+", b"*", b"=", b"x", b"0", b"\xff"]) + line[at + rng.randrange(2) :]
    i, j = rng.randrange(len(words)), rng.randrange(len(words))
    if how == "swap":
        words[i], words[j] = words[j], words[i]
    elif rng.random() < 0.5:
        del words[i]
    else:
        words.insert(i, rng.choice(words + [b"+", b"s", b"2", b"*", b"d", b";", b"x1", b"1", b"0.1", b"#1"]))
    return b" ".join(words)


def mutant(rng, text):
    """The text with one to three changes."""
    for _ in range(rng.choice([1, 1, 1, 2, 3])):
        lines = text.split(b"\n")
        i, j = rng.randrange(len(lines)), rng.randrange(len(lines))
        how = rng.choice(["drop", "double", "exchange", "cut", "words", "words", "words", "words", "words", "words"])
        if how == "drop":
            del lines[i]
        elif how == "double":
            lines.insert(j, lines[i])
        elif how == "exchange":
            lines[i], lines[j] = lines[j], lines[i]
        elif how == "words":
            lines[i] = other_words(rng, lines[i])
        text = b"\n".join(lines)
        if how == "cut":
            text = text[: len(text.rstrip(b"\n")) - rng.randrange(3)]
    return text


def random_number(rng):
    """A small one, now and then one near the widest."""
    return rng.randint(-5, 5) if rng.random() < 0.95 else rng.choice([-1, 1]) * rng.choice([2**123, 2**124, 2**125 - 3, 2**125])


def random_operations(rng, variables, references):
    """Operations that leave one constraint."""
    words, depth = [], 0
    for _ in range(rng.randint(1, 9)):
        kind = rng.choice(["push", "push", "literal", "+", "+", "*", "d", "s"])
        if depth == 0 or kind == "push":
            words.append(rng.choice(references))
            depth += 1
        elif kind == "literal":
            words.append(rng.choice(["x", "~x"]) + str(rng.randint(1, variables)))
            depth += 1
        elif kind == "+" and depth > 1:
            words.append("+")
            depth -= 1
        elif kind in "*d":
            words += [str(rng.randint(1, 4) if rng.random() < 0.95 else rng.choice([2**40, 2**62])), kind]
        else:
            words.append("s")
    return words + ["+"] * (depth - 1)


def random_pair(rng):
    """An encoding and a log that are of right form; whether the log's lines hold is left to chance."""
    variables, count = rng.randint(1, 5), rng.randint(1, 6)
    lines = [f"* #variable= {variables} #constraint= {count}"]
    for _ in range(count):
        terms = [f"{random_number(rng):+} x{rng.randint(1, variables)}" for _ in range(rng.randint(0, variables + 1))]
        lines.append(" ".join([*terms, ">=", str(random_number(rng)), ";"]))
    log = ["embedding proof 1", f"m {count}"]
    references, made, row = [str(i + 1) for i in range(count)], [0, 0], 0
    for _ in range(rng.randint(0, 9)):
        owner = rng.randrange(2)
        name = f"{owner}.{made[owner] + 1}"
        kind = rng.random()
        names = [it for it in references if "." in it]
        if kind < 0.1 and names:
            row += rng.randint(1, 3)
            log.append(f"n {row} {rng.choice(names)}")
            references.append(f"#{row}")
            continue
        if kind < 0.2 and names:
            gone = rng.choice([it for it in references if "." in it or "#" in it])
            log.append(f"d {gone}")
            if rng.random() < 0.9:
                references.remove(gone)
            continue
        if kind < 0.7:
            log.append(" ".join(["p", name, *random_operations(rng, variables, references), ";"]))
        else:
            chosen = rng.sample(range(1, variables + 1), rng.choice([variables, rng.randint(0, variables)]))
            literals = [rng.choice(["x", "~x"]) + str(v) for v in chosen]
            log.append(" ".join(["u", name, *literals, ";", *rng.choices(references, k=rng.randint(1, 6)), ";"]))
        made[owner] += 1
        references.append(name)
    ones = [f" x{v}" for v in range(1, variables + 1) if rng.random() < 0.5]
    log.append(rng.choice(["q", "e " + references[-1], "y" + "".join(ones)]))
    return "\n".join(lines + [""]).encode(), "\n".join(log + [""]).encode()


def verdict(command, files):
    """The first line that a checker prints, and its status."""
    done = subprocess.run([*command, *files], capture_output=True, timeout=3600)
    lines = (done.stdout + done.stderr).split(b"\n")
    return lines[0].decode("latin-1"), done.returncode


def pairs_of(folder, most):
    """The name, the encoding and the log of each pair in a folder, and None for what is left out."""
    for name in sorted(os.listdir(folder)):
        if name.endswith(".proof"):
            files = [os.path.join(folder, it) for it in (name[: -len("proof")] + "opb", name)]
            if max(map(os.path.getsize, files)) > most:
                yield None
                continue
            texts = []
            for file in files:
                with open(file, "rb") as f:
                    texts.append(f.read())
            yield (name, *texts, None)


class Comparison:
    def __init__(self, commands, keep):
        self.commands = commands
        self.keep = keep
        self.agreed = collections.Counter()
        self.kinds = collections.Counter()
        self.differ = 0

    def judge(self, files, kind, name, encoding, log, told):
        """Asks both; `told` is the line that is known to be right, if any."""
        for file, text in zip(files, (encoding, log)):
            with open(file, "wb") as f:
                f.write(text)
        found = [verdict(command, files) for command in self.commands]
        wanted = [(told, check_cases.status_of(told))] if told else []
        self.kinds[kind] += 1
        if len(set(found + wanted)) == 1:
            self.agreed[kind, re.sub(r"line \d+: ", "", found[0][0])] += 1
            return
        self.differ += 1
        if self.keep:
            os.makedirs(self.keep, exist_ok=True)
            for ending, text in ((".opb", encoding), (".proof", log)):
                with open(os.path.join(self.keep, f"{self.differ}{ending}"), "wb") as f:
                    f.write(text)
        print(f"difference {self.differ}: {kind} {name}: {found[0]} and {found[1]}" + (f", wanted {wanted[0]}" if told else ""), flush=True)

    def table(self):
        """A row for each verdict, a column for each kind of text."""
        kinds = list(self.kinds)
        print("| verdict | " + " | ".join(kinds) + " |\n|---" + "|---" * len(kinds) + "|")
        for line in sorted({line for _, line in self.agreed}):
            print(f"| {line} | " + " | ".join(str(self.agreed[kind, line]) for kind in kinds) + " |")
        print("| all that agree | " + " | ".join(str(sum(n for (k, _), n in self.agreed.items() if k == kind)) for kind in kinds) + " |")
        print("| all | " + " | ".join(str(self.kinds[kind]) for kind in kinds) + " |")


def main():
    parser = argparse.ArgumentParser()
    parser.add_argument("checker")
    parser.add_argument("other")
    parser.add_argument("folders", nargs="*")
    parser.add_argument("--cases", action="store_true", help="judge the worked cases too")
    parser.add_argument("--random", type=int, default=0, help="how many random pairs")
    parser.add_argument("--closed", type=int, default=0, help="how many random pairs without hints")
    parser.add_argument("--mutants", type=int, default=10, help="of each pair")
    parser.add_argument("--seed", type=int, default=0)
    parser.add_argument("--most", type=int, default=1000000, help="the most bytes of a file")
    parser.add_argument("--keep", help="a folder for what differs")
    words = parser.parse_args()
    pairs = [pair for folder in words.folders for pair in pairs_of(folder, words.most)]
    left_out = pairs.count(None)
    pairs = [("pair", *pair) for pair in pairs if pair]
    pairs += [("case", *case) for case in check_cases.cases()] if words.cases else []
    rng = random.Random(words.seed)
    pairs += [("random log", f"number {i}", *random_pair(rng), None) for i in range(words.random)]
    pairs += [("log without hints", f"number {i}", *closed_pair(rng), None) for i in range(words.closed)]
    comparison = Comparison([shlex.split(command) for command in (words.checker, words.other)], words.keep)
    with tempfile.TemporaryDirectory() as folder:
        files = [os.path.join(folder, name) for name in ("encoding", "log")]
        for kind, name, encoding, log, told in pairs:
            comparison.judge(files, kind, name, encoding, log, told)
            for _ in range(words.mutants):
                texts = (mutant(rng, encoding), log) if rng.random() < 0.2 else (encoding, mutant(rng, log))
                comparison.judge(files, f"mutant of a {kind}", name, *texts, None)
    comparison.table()
    print(f"{sum(comparison.kinds.values())} compared, {comparison.differ} differ, {left_out} pairs left out as too long")
    sys.exit(1 if comparison.differ else 0)


if __name__ == "__main__":
    main()
