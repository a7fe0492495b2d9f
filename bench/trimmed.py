#!/usr/bin/env python3
"""Trims accepted logs by the program, and holds what comes against two checkers and a plain trimmer; or measures what trimming saves.

usage: python3 bench/trimmed.py PROGRAM [--logs N] [--seed S] [--most BYTES] [--keep FOLDER]
       python3 bench/trimmed.py PROGRAM --measure PAIRS [--only WORD,..] [--limit SECONDS] [--times N]

The logs are those of `solve --prove` on the problems of `problems.py`, by 1 and by 4 threads, with hints and without; the same with lines put in
that do nothing (steps that nobody needs, further names, deletions); random logs, and mutants of all these. Of each that is accepted: the program's
trimmed log has the same verdict from `check` and from `tools/plain_check.py`; trimmed again, by the program or by `tools/plain_trim.py`, it
stays as it is; and it is the plain trimmer's, to the byte where the log has hints. Of a log without hints it makes constraints of this one,
in their order. A log that is refused is refused by `trim` too, with the same line, and OUT is untouched. The status is 1 at the
first difference, whose files stay in --keep.

With --measure the pairs of the folder (`pairs.py`) whose answer is `none` are solved with a log, and a table says what of it is kept, how long
trimming takes, and what `check` takes of time and memory before and after. Times are medians of runs that take turns.
"""
import argparse
import collections
import functools
import json
import os
import random
import statistics
import subprocess
import sys
import tempfile

from agree import FORMATS, text_of
from check_logs import mutant, random_pair
from compare import asked_of
from problems import hard, small, structured, varied

TOP = os.path.dirname(os.path.dirname(os.path.abspath(__file__)))
sys.path.insert(0, os.path.join(TOP, "tools"))

import plain_check  # noqa: E402
import plain_trim  # noqa: E402

#: The most bytes of a log of which mutants are made.
MUTATED = 5000
#: The most lines of a log without hints times lines of its encoding: each line is sought among all constraints.
MOST_SOUGHT = 20000
BEFORE = b"as it was\n"
#: What the last encodings say: mutants of a log have the same one.
model_of = functools.lru_cache(2)(plain_check.read_encoding)


def put(path, text):
    with open(path, "wb") as file:
        file.write(text)


def text_in(path):
    with open(path, "rb") as file:
        return file.read()


def say(words):
    """The first line that a command prints, and its status."""
    done = subprocess.run(words, capture_output=True, timeout=3600)
    return (done.stdout + done.stderr).decode().split("\n")[0], done.returncode


class Constraints(plain_check.Log):
    """What a log makes, in order: the kind of each line and its constraint."""

    def __init__(self, *model):
        super().__init__(*model)
        self.found = []

    def give(self, word, constraint):
        super().give(word, constraint)
        self.found.append(constraint)


def made_by(model, log):
    found = Constraints(*model)
    plain_check.judge(model, log, found)
    return found.found


def are_among(some, all_):
    """Whether some stand among all, in their order."""
    rest = iter(all_)
    return all(any(it == other for other in rest) for it in some)


class Trials:
    """A folder with an encoding, a log and the trimmed ones, and the program that makes these."""

    def __init__(self, program, folder):
        self.program = program
        self.files = [os.path.join(folder, name) for name in ("encoding", "log", "out", "again")]

    def wrong(self, encoding, log):
        """What is wrong with the trimmed log, if anything is; and the verdict of the whole one."""
        opb, proof, out, again = self.files
        for path, text in zip(self.files, (encoding, log, BEFORE)):
            put(path, text)
        told, status = say([self.program, "check", opb, proof])
        trimmed = say([self.program, "trim", opb, proof, out])
        if status:
            good = trimmed == (told, status) and text_in(out) == BEFORE
            return None if good else f"check says {told}, and trim {trimmed[0]}", "refused"
        kept = trimmed[0].split(" ")
        if trimmed[1] or len(kept) != 4:
            return f"check says {told}, and trim {trimmed[0]}", told
        after = say([self.program, "check", opb, out])
        if after != (told, status):
            return f"check says {told}, and of the trimmed log {after[0]}", told
        found = say([self.program, "trim", opb, out, again])
        if found != (f"kept {kept[1]} of {kept[1]}", 0) or text_in(again) != text_in(out):
            return f"trimmed again {found[0]}, before {trimmed[0]}", told
        return self.plainly(encoding, log, told, trimmed[0]), told

    def plainly(self, encoding, log, told, trimmed):
        """What plain Python finds wrong."""
        model, out = model_of(encoding), text_in(self.files[2])
        shown = f"accepted {plain_check.judge(model, out)}"
        if shown != told:
            return f"check says {told}, and the plain checker of the trimmed log {shown}"
        mine = plain_trim.trim(model, out)
        if mine[0] != out:
            return "the plain trimmer finds more to trim"
        whole = plain_trim.trim(model, log)
        if log.startswith(b"embedding proof 1"):
            if (whole[0], f"kept {whole[1]} of {whole[2]}") != (out, trimmed):
                return f"the plain trimmer kept {whole[1]} of {whole[2]}, and the program {trimmed}"
        elif mine[1] and not are_among(made_by(model, out), made_by(model, log)) or whole[2] != int(trimmed.split(" ")[3]):
            return "the trimmed log makes what the log does not"
        return None


def grown(rng, log):
    """The log with lines put in that do nothing, and deletions where a name is used for the last time."""
    lines = log.split(b"\n")[:-1]
    rows = [at for at, line in enumerate(lines) if line.startswith(b"n ")]
    row = max([int(lines[at].split(b" ")[1]) for at in rows], default=-1)
    put_in, names, count = [], [], 0
    for at, line in enumerate(lines):
        put_in.append(line)
        words = line.split(b" ")
        if line[:2] in (b"p ", b"u "):
            names.append(words[1])
        later = b" ".join(lines[at + 1 :]).split(b" ")
        if at < 1 or at == len(lines) - 1 or rng.random() > 0.3:
            continue
        if rng.random() < 0.5:
            count += 1
            used = rng.choice(names or [b"1"])
            put_in.append(b"p 63.%d %s ;" % (count, used))
            names += [b"63.%d" % count] if rng.random() < 0.5 else []
        elif names and (not rows or at > rows[-1]) and rng.random() < 0.5:
            row += rng.randint(1, 3)
            put_in.append(b"n %d %s" % (row, rng.choice(names)))
        gone = [name for name in names if name not in later]
        if gone and rng.random() < 0.5:
            put_in.append(b"d " + gone[0])
            names.remove(gone[0])
    return b"\n".join(put_in) + b"\n"


def is_accepted(encoding, log):
    try:
        plain_check.judge(model_of(encoding), log)
    except plain_check.Fault:
        return False
    return True


def mutants(rng, encoding, log):
    """A mutant that is accepted, if one of ten is, and now and then one that is not."""
    for _ in range(10):
        made = mutant(rng, log)
        accepted = made != log and is_accepted(encoding, made)
        if accepted or rng.random() < 0.03:
            yield encoding, made, "mutants"
        if accepted:
            return


def proved(program, rng, folder):
    """The encoding and the log of a problem, and what kind of log it is."""
    make = rng.choice([small, hard, structured, structured])
    problem = make(rng, rng.choice(list(FORMATS)))
    if make is not small and rng.random() < 0.5:
        problem = varied(rng, problem)
    files = [os.path.join(folder, name) for name in ("pattern", "target", "e.opb", "l.proof")]
    for path, graph in zip(files, (problem.pattern, problem.target)):
        put(path, text_of(graph, problem.kind).encode())
    threads, profile = rng.choice(["1", "4"]), rng.choice(["1", "1", "2"])
    words = [program, "solve", *problem.asked.options(), "--format", problem.kind, "--threads", threads, "--profile", profile]
    words += ["--seed", str(rng.randrange(2**64)), "--budget", str(rng.choice([1, 10, 300, 300, 300])), *files[:2]]
    if rng.random() < 0.3:
        words += ["--book", str(rng.choice([0, 1, 5, 100]))]
    said, status = say([*words, "--prove", files[2], "--log", files[3]])
    if status > 2:
        raise SystemExit(f"{' '.join(words)}: {said}")
    return text_in(files[2]), text_in(files[3]), f"{threads} thread{'s' * (threads != '1')}, profile {profile}"


def logs(program, rng, folder, most):
    """Encodings and logs without end, none of more bytes than `most`, each with its kind."""
    while True:
        if rng.random() < 0.15:
            encoding, log = random_pair(rng)
            kind = "random"
        else:
            encoding, log, kind = proved(program, rng, folder)
        sought = log.count(b"\n") * encoding.count(b"\n")
        if len(log) > most or log.startswith(b"embedding proof 2") and sought > MOST_SOUGHT:
            continue
        yield encoding, log, kind
        if is_accepted(encoding, log) and rng.random() < 0.5:
            yield encoding, grown(rng, log), "lines put in"
        if len(log) <= MUTATED:
            yield from mutants(rng, encoding, log)


def test(asked):
    rng = random.Random(asked.seed)
    counts, accepted = collections.Counter(), 0
    with tempfile.TemporaryDirectory() as folder:
        trials = Trials(asked.program, folder)
        for encoding, log, kind in logs(asked.program, rng, folder, asked.most):
            wrong, told = trials.wrong(encoding, log)
            if wrong:
                if asked.keep:
                    os.makedirs(asked.keep, exist_ok=True)
                    for name, text in (("encoding", encoding), ("log", log), ("out", text_in(trials.files[2]))):
                        put(os.path.join(asked.keep, name), text)
                print(f"a log of {kind}, after {accepted}: {wrong}")
                return 1
            counts[kind, told] += 1
            accepted += told != "refused"
            if told != "refused" and accepted % 100 == 0:
                print(accepted, "logs", file=sys.stderr, flush=True)
            if accepted == asked.logs:
                break
    verdicts = sorted({told for _, told in counts})
    print("| logs | " + " | ".join(verdicts) + " |\n|---" + "|---" * len(verdicts) + "|")
    for kind in sorted({kind for kind, _ in counts}):
        print(f"| {kind} | " + " | ".join(str(counts[kind, told]) for told in verdicts) + " |")
    print(f"{accepted} accepted logs trimmed as they should be")
    return 0


def measured(words, limit):
    """What a command prints, its processor seconds, and its most megabytes."""
    child = subprocess.Popen(["prlimit", f"--cpu={limit}", *words], stdout=subprocess.PIPE, stderr=subprocess.STDOUT)
    said = child.stdout.read().decode()
    _, status, used = os.wait4(child.pid, 0)
    child.returncode = os.waitstatus_to_exitcode(status)
    return said.split("\n")[0], used.ru_utime + used.ru_stime, used.ru_maxrss / 1024


def made_lines(path):
    with open(path, "rb") as file:
        return sum(line[:2] in (b"p ", b"u ") for line in file)


def measure(asked):
    with open(os.path.join(asked.measure, "index.json"), encoding="ascii") as file:
        pairs = [it for it in json.load(file) if any(word in it["name"] for word in asked.only.split(","))]
    print("| log | threads | lines `p`, `u` | kept | million bytes | after | `trim` | `check` | after | MB | after | `trim`'s MB |")
    print("|---|---|---|---|---|---|---|---|---|---|---|---|")
    with tempfile.TemporaryDirectory() as folder:
        opb, proof, out = (os.path.join(folder, name) for name in ("e.opb", "l.proof", "o.proof"))
        for pair in pairs:
            graphs = [os.path.join(asked.measure, pair[it]) for it in ("pattern", "target")]
            for threads in asked.threads.split(","):
                words = ["solve", "--format", pair["format"], *asked_of(pair).options(), "--threads", threads, "--book", "4194304"]
                said = measured([asked.program, *words, *graphs, "--prove", opb, "--log", proof], asked.limit)
                if said[0] != "none":
                    print(f"{pair['name']}: {said[0] or 'stopped'}", file=sys.stderr)
                    continue
                rows = collections.defaultdict(list)
                for _ in range(asked.times):
                    for name, run in (("trim", ["trim", opb, proof, out]), ("check", ["check", opb, proof]), ("after", ["check", opb, out])):
                        rows[name].append(measured([asked.program, *run], 36000))
                    if {it[0] for name in ("check", "after") for it in rows[name]} != {"accepted unsatisfiable"}:
                        raise SystemExit(f"{pair['name']}: {dict(rows)}")
                time = {name: statistics.median(it[1] for it in row) for name, row in rows.items()}
                most = {name: max(it[2] for it in row) for name, row in rows.items()}
                size = [os.path.getsize(it) / 1e6 for it in (proof, out)]
                lines = [made_lines(it) for it in (proof, out)]
                print(f"| {pair['name']} | {threads} | {lines[0]:,} | {lines[1]:,} | {size[0]:.1f} | {size[1]:.1f} | {time['trim']:.2f} | {time['check']:.2f} "
                      f"| {time['after']:.2f} | {most['check']:.0f} | {most['after']:.0f} | {most['trim']:.0f} |", flush=True)
    return 0


def main():
    parser = argparse.ArgumentParser()
    parser.add_argument("program")
    parser.add_argument("--logs", type=int, default=2000, help="how many accepted logs")
    parser.add_argument("--seed", type=int, default=0)
    parser.add_argument("--most", type=int, default=30000, help="the most bytes of a log, which plain Python judges too")
    parser.add_argument("--keep", help="a folder for what differs")
    parser.add_argument("--measure", help="a folder of pairs")
    parser.add_argument("--only", default="")
    parser.add_argument("--threads", default="1,4")
    parser.add_argument("--limit", type=int, default=60, help="the most processor seconds of a search")
    parser.add_argument("--times", type=int, default=3)
    asked = parser.parse_args()
    sys.exit(measure(asked) if asked.measure else test(asked))


if __name__ == "__main__":
    main()
