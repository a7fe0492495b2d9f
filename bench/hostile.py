#!/usr/bin/env python3
"""Gives the program hostile texts, and holds each of its answers against a plain reading of the formats.

usage: python3 bench/hostile.py PROGRAM [--texts N | --all N] [--minutes M] [--kinds KIND ..] [--jobs J] [--seed S] [--seconds N] [--folder FOLDER]
           [--keep FOLDER]

PROGRAM is the built program (crates/subgraph/out/subgraph). A hostile text is a good one after one to three edits at random (`edits.py`): a
graph for `solve` or `encode`, in the formats with directions also for `verify`; a `mapping` for `verify`, over graphs in each of the four; for `check`
an `encoding`, a `log`, or one without hints (`plainlog`). For `words` the graphs are good and those of `--map` and `--less` are not. The other files of a question are good. Status, output and the error stream are compared
with what `plain.py` and `tools/plain_check.py` say; where several maps are right any of them will do. A run that ends by a signal or takes longer than
--seconds differs too. The kind `limit` is a few fixed texts at the limits of sizes, and `large` are a few of --megabytes each, spoilt in one
place: graphs, mappings, encodings and logs. Each text is made from the seed, its kind and its place, so that a
run can be repeated, by whatever number of jobs.

--texts are those of each kind; --all 1000000 is a million of all kinds together, as many of each. After --minutes no more are begun.

Prints what came of each kind, by status and cause, how many texts that were, and the processor time that each took, of the program and in all. A
difference is told, its hostile text made smaller as long as there is one, and its files stand in the folder --keep; the status is then 1.
"""
import argparse
import collections
import concurrent.futures
import os
import random
import subprocess
import sys
import tempfile
import time
from dataclasses import dataclass
from typing import Callable, List

import plain
from agree import random_graph
from asked import Asked, of_all
from check_logs import check_cases, mutant, random_pair
from edits import hostile
from plain import FORMATS, Answer

TOP = os.path.dirname(os.path.dirname(os.path.abspath(__file__)))
CHUNK = 100
#: A text of more bytes is kept as it is where it differs.
MOST_SHRUNK = 100_000
#: So many bytes of a large text may be changed, anywhere.
WINDOW = 2000
#: The status of a run that has not ended in time.
NO_ANSWER = -1


@dataclass
class Question:
    """The words of a command before its files, these files' texts, which of them is the hostile one, and what is to be answered to the texts.

    The last is given the answer that was found as well, since more than one may be right."""

    words: List[str]
    texts: List[bytes]
    at: int
    wanted: Callable[[List[bytes], Answer], Answer]


# The kinds of questions --------------------------------------------------------------------------------------------------------


def text_in(rng, kind, graph):
    """The text of a graph in a format; an edge without direction is listed at both ends, and now and then one is listed again."""
    labels, edges = graph
    lines = [[len(labels)]]
    for a, label in enumerate(labels):
        listed = [(b, edges[a, b]) for b in range(len(labels)) if (a, b) in edges]
        listed += [pair for pair in listed if rng.random() < 0.1]
        near = [word for pair in listed for word in pair[: 1 + FORMATS[kind].edge_labels]]
        lines.append([label] * FORMATS[kind].labels + [len(listed)] + near)
    return "".join(" ".join(map(str, line)) + "\n" for line in lines).encode()


def random_in(rng, kind, size):
    """A random graph of a format."""
    return random_graph(rng, size, rng.random(), rng.random() < 0.3, rng.choice([1, 2, 3]), kind)


def planted(rng, kind):
    """A target, a part of it as a pattern, and where this part is; now and then it is somewhere else."""
    target = random_in(rng, kind, rng.randint(0, 9))
    images = rng.sample(range(len(target[0])), rng.randint(0, min(6, len(target[0]))))
    labels = [target[0][t] for t in images]
    edges = {(p, q): target[1][t, u] for p, t in enumerate(images) for q, u in enumerate(images) if (t, u) in target[1]}
    if rng.random() < 0.3:
        images = [rng.randrange(10) for _ in images]
    return (labels, edges), target, images


def options(kind, asked):
    return ["--format", kind] * (kind != "lad") + asked.options()


def graph_question(rng, kind):
    """About half of the patterns occur, and brute force can tell."""
    graphs, at = [random_in(rng, kind, rng.randint(0, most)) for most in (6, 9)], rng.randrange(2)
    asked = of_all(rng, len(graphs[0][0]))
    texts = [text_in(rng, kind, it) for it in graphs]
    texts[at] = hostile(rng, texts[at])
    if rng.random() < 0.25:
        return Question(["encode", *options(kind, asked)], texts, at, lambda it, _: plain.encode(it, kind, asked))
    words = ["solve", *options(kind, asked), "--threads", rng.choice("113")]
    return Question(words, texts, at, lambda it, found: plain.solve(it, kind, asked, found))


def mapping_question(rng, kind, at):
    """A graph is hostile where `at` is 0 or 1, the mapping where it is 2."""
    pattern, target, images = planted(rng, kind)
    asked = of_all(rng, len(pattern[0]))
    mapping = "yes\n" + "".join(f"{p} -> {t}\n" for p, t in enumerate(images))
    texts = [text_in(rng, kind, pattern), text_in(rng, kind, target), mapping.encode()]
    texts[at] = hostile(rng, texts[at])
    return Question(["verify", *options(kind, asked)], texts, at, lambda it, _: plain.verify(it[:2], it[2], kind, asked))


def proof_question(rng, at, hinted):
    """An encoding and a log over it: worked cases, or of right form at random. Edits are those of `check_logs.py` too."""
    case = rng.choice(CASES)
    texts = list(random_pair(rng)) if rng.random() < 0.6 else [case[1], case[2]]
    if not hinted:
        texts[1] = check_cases.without_hints(texts[1])
    texts[at] = (mutant if rng.random() < 0.3 else hostile)(rng, texts[at])
    return Question(["check"], texts, at, lambda it, _: plain.check(*it))


def spoilt(rng, word):
    """A word with a few characters of pairs put in, left out or changed."""
    for _ in range(rng.randint(0, 2)):
        at = rng.randint(0, len(word))
        word = word[:at] + rng.choice(["", *"0123456789,,::+ x"]) + word[at + rng.randint(0, 1) :]
    return word


def words_question(rng, kind):
    """Good graphs, and hostile words for the kind of map and the order of images."""
    texts = [text_in(rng, kind, random_in(rng, kind, rng.randint(0, most))) for most in (4, 6)]
    induced, maps = rng.random() < 0.2, rng.choice([None, None, "injective", "local", "any", "any", "any", "all", "Local", ""])
    number = [0, 0, 0, 1, 1, 1, 2, 2, 3, 4, 2**32 - 1, 2**32, 10**10, "00", "0000000001", "00000000001"]
    pairs = [f"{rng.choice(number)},{rng.choice(number)}" for _ in range(rng.choice([1, 1, 1, 2, 3, 63, 64, 65]))]
    less = rng.choice([None, "0,1", "1,2:2,3", ":".join(pairs), spoilt(rng, "0,1:1,2"), spoilt(rng, ":".join(pairs[:3]))])
    words = ["solve", "--format", kind] + ["--induced"] * induced
    words += ([] if maps is None else ["--map", maps]) + ([] if less is None else ["--less", less])
    asked = plain.asked_by(induced, maps, less)

    def wanted(it, found):
        return Answer(3, b"", b"words: not a command\n") if asked is None else plain.solve(it, kind, asked, found)

    return Question(words, texts, 0, wanted)


def directed_question(rng, kind):
    return graph_question(rng, kind) if rng.random() < 0.5 else mapping_question(rng, kind, rng.randrange(2))


CASES = [case for case in check_cases.cases() if max(map(len, case[1:3])) < 2000]
KINDS = {
    "lad": lambda rng: graph_question(rng, "lad"),
    "vertexlabelledlad": lambda rng: graph_question(rng, "vertexlabelledlad"),
    "directedlad": lambda rng: directed_question(rng, "directedlad"),
    "labelledlad": lambda rng: directed_question(rng, "labelledlad"),
    "mapping": lambda rng: mapping_question(rng, rng.choice(list(FORMATS)), 2),
    "encoding": lambda rng: proof_question(rng, 0, rng.random() < 0.7),
    "log": lambda rng: proof_question(rng, 1, True),
    "plainlog": lambda rng: proof_question(rng, 1, False),
    "words": lambda rng: words_question(rng, rng.choice(list(FORMATS))),
}


def lonely(size):
    """A graph of so many vertices without an edge."""
    return b"%d\n" % size + b"0\n" * size


def filled(text, size):
    return text + b" " * (size - len(text))


def limits():
    """Questions at the limits of sizes, each with its one answer."""
    most = plain.MOST_BYTES
    edge, nothing = b"2\n1 1\n1 0\n", b"0\n"
    cases = [
        ("solve", [lonely(1024), lonely(1023)], Answer(1, b"none\n")),
        ("solve", [lonely(1025), lonely(1025)], Answer(4, b"", b"pattern: word 1: TooMany\n")),
        ("solve", [edge, lonely(8192)], Answer(1, b"none\n")),
        ("solve", [edge, lonely(8193)], Answer(4, b"", b"target: word 1: TooMany\n")),
        ("solve", [b"4294967295\n", edge], Answer(4, b"", b"pattern: word 1: TooMany\n")),
        ("solve", [b"4294967296\n", edge], Answer(4, b"", b"pattern: word 1: NotNumber\n")),
        ("solve", [b"1 4294967295\n", edge], Answer(4, b"", b"pattern: word 3: EndsEarly\n")),
        ("solve", [filled(nothing, most), nothing], Answer(0, b"yes\n")),
        ("solve", [filled(nothing, most + 1), nothing], Answer(4, b"", b"pattern: too long\n")),
        ("solve", [nothing, filled(nothing, most)], Answer(0, b"yes\n")),
        ("solve", [nothing, filled(nothing, most + 1)], Answer(4, b"", b"target: too long\n")),
        ("solve", [b"0" * (most - 1) + b"0", nothing], Answer(0, b"yes\n")),
        ("solve", [b"9" * most, nothing], Answer(4, b"", b"pattern: word 1: NotNumber\n")),
        ("verify", [nothing, nothing, filled(b"yes\n", most)], Answer(4, b"", b"mapping: line 2: Form\n")),
        ("verify", [nothing, nothing, filled(b"yes\n", most + 1)], Answer(4, b"", b"mapping: too long\n")),
        ("verify", [nothing, nothing, b"\n" * most], Answer(4, b"", b"mapping: line 1: Form\n")),
        ("verify --format labelledlad", [nothing, b"8192\n" + b"0 0\n" * 8192, b"yes\n"], Answer(0, b"embedding\n")),
        ("verify --format labelledlad", [nothing, b"8193\n", b"yes\n"], Answer(4, b"", b"target: word 1: TooMany\n")),
        ("verify --format labelledlad", [b"1\n0 4294967295 0\n", nothing, b""], Answer(4, b"", b"pattern: word 5: EndsEarly\n")),
        ("verify --format labelledlad", [b"1\n0 4294967295 0 1\n", nothing, b""], Answer(4, b"", b"pattern: word 6: EndsEarly\n")),
        ("verify --format labelledlad", [b"2\n0 2 1 7 1 8\n0 0\n", nothing, b""], Answer(4, b"", b"pattern: word 7: LabelClash\n")),
        ("verify --format labelledlad", [b"2\n0 2 1 7 1 4294967296\n0 0\n", nothing, b""], Answer(4, b"", b"pattern: word 7: NotNumber\n")),
        ("verify --format directedlad", [edge, b"2\n1 1\n0\n", b"yes\n0 -> 0\n1 -> 1\n"], Answer(7, b"", b"mapping: not an embedding\n")),
        ("check", [b"* #variable= 4294967295 #constraint= 0\n", b"embedding proof 1\nm 0\nq\n"], Answer(0, b"accepted undecided\n")),
        ("check", [b"* #variable= 4294967295 #constraint= 0\n", b"embedding proof 2\nm 0\nq\n"], Answer(0, b"accepted undecided\n")),
        ("check", [b"* #variable= 0 #constraint= 0\n", b"embedding proof 3\nm 0\nq\n"], Answer(7, b"", b"log: line 1: Form\n")),
        ("check", [b"* #variable= 1 #constraint= 9223372036854775807\n", b""], Answer(4, b"", b"encoding: line 2: Count\n")),
    ]
    for command, texts, answer in cases:
        yield Question(command.split(), texts, 0, lambda *_, right=answer: right)


def large(megabytes, seed):
    """Texts of so many bytes, most with an edit somewhere; that a plain checker in Python reads them too takes most of the time."""
    size = megabytes * 1_000_000
    nothing, edge = b"0\n", b"2\n1 1\n1 0\n"
    many, width = 300, size // (300 * 4)
    rows = (b"%d " % width + b" ".join(b"%d" % ((v + u) % many) for u in range(width)) + b"\n" for v in range(many))
    graph = b"%d\n" % many + b"".join(rows)
    mapping = b"yes\n" + b"".join(b"%d -> %d\n" % (p, p % 8192) for p in range(size // 15))
    block = b"".join(b"+1 x%d -2 x%d +1 x%d >= 1 ;\n" % (i % 1000 + 1, i * 7 % 1000 + 1, i * 31 % 1000 + 1) for i in range(1000))
    times = -(-size // len(block))
    encoding = b"* #variable= 1000 #constraint= %d\n" % (1000 * times) + block * times
    short = b"* #variable= 1000 #constraint= 500\n" + b"".join(b"+1 x%d +1 x%d >= 1 ;\n" % (2 * k + 1, 2 * k + 2) for k in range(500))
    hinted = b"".join(b"u 0.%d x%d x%d ; %d ;\n" % (i, i % 500 * 2 + 1, i % 500 * 2 + 2, i % 500 + 1) for i in range(1, size // 28))
    summed = b"".join(b"p 0.%d %d x%d + 3 * ;\n" % (i, i % 500 + 1, i * 7 % 1000 + 1) for i in range(1, size // 24))
    head, last = b"embedding proof 1\nm 500\n", b"q\n"
    cases = [
        ("verify", [edge, graph, b"yes\n0 -> 1\n1 -> 2\n"], 1, False),
        ("verify", [edge, graph, b"yes\n0 -> 1\n1 -> 2\n"], 1, True),
        ("verify", [nothing, nothing, mapping], 2, True),
        ("check", [encoding, b"embedding proof 1\nm %d\nq\n" % (1000 * times)], 0, True),
        ("check", [short, head + hinted + last], 1, False),
        ("check", [short, head + summed + last], 1, True),
        ("check", [short, check_cases.without_hints(head) + summed + last], 1, True),
    ]
    for k, (command, texts, at, is_spoilt) in enumerate(cases):
        if is_spoilt:
            rng, text = random.Random(f"{seed} large {k}"), texts[at]
            place = rng.randrange(len(text) - WINDOW)
            texts[at] = text[:place] + hostile(rng, text[place : place + WINDOW]) + text[place + WINDOW :]
        wanted = (lambda it, _: plain.check(*it)) if command == "check" else (lambda it, _: plain.verify(it[:2], it[2], "lad", Asked()))
        yield Question([command], texts, at, wanted)


# Asking ------------------------------------------------------------------------------------------------------------------------


class Asking:
    """Asks the program, whose files stand in a folder of this object's own."""

    def __init__(self, program, seconds, folder):
        self.program = program
        self.seconds = seconds
        self.folder = folder

    def answer(self, question, texts):
        files = [os.path.join(self.folder, str(i)) for i in range(len(texts))]
        for file, text in zip(files, texts):
            with open(file, "wb") as f:
                f.write(text)
        try:
            words = [self.program, *question.words, *files]
            done = subprocess.run(words, capture_output=True, stdin=subprocess.DEVNULL, timeout=self.seconds)
        except subprocess.TimeoutExpired:
            return Answer(NO_ANSWER, b"", b"no answer in time\n")
        return Answer(done.returncode, done.stdout, done.stderr)

    def answers(self, question, text):
        """What is answered where this is the hostile text, and what is right."""
        texts = list(question.texts)
        texts[question.at] = text
        found = self.answer(question, texts)
        return found, question.wanted(texts, found)

    def differs(self, question, text):
        found, right = self.answers(question, text)
        return found != right

    def smallest(self, question):
        """A smaller hostile text that differs too: pieces are left out as long as it does."""
        text = question.texts[question.at]
        size = len(text) // 2
        while size:
            at = 0
            while at < len(text):
                shorter = text[:at] + text[at + size :]
                if self.differs(question, shorter):
                    text = shorter
                else:
                    at += size
            size //= 2
        return text


def what_came(answer):
    """The status, and the line that was told without the place in it: a row of the table."""
    line = (answer.out + answer.err).split(b"\n")[0].decode("latin-1")
    who, _, cause = line.partition(": ")
    if answer.status == 0 and line.startswith("* "):
        line = "an encoding"
    return answer.status, f"{who}: {cause.split(': ')[-1]}" if cause else line


def told(answer):
    return f"status {answer.status}, {(answer.out + answer.err)[:200]!r}"


def ask(words, questions):
    """What came of each question, and each that differs: with its smallest text, what was found and what is right."""
    came, differences = collections.Counter(), []
    with tempfile.TemporaryDirectory(dir=words.folder) as own:
        asking = Asking(words.program, words.seconds, own)
        for question in questions:
            found, right = asking.answers(question, question.texts[question.at])
            came[what_came(found)] += 1
            if found != right and found.status != NO_ANSWER and len(question.texts[question.at]) <= MOST_SHRUNK:
                question.texts[question.at] = asking.smallest(question)
                found, right = asking.answers(question, question.texts[question.at])
            if found != right:
                differences.append((question, found, right))
    return came, differences


#: The kinds of which there are a few texts, whatever is asked for.
FEW = {"limit": lambda words: limits(), "large": lambda words: large(words.megabytes, words.seed)}


def chunk(words, kind, begin, end):
    if kind in FEW:
        return kind, *ask(words, FEW[kind](words))
    if time.monotonic() > words.last:
        return kind, collections.Counter(), []
    rngs = [random.Random(f"{words.seed} {kind} {i}") for i in range(begin, end)]
    return kind, *ask(words, [KINDS[kind](rng) for rng in rngs])


def keep(folder, name, question):
    """The files of a question, one after another, under a name."""
    os.makedirs(folder, exist_ok=True)
    files = [os.path.join(folder, f"{name}.{i}") for i in range(len(question.texts))]
    for file, text in zip(files, question.texts):
        with open(file, "wb") as f:
            f.write(text)
    return files


def table(came):
    """A row for each status and line, a column for each kind of text."""
    kinds = list(came)
    print("| status | what came | " + " | ".join(kinds) + " |\n|---|---" + "|---" * len(kinds) + "|")
    for status, line in sorted({row for rows in came.values() for row in rows}):
        print(f"| {status} | `{line}` | " + " | ".join(str(came[kind][status, line]) for kind in kinds) + " |")
    print("| | all | " + " | ".join(str(sum(came[kind].values())) for kind in kinds) + " |")


def words_of_the_line():
    parser = argparse.ArgumentParser()
    parser.add_argument("program")
    parser.add_argument("--texts", type=int, default=1000, help="how many of each kind")
    parser.add_argument("--all", type=int, help="how many of all kinds together, as many of each")
    parser.add_argument("--minutes", type=float, default=float("inf"), help="after which no more texts are begun")
    parser.add_argument("--kinds", nargs="+", choices=[*KINDS, *FEW], default=[*KINDS, *FEW])
    parser.add_argument("--megabytes", type=int, default=11, help="of each large text")
    parser.add_argument("--jobs", type=int, default=1)
    parser.add_argument("--seed", type=int, default=0)
    parser.add_argument("--seconds", type=float, default=60, help="that a run may take")
    parser.add_argument("--folder", default="/dev/shm", help="where the files of the questions are written; memory is best")
    parser.add_argument("--keep", default=os.path.join(TOP, "out", "hostile"), help="a folder for what differs")
    words = parser.parse_args()
    words.random = [kind for kind in words.kinds if kind not in FEW]
    if words.all and words.random:
        words.texts = -(-words.all // len(words.random))
    words.last = time.monotonic() + words.minutes * 60
    return words


def chunks(words):
    """What is asked at once, kind after kind, so that all kinds have come equally far wherever it ends."""
    for kind in words.kinds:
        if kind in FEW:
            yield kind, 0, 0
    for begin in range(0, words.texts, CHUNK):
        for kind in words.random:
            yield kind, begin, min(begin + CHUNK, words.texts)


def main():
    words = words_of_the_line()
    came, differ = {kind: collections.Counter() for kind in words.kinds}, 0
    with concurrent.futures.ThreadPoolExecutor(words.jobs) as pool:
        for kind, counts, differences in pool.map(lambda it: chunk(words, *it), chunks(words)):
            came[kind] += counts
            for question, found, right in differences:
                differ += 1
                files = keep(words.keep, f"{differ}.{kind}", question)
                print(f"difference {differ}: {' '.join(question.words + files)}: {told(found)}; wanted {told(right)}", flush=True)
    table(came)
    count = sum(sum(rows.values()) for rows in came.values())
    print(f"{count} texts, {differ} answers differ from the plain reading")
    used = os.times()
    own, program = used.user + used.system, used.children_user + used.children_system
    print(f"{1000 * program / max(count, 1):.1f} ms of processor time for each text in the program, {1000 * (own + program) / max(count, 1):.1f} in all")
    sys.exit(1 if differ else 0)


if __name__ == "__main__":
    main()
