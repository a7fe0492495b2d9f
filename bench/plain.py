"""What the program is to answer, in plain Python, read off docs/FORMATS.md and the README alone: it shares nothing with the program.

Encodings and logs are judged by `tools/plain_check.py`; this adds graphs, mappings, the encoding's text and the statuses. A graph is a list of
labels and, for each ordered pair with an edge, this edge's label: without directions for a pair both ways round, so that `agree.py` can take it.
"""
import os
import re
import sys
from dataclasses import dataclass

from agree import occurs
from asked import MAPS, Asked, differ, is_near

sys.path.insert(0, os.path.join(os.path.dirname(os.path.dirname(os.path.abspath(__file__))), "tools"))

import plain_check  # noqa: E402

MOST_BYTES = 67108864
MOST_VERTICES = {"pattern": 1024, "target": 8192}
MOST_PAIRS = 64


@dataclass(frozen=True)
class Format:
    """What a format of graphs tells beside each vertex's neighbours."""

    labels: bool = False
    directed: bool = False
    edge_labels: bool = False


FORMATS = {
    "lad": Format(),
    "vertexlabelledlad": Format(labels=True),
    "directedlad": Format(directed=True),
    "labelledlad": Format(labels=True, directed=True, edge_labels=True),
}


@dataclass(frozen=True)
class Answer:
    """The status of a run, and what it wrote."""

    status: int
    out: bytes = b""
    err: bytes = b""


class Refused(Exception):
    """A text is refused; the exception's text is the line that tells it."""

    def answer(self):
        return Answer(4, b"", f"{self}\n".encode())


def number(word):
    """The value of a word of a graph's text, None where it is no number."""
    value = plain_check.value(word) if re.fullmatch(rb"[0-9]+", word) else 2**32
    return value if value < 2**32 else None


class Words:
    """A graph's words, taken one by one."""

    def __init__(self, who, text):
        if len(text) > MOST_BYTES:
            raise Refused(f"{who}: too long")
        self.who = who
        self.words = re.findall(rb"[^ \t\r\n]+", text)
        self.taken = 0

    def refuse_if(self, wrong, cause):
        if wrong:
            raise Refused(f"{self.who}: word {self.taken}: {cause}")

    def next(self):
        """The number in the next place."""
        self.taken += 1
        self.refuse_if(self.taken > len(self.words), "EndsEarly")
        value = number(self.words[self.taken - 1])
        self.refuse_if(value is None, "NotNumber")
        return value

    def end(self):
        self.taken += 1
        self.refuse_if(self.taken <= len(self.words), "WordsLeft")


def read_graph(who, text, kind):
    words = Words(who, text)
    size = words.next()
    words.refuse_if(size > MOST_VERTICES[who], "TooMany")
    labels, edges = [], {}
    for a in range(size):
        labels.append(words.next() if FORMATS[kind].labels else 0)
        for _ in range(words.next()):
            b = words.next()
            words.refuse_if(b >= size, "NoSuchVertex")
            label = words.next() if FORMATS[kind].edge_labels else 0
            words.refuse_if(FORMATS[kind].directed and edges.get((a, b), label) != label, "LabelClash")
            edges[a, b] = label
            if not FORMATS[kind].directed:
                edges[b, a] = label
    words.end()
    return labels, edges


def asked_by(induced, maps, less):
    """What the words of these options ask, nothing where they are no command. An option that is not there is None."""
    pairs = [re.fullmatch(r"([0-9]{1,10}),([0-9]{1,10})", it) for it in less.split(":")] if less is not None else []
    if None in pairs or len(pairs) > MOST_PAIRS or maps not in (None, *MAPS):
        return None
    numbers = tuple((int(it[1]), int(it[2])) for it in pairs)
    if any(a == b or max(a, b) >= 2**32 for a, b in numbers) or induced and maps not in (None, "injective"):
        return None
    return Asked(induced, maps or "injective", numbers)


def read_graphs(texts, kind, asked):
    """The pattern and the target. The pattern is read first, and so refused first; then come the pairs that are to be in order."""
    pattern = read_graph("pattern", texts[0], kind)
    for k, pair in enumerate(asked.less, 1):
        if max(pair) >= len(pattern[0]):
            raise Refused(f"less: pair {k}: NoSuchVertex")
    return pattern, read_graph("target", texts[1], kind)


def embeds(pattern, target, asked, images):
    """Whether the images are an embedding, pair by pair."""
    vertices = range(len(pattern[0]))
    if len(images) != len(vertices) or any(t >= len(target[0]) for t in images):
        return False
    if any(images[p] == images[q] and differ(asked, pattern, p, q) for p in vertices for q in range(p)):
        return False
    if any(images[a] >= images[b] for a, b in asked.less) or any(pattern[0][p] != target[0][images[p]] for p in vertices):
        return False
    pairs = [(pattern[1].get((p, q)), target[1].get((images[p], images[q]))) for p in vertices for q in vertices]
    return all(here == there or here is None and not asked.induced for here, there in pairs)


def read_mapping(text):
    if len(text) > MOST_BYTES:
        raise Refused("mapping: too long")
    *lines, rest = text.split(b"\n")
    images = []
    for place, line in enumerate(lines, 1):
        found = re.fullmatch(rb"(0|[1-9][0-9]*) -> (0|[1-9][0-9]*)", line)
        good = line == b"yes" if place == 1 else found and number(found[1]) == place - 2 and number(found[2]) is not None
        if not good:
            raise Refused(f"mapping: line {place}: Form")
        if place > 1:
            images.append(number(found[2]))
    if rest or not lines:
        raise Refused(f"mapping: line {len(lines) + 1}: Form")
    return images


def solve(texts, kind, asked, found):
    """The right answer; where several maps are right and `found` tells one of them, `found`."""
    try:
        pattern, target = read_graphs(texts, kind, asked)
    except Refused as fault:
        return fault.answer()
    if not occurs(pattern, target, asked, []):
        return Answer(1, b"none\n")
    try:
        images = read_mapping(found.out)
    except Refused:
        images = []
    right = (found.status, found.err) == (0, b"") and embeds(pattern, target, asked, images)
    return found if right and found.out.startswith(b"yes\n") else Answer(0, b"yes\n..")


def verify(texts, mapping, kind, asked):
    try:
        pattern, target = read_graphs(texts, kind, asked)
        images = read_mapping(mapping)
    except Refused as fault:
        return fault.answer()
    if embeds(pattern, target, asked, images):
        return Answer(0, b"embedding\n")
    return Answer(7, b"", b"mapping: not an embedding\n")


def blocks(pattern, asked):
    """The sets of vertices of which any two have to have two images: all, or those around each vertex with two neighbours, or none."""
    vertices = range(len(pattern[0]))
    if asked.maps == "injective":
        return [vertices]
    around = [[q for q in vertices if is_near(pattern, c, q)] for c in vertices]
    return [near for near in around if len(near) > 1] if asked.maps == "local" else []


def constraints(pattern, target, asked):
    """Each constraint of the encoding: the terms, by their variables, and the bound."""
    vertices, values = range(len(pattern[0])), range(len(target[0]))

    def x(p, t):
        return p * len(values) + t + 1

    def right(p, q, t, u):
        """Whether what leads from t to u is as what leads from p to q asks."""
        here, there = pattern[1].get((p, q)), target[1].get((t, u))
        return here == there or here is None and not asked.induced

    for p in vertices:
        yield {x(p, t): 1 for t in values}, 1
        yield {x(p, t): -1 for t in values}, -1
    for block in blocks(pattern, asked):
        for t in values:
            yield {x(p, t): -1 for p in block}, -1
    for p in vertices:
        for t in values:
            if pattern[0][p] != target[0][t] or not right(p, p, t, t):
                yield {x(p, t): -1}, 0
    for is_edge in (True, False) if asked.induced else (True,):
        for p in vertices:
            for q in vertices:
                if p != q and ((p, q) in pattern[1] or (q, p) in pattern[1]) == is_edge:
                    for t in values:
                        others = [u for u in values if u != t or asked.maps != "injective"]
                        near = {x(q, u): 1 for u in others if right(p, q, t, u) and right(q, p, u, t)}
                        yield {x(p, t): -1, **near}, 0
    for a, b in asked.less:
        for t in values:
            yield {x(a, t): -1, **{x(b, u): 1 for u in values if u > t}}, 0
        for t in values:
            yield {x(b, t): -1, **{x(a, u): 1 for u in values if u < t}}, 0


def encode(texts, kind, asked):
    try:
        pattern, target = read_graphs(texts, kind, asked)
    except Refused as fault:
        return fault.answer()
    lines = [
        "".join(f"{a:+} x{v} " for v, a in sorted(terms.items())) + f">= {bound} ;"
        for terms, bound in constraints(pattern, target, asked)
    ]
    head = f"* #variable= {len(pattern[0]) * len(target[0])} #constraint= {len(lines)}"
    return Answer(0, "\n".join([head, *lines, ""]).encode())


def check(encoding, log):
    try:
        model = plain_check.read_encoding(encoding)
    except plain_check.Fault as fault:
        return Answer(4, b"", f"encoding: line {fault.line}: {fault.cause}\n".encode())
    try:
        return Answer(0, f"accepted {plain_check.judge(model, log)}\n".encode())
    except plain_check.Fault as fault:
        return Answer(7, b"", f"log: line {fault.line}: {fault.cause}\n".encode())
