#!/usr/bin/env python3
"""Trims a proof log as `subgraph trim` does, by the plainest means, and prints the same line with the same status.

    tools/plain_trim.py ENCODING LOG OUT

This is docs/FORMATS.md turned into Python on top of `plain_check.py`; it shares nothing with the program. Of a log with hints there is
one trimmed log, which is the program's to the byte. A log without hints gets hints here, and the program may find others.
"""
from __future__ import annotations

import sys
from typing import Dict, List, Optional, Set, Tuple

import plain_check
from plain_check import Constraint, Fault, Literal, end, normal_form

#: The words of a line, its names as they are in the log.
Words = List[bytes]


def hints(literals: List[Literal], named: Dict[bytes, Constraint]) -> Words:
    """References that lead to a contradiction one after another: those from which something follows, and the last one."""
    false, passed = set(literals), []
    while True:
        for reference, constraint in named.items():
            terms, bound = normal_form(constraint)
            slack = sum(a for a, literal in terms if literal not in false) - bound
            forced = {-literal for a, literal in terms if not {literal, -literal} & false and a > slack}
            if slack < 0 or forced:
                passed.append(reference)
                false |= forced
            if slack < 0:
                return passed


class Made(plain_check.Log):
    """A log as it is gone through; each line that makes a constraint is kept, with hints and without `#K`."""

    def __init__(self, variables: int, constraints: List[Constraint]) -> None:
        super().__init__(variables, constraints)
        self.lines: List[Words] = []
        self.shared: Dict[bytes, bytes] = {}

    def keep(self, words: Words) -> None:
        self.lines.append([self.shared.get(it, it) for it in words])

    def calculate(self, words: Words) -> None:
        self.keep(words)
        super().calculate(words)

    def follow(self, words: Words) -> None:
        super().follow(words)
        if not self.hinted:
            before = {name: it for name, it in self.named.items() if name != words[1]}
            words = [*words, *hints([self.literal(it) for it in words[2:-1]], before), b";"]
        self.keep(words)

    def rename(self, words: Words) -> None:
        super().rename(words)
        self.shared[b"#" + words[1]] = words[2]


def references(words: Words) -> Words:
    """The names that a line refers to."""
    return [it for it in words[2 if words[0] in b"pu" else 1 :] if b"." in it]


def needed(lines: List[Words], last: Words) -> Set[bytes]:
    """The names on which the last line rests, found from there back."""
    found = set(references(last))
    for words in reversed(lines):
        if words[1] in found:
            found.update(references(words))
    return found


def trim(encoding: Tuple[int, List[Constraint]], text: bytes) -> Tuple[bytes, int, int]:
    """The trimmed log, how many lines it makes, and how many the whole one; a log that is refused raises the checker's fault."""
    log = Made(*encoding)
    plain_check.judge(encoding, text, log)
    last = [log.shared.get(it, it) for it in text.split(b"\n")[-2].split(b" ")]
    wanted = needed(log.lines, last)
    kept = [words for words in log.lines if words[1] in wanted]
    names = {words[1]: b"0.%d" % place for place, words in enumerate(kept, 1)}
    lines = [[names.get(it, it) for it in words] for words in [*kept, last]]
    later = {name: at for at, words in enumerate(lines) for name in references(words)}
    out: List[Words] = [[b"embedding", b"proof", b"1"], [b"m", b"%d" % len(encoding[1])]]
    for at, words in enumerate(lines):
        out.append(words)
        gone = {name for name in references(words) if later[name] == at} if at < len(kept) else ()
        out += [[b"d", name] for name in sorted(gone, key=lambda it: int(it[2:]))]
    return b"".join(b" ".join(words) + b"\n" for words in out), len(kept), len(log.lines)


def main(words: List[str]) -> None:
    if len(words) != 3 or words[2] in words[:2]:
        end(3, "usage: plain_trim.py ENCODING LOG OUT")
    texts: List[bytes] = []
    for name, path in zip(("encoding", "log"), words):
        try:
            with open(path, "rb") as file:
                texts.append(file.read())
        except OSError as fault:
            end(5, f"{name}: {fault.strerror}")
    encoding: Optional[Tuple[int, List[Constraint]]] = None
    try:
        encoding = plain_check.read_encoding(texts[0])
        out, kept, made = trim(encoding, texts[1])
    except Fault as fault:
        end(7 if encoding else 4, f"{'log' if encoding else 'encoding'}: line {fault.line}: {fault.cause}")
    with open(words[2], "wb") as file:
        file.write(out)
    end(0, f"kept {kept} of {made}")


if __name__ == "__main__":
    main(sys.argv[1:])
