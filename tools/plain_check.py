#!/usr/bin/env python3
"""Judges a proof log as `subgraph check` does, by the plainest means, and prints the same line with the same status.

    tools/plain_check.py ENCODING LOG

This is docs/FORMATS.md turned into Python, and shares nothing with the program: whoever doubts the one has the other. It is
slow, and meant to be read. The faults are those of the page's two tables, tested in their order.
"""
from __future__ import annotations

import re
import sys
from typing import Dict, List, NoReturn, Optional, Tuple

WIDEST = 2**125
#: The number of a variable, or this with a minus where it is negated.
Literal = int
#: What stands in front of each variable, never 0, and the bound: the sum is to be at least that.
Constraint = Tuple[Dict[int, int], int]


class Fault(Exception):
    """Why a text is refused: a cause by its name, and the number of a line."""

    def __init__(self, cause: str, line: int = 0) -> None:
        super().__init__(cause)
        self.cause = cause
        self.line = line


def refuse_if(wrong: object, cause: str) -> None:
    if wrong:
        raise Fault(cause)


def value(digits: bytes) -> int:
    """A number, where one of more than forty digits counts as 10^40: all that is above every limit is alike."""
    digits = digits.lstrip(b"0") or b"0"
    return int(digits) if len(digits) <= 40 else 10**40


# Constraints ------------------------------------------------------------------------------------------------------------------


def of_terms(terms: List[Tuple[int, Literal]], bound: int) -> Constraint:
    """The constraint that a sum of literals, each so many times, is at least the bound. For ~x stands 1 - x."""
    sums: Dict[int, int] = {}
    for coefficient, literal in terms:
        if literal < 0:
            coefficient, bound = -coefficient, bound - coefficient
        sums[abs(literal)] = sums.get(abs(literal), 0) + coefficient
    return {variable: a for variable, a in sums.items() if a != 0}, bound


def normal_form(constraint: Constraint) -> Tuple[List[Tuple[int, Literal]], int]:
    """The terms with a literal each and a positive coefficient, and the bound that goes with them. For -a x stands a ~x - a."""
    sums, bound = constraint
    terms = [(a, variable) if a > 0 else (-a, -variable) for variable, a in sums.items()]
    return terms, bound - sum(a for a in sums.values() if a < 0)


def add(one: Constraint, other: Constraint) -> Constraint:
    sums, bound = one
    return of_terms([(a, v) for v, a in sums.items()] + [(a, v) for v, a in other[0].items()], bound + other[1])


def multiply(constraint: Constraint, factor: int) -> Constraint:
    return {variable: a * factor for variable, a in constraint[0].items()}, constraint[1] * factor


def divide(constraint: Constraint, divisor: int) -> Constraint:
    terms, bound = normal_form(constraint)
    return of_terms([(-(-a // divisor), literal) for a, literal in terms], -(-bound // divisor))


def saturate(constraint: Constraint) -> Constraint:
    terms, bound = normal_form(constraint)
    return of_terms([(min(a, max(bound, 0)), literal) for a, literal in terms], bound)


def is_wide(constraint: Constraint) -> bool:
    return sum(abs(a) for a in constraint[0].values()) > WIDEST or abs(constraint[1]) > WIDEST


def is_false(constraint: Constraint) -> bool:
    """Whether it says that 0, the sum of no terms, is at least a greater number."""
    return not constraint[0] and constraint[1] > 0


def holds(constraint: Constraint, ones: List[int]) -> bool:
    return sum(constraint[0].get(variable, 0) for variable in ones) >= constraint[1]


def contradict(literals: List[Literal], constraints: List[Constraint]) -> bool:
    """Whether, with all the literals false, these constraints one after another end in a contradiction."""
    false = set(literals)
    for constraint in constraints:
        terms, bound = normal_form(constraint)
        slack = sum(a for a, literal in terms if literal not in false) - bound
        if slack < 0:
            return True
        # Without a literal that is still open and outweighs the slack it could not hold: so its negation is false.
        false |= {-literal for a, literal in terms if literal not in false and a > slack}
    return False


def spread(literals: List[Literal], constraints: List[Constraint]) -> bool:
    """Whether, with all the literals false, these constraints in whatever order end in a contradiction."""
    false = set(literals)
    while True:
        before = len(false)
        for constraint in constraints:
            terms, bound = normal_form(constraint)
            slack = sum(a for a, literal in terms if literal not in false) - bound
            if slack < 0:
                return True
            # Neither a true nor a false literal is open.
            false |= {-literal for a, literal in terms if not {literal, -literal} & false and a > slack}
        if len(false) == before:
            return False


# Encodings --------------------------------------------------------------------------------------------------------------------


def read_encoding(text: bytes) -> Tuple[int, List[Constraint]]:
    """The number of variables, and the constraints."""
    lines = text.replace(b"\r\n", b"\n").split(b"\n")
    if lines[-1] == b"":
        lines.pop()
    line = 1
    try:
        refuse_if(not lines, "Header")
        variables, count = read_header(words_of(lines[0]))
        constraints = []
        for line, words in enumerate(map(words_of, lines[1:]), 2):
            if words and not words[0].startswith(b"*"):
                constraints.append(read_constraint(words, variables))
        line = len(lines) + 1
        refuse_if(len(constraints) != count, "Count")
    except Fault as fault:
        raise Fault(fault.cause, line) from None
    return variables, constraints


def words_of(line: bytes) -> List[bytes]:
    return [word for word in re.split(rb"[ \t]+", line) if word]


def read_header(words: List[bytes]) -> Tuple[int, int]:
    refuse_if(len(words) < 5 or [words[0], words[1], words[3]] != [b"*", b"#variable=", b"#constraint="], "Header")
    refuse_if(not words[2].isdigit() or not words[4].isdigit(), "Header")
    variables, count = value(words[2]), value(words[4])
    refuse_if(variables > 4294967295 or count >= 2**63, "Header")
    return variables, count


def read_constraint(words: List[bytes], variables: int) -> Constraint:
    refuse_if(words[0].startswith((b"min:", b"max:")), "Objective")
    terms: List[Tuple[int, Literal]] = []
    coefficient = bound = 0
    due = "term"  # a coefficient or `>=`; then "variable", "term" again, "bound", "end" and "nothing"
    before_variable = False
    for word in words:
        number = re.fullmatch(rb"([+-]?)([0-9]+)(;?)", word)
        if number:
            sign, digits, semicolon = number.groups()
            signed = -value(digits) if sign == b"-" else value(digits)
            refuse_if(abs(signed) > WIDEST, "Wide")
            refuse_if(due not in ("term", "bound") or semicolon and due != "bound", "Form")
            if due == "term":
                coefficient, due = signed, "variable"
            else:
                bound, due = signed, "nothing" if semicolon else "end"
        elif re.fullmatch(rb"x[0-9]+", word):
            refuse_if(before_variable, "Product")
            refuse_if(not 1 <= value(word[1:]) <= variables, "NoSuchVariable")
            refuse_if(due != "variable", "Form")
            terms.append((coefficient, value(word[1:])))
            due = "term"
        elif word == b">=" and due == "term":
            due = "bound"
        elif word == b";" and due == "end":
            due = "nothing"
        else:
            raise Fault("Equality" if word == b"=" and due == "term" else "Form")
        before_variable = word.startswith(b"x")
    refuse_if(due != "nothing", "Form")
    refuse_if(sum(abs(a) for a, _ in terms) > WIDEST, "Wide")
    return of_terms(terms, bound)


# Logs -------------------------------------------------------------------------------------------------------------------------


class Log:
    """What stands while a log is gone through."""

    def __init__(self, variables: int, constraints: List[Constraint]) -> None:
        self.variables = variables
        self.constraints = constraints
        #: Whether a `u` line names what leads to its contradiction, as the first line tells.
        self.hinted = True
        #: Each constraint under all that refers to it, as it is written: its number, `W.I` or `#K`. What was deleted is not there.
        self.named = {b"%d" % i: constraint for i, constraint in enumerate(constraints, 1)}
        #: How many each W has made, and each K that was given; both with what was deleted.
        self.made: Dict[int, int] = {}
        self.rows: List[int] = []

    # The forms of words

    def number(self, word: bytes, least: int = 0, most: int = 2**63 - 1) -> int:
        refuse_if(not re.fullmatch(rb"0|[1-9][0-9]*", word), "Form")
        refuse_if(not least <= value(word) <= most, "Form")
        return value(word)

    def literal(self, word: bytes) -> Literal:
        negated = word.startswith(b"~")
        word = word[1:] if negated else word
        refuse_if(not word.startswith(b"x"), "Form")
        variable = self.number(word[1:], 1, self.variables)
        return -variable if negated else variable

    def name(self, word: bytes) -> Tuple[int, int]:
        parts = word.split(b".")
        refuse_if(len(parts) != 2, "Form")
        return self.number(parts[0], 0, 64), self.number(parts[1], 1)

    def reference(self, word: bytes) -> bytes:
        if word.startswith(b"#"):
            self.number(word[1:], 0, 4194303)
        elif b"." in word:
            self.name(word)
        else:
            self.number(word)
        return word

    # What the steps share

    def find(self, reference: bytes) -> Constraint:
        refuse_if(reference not in self.named, "NoSuchName")
        return self.named[reference]

    def expect_name(self, word: bytes) -> None:
        owner, index = self.name(word)
        refuse_if(index <= self.made.get(owner, 0), "NameUsed")
        refuse_if(index != self.made.get(owner, 0) + 1, "Order")

    def give(self, word: bytes, constraint: Constraint) -> None:
        self.named[word] = constraint
        self.made[self.name(word)[0]] = self.name(word)[1]

    # The steps

    def calculate(self, words: List[bytes]) -> None:
        """`p NAME OPERATIONS ;`"""
        refuse_if(len(words) < 3 or words[-1] != b";", "Form")
        self.name(words[1])
        operations = self.operations(words[2:-1])
        self.expect_name(words[1])
        stack: List[Constraint] = []
        for kind, word, number in operations:
            if kind == "reference":
                stack.append(self.find(word))
            elif kind == "literal":
                stack.append(of_terms([(1, number)], 0))
            else:
                refuse_if(kind in ("*", "d") and number == 0, "Zero")
                refuse_if(len(stack) < (2 if kind == "+" else 1), "Stack")
                top = stack.pop()
                if kind == "+":
                    stack.append(add(stack.pop(), top))
                elif kind == "*":
                    stack.append(multiply(top, number))
                elif kind == "d":
                    stack.append(divide(top, number))
                else:
                    stack.append(saturate(top))
                refuse_if(is_wide(stack[-1]), "Wide")
        refuse_if(len(stack) != 1, "Stack")
        self.give(words[1], stack[0])

    def operations(self, words: List[bytes]) -> List[Tuple[str, bytes, int]]:
        """The operations: of which kind each is, with its reference, and with its number or literal."""
        found: List[Tuple[str, bytes, int]] = []
        at = 0
        while at < len(words):
            word, after = words[at], words[at + 1 : at + 2]
            if word in (b"+", b"s"):
                found.append((word.decode(), b"", 0))
            elif after in ([b"*"], [b"d"]):
                found.append((after[0].decode(), b"", self.number(word)))
                at += 1
            elif word.startswith((b"x", b"~")):
                found.append(("literal", b"", self.literal(word)))
            else:
                found.append(("reference", self.reference(word), 0))
            at += 1
        return found

    def follow(self, words: List[bytes]) -> None:
        """`u NAME LITERALS ; REFERENCES ;`, or in a log without hints `u NAME LITERALS ;`"""
        refuse_if(words.count(b";") != (2 if self.hinted else 1) or words[-1] != b";" or words[1] == b";", "Form")
        self.name(words[1])
        middle = words.index(b";")
        literals = [self.literal(word) for word in words[2:middle]]
        references = [self.reference(word) for word in words[middle + 1 : -1]]
        self.expect_name(words[1])
        refuse_if(len({abs(literal) for literal in literals}) != len(literals), "Twice")
        if self.hinted:
            constraints = [self.find(reference) for reference in references]
            refuse_if(not contradict(literals, constraints), "NoConflict")
        else:
            refuse_if(not spread(literals, list(self.named.values())), "NoConflict")
        self.give(words[1], of_terms([(1, literal) for literal in literals], 1))

    def rename(self, words: List[bytes]) -> None:
        """`n K NAME`"""
        refuse_if(len(words) != 3, "Form")
        number, _ = self.number(words[1], 0, 4194303), self.name(words[2])
        refuse_if(number in self.rows, "NameUsed")
        refuse_if(any(number < row for row in self.rows), "Order")
        self.named[b"#%d" % number] = self.find(words[2])
        self.rows.append(number)

    def delete(self, words: List[bytes]) -> None:
        """`d REFERENCE`: another name of the same constraint goes on naming it."""
        refuse_if(len(words) != 2, "Form")
        reference = self.reference(words[1])
        refuse_if(b"." not in reference and not reference.startswith(b"#"), "Form")
        self.find(reference)
        del self.named[reference]

    def claim(self, words: List[bytes]) -> str:
        """`e REFERENCE`, `y VARIABLES` or `q`: what is shown."""
        if words[0] == b"e":
            refuse_if(len(words) != 2, "Form")
            refuse_if(not is_false(self.find(self.reference(words[1]))), "NotFalse")
            return "unsatisfiable"
        if words[0] == b"y":
            ones = [self.literal(word) for word in words[1:]]
            refuse_if(any(literal < 0 for literal in ones), "Form")
            refuse_if(len(set(ones)) != len(ones), "Twice")
            refuse_if(not all(holds(constraint, ones) for constraint in self.constraints), "NotSolution")
            return "satisfiable"
        refuse_if(words != [b"q"], "Form")
        return "undecided"

    # The whole

    def line(self, number: int, line: bytes) -> Optional[str]:
        """Does what a line says; a last line's claim."""
        words = line.split(b" ")
        if number == 1:
            refuse_if(line not in (b"embedding proof 1", b"embedding proof 2"), "Form")
            self.hinted = line == b"embedding proof 1"
        elif number == 2:
            refuse_if(len(words) != 2 or words[0] != b"m" or self.number(words[1]) != len(self.constraints), "Form")
        elif words[0] == b"p":
            self.calculate(words)
        elif words[0] == b"u":
            self.follow(words)
        elif words[0] == b"n":
            self.rename(words)
        elif words[0] == b"d":
            self.delete(words)
        else:
            return self.claim(words)
        return None


def judge(encoding: Tuple[int, List[Constraint]], text: bytes, log: Optional[Log] = None) -> str:
    """What the log shows of the encoding. With a `Log` its steps are taken by that one."""
    log = log or Log(*encoding)
    pieces = text.split(b"\n")
    shown: Optional[str] = None
    for number, piece in enumerate(pieces, 1):
        is_rest = number == len(pieces)
        try:
            if shown is None:
                refuse_if(is_rest, "EndsEarly")
                shown = log.line(number, piece)
            else:
                refuse_if(piece or not is_rest, "Form")
        except Fault as fault:
            raise Fault(fault.cause, number) from None
    assert shown is not None
    return shown


def end(status: int, text: str) -> NoReturn:
    print(text, file=sys.stderr if status else sys.stdout)
    sys.exit(status)


def main(words: List[str]) -> NoReturn:
    if len(words) != 2:
        end(3, "usage: plain_check.py ENCODING LOG")
    texts = []
    for name, path in zip(("encoding", "log"), words):
        try:
            with open(path, "rb") as file:
                texts.append(file.read())
        except OSError as fault:
            end(5, f"{name}: {fault.strerror}")
    try:
        encoding = read_encoding(texts[0])
    except Fault as fault:
        end(4, f"encoding: line {fault.line}: {fault.cause}")
    try:
        end(0, f"accepted {judge(encoding, texts[1])}")
    except Fault as fault:
        end(7, f"log: line {fault.line}: {fault.cause}")


if __name__ == "__main__":
    main(sys.argv[1:])
