#!/usr/bin/env python3
"""Lists what is longer than the house allows, and what stands twice: places to look, the longest first.

usage: python3 tools/house.py [--most N] [--check]

Functions of the crates with more than 7 parameters, and with bodies of more than 40 lines; files of more than 500 lines; lines of clauses
(`requires`, `ensures`, invariants) of more than 100 columns; and places with more than 12 equal lines after each other, where blank lines,
comments, imports and lines of closing brackets alone do not count. At most N rows of each are listed, 20 where none is said, and how many there are.
It changes nothing. With --check the status is 1 where anything is listed.
"""
import argparse
import os
import re
import subprocess
import sys

TOP = os.path.dirname(os.path.dirname(os.path.abspath(__file__)))
PARAMETERS, BODY, FILE, COLUMNS, EQUAL = 7, 40, 500, 100, 12
#: Equal lines in more places than these are a form that everybody writes.
PLACES = 8
SOURCES = (".rt", ".antt", ".py", ".sh", ".cpp", ".h", ".c")
FUNCTION = re.compile(r"(\s*)(?:pub(?:\([a-z]+\))? )?(?:const |unsafe |final )*fn ([a-z0-9_]+)")
CLAUSE = re.compile(r"\s*(?:(?:ghost )?(?:requires|ensures|keeps|invariant)\b.*|ghost [a-z_]+ = )\{")
PLAIN = re.compile(r"\W*|(?://|--|#|\"\"\").*|(?:pub |ghost )*(?:use|import|from|mod) .*")


def files():
    """The sources that git knows here, each with its lines."""
    words = ["git", "-C", TOP, "ls-files", "-co", "--exclude-standard"]
    for name in sorted(subprocess.run(words, capture_output=True, text=True, check=True).stdout.splitlines()):
        path = os.path.join(TOP, name)
        if name.endswith(SOURCES) and os.path.isfile(path):
            with open(path, encoding="utf-8") as file:
                yield name, file.read().split("\n")


def parameters(text):
    """How many parameters stand between the brackets that a function's name has behind it."""
    depth, count, seen, angles = 0, 0, False, 0
    for c in text.replace("->", "  "):
        if c in "([{":
            depth += 1
            seen = seen or depth > 1
        elif c in ")]}":
            depth -= 1
            if depth == 0:
                return count + seen
        elif c in "<>":
            angles += 1 if c == "<" else -1
        elif depth == 1 and angles == 0 and c == ",":
            count, seen = count + 1, False
        elif depth > 0 and not c.isspace():
            seen = True
    return count


def functions(lines):
    """Each function with a body: the place of its name, its name, how many parameters, and how many lines its body has."""
    for i, line in enumerate(lines):
        found = FUNCTION.match(line)
        if not found:
            continue
        indent, name = found.groups()
        head = re.sub(r"^\s*<(?:[^<>]|<[^<>]*>)*>", "", "\n".join([line[found.end() :], *lines[i + 1 : i + 30]]))
        end = next((j for j in range(i, len(lines)) if lines[j] == indent + "}"), None)
        other = next((j for j in range(i + 1, len(lines)) if FUNCTION.match(lines[j]) and FUNCTION.match(lines[j]).group(1) == indent), len(lines))
        size = 0
        if end is not None and end < other:
            start = next((j for j in range(i, end) if lines[j] == indent + "{" or lines[j].endswith("{") and not CLAUSE.match(lines[j])), i)
            size = end - start - 1
        yield i + 1, name, parameters(head), size


def clause_lines(lines):
    """The places of lines that belong to a clause."""
    depth = 0
    for i, line in enumerate(lines):
        if depth > 0 or CLAUSE.match(line):
            depth += line.count("{") - line.count("}")
            yield i


def counted(lines):
    """The lines that count, without their blanks at both ends, and where each stands."""
    return [(i, text) for i, text in enumerate(map(str.strip, lines)) if not PLAIN.fullmatch(text)]


def repeats(texts):
    """Pairs of places with more than EQUAL equal lines: how many, and both places; a run that goes on is told once."""
    numbers, rows, windows = {}, [], {}
    for name, lines in texts:
        row = counted(lines)
        rows.append((name, [i for i, _ in row], [numbers.setdefault(text, len(numbers)) for _, text in row]))
    for k, (_, _, row) in enumerate(rows):
        for at in range(len(row) - EQUAL):
            windows.setdefault(tuple(row[at : at + EQUAL + 1]), []).append((k, at))
    for places in windows.values():
        if not 1 < len(places) <= PLACES:
            continue
        for n, (k, a) in enumerate(places):
            for m, b in places[n + 1 :]:
                one, other = rows[k][2], rows[m][2]
                if k == m and b - a <= EQUAL or a and b and one[a - 1] == other[b - 1]:
                    continue
                size = EQUAL + 1
                while a + size < len(one) and b + size < len(other) and one[a + size] == other[b + size] and (k != m or a + size < b):
                    size += 1
                yield size, place(rows[k], a, size), place(rows[m], b, size)


def by_files(pairs):
    """The longest run of each two files, and how many more they have."""
    found = {}
    for size, *places in sorted(pairs, reverse=True):
        found.setdefault(tuple(sorted(it.split(":")[0] for it in places)), []).append((size, *places))
    for runs in found.values():
        yield runs[0] + ((f"(+{len(runs) - 1} more)",) if len(runs) > 1 else ())


def place(row, at, size):
    name, lines, _ = row
    return f"{name}:{lines[at] + 1}-{lines[at + size - 1] + 1}"


def section(title, rows, most):
    """Prints the greatest; a row is its number and the words behind it."""
    rows = sorted(rows, key=lambda it: (-it[0], it[1:]))
    print(f"{title}: {len(rows)}")
    for number, *words in rows[:most]:
        print(f"  {number:5}  {' '.join(words)}")
    return len(rows)


def main():
    parser = argparse.ArgumentParser()
    parser.add_argument("--most", type=int, default=20)
    parser.add_argument("--check", action="store_true")
    words = parser.parse_args()
    texts = list(files())
    rust = [(name, lines) for name, lines in texts if name.endswith(".rt")]
    known = [(f"{name}:{at}", called, count, size) for name, lines in rust for at, called, count, size in functions(lines)]
    clauses = [(len(lines[i]), f"{name}:{i + 1}") for name, lines in rust for i in clause_lines(lines) if len(lines[i]) > COLUMNS]
    found = section(f"functions with more than {PARAMETERS} parameters", [(n, at, it) for at, it, n, _ in known if n > PARAMETERS], words.most)
    found += section(f"functions with more than {BODY} lines", [(n, at, it) for at, it, _, n in known if n > BODY], words.most)
    found += section(f"files with more than {FILE} lines", [(len(it) - 1, name) for name, it in texts if len(it) - 1 > FILE], words.most)
    found += section(f"lines of clauses with more than {COLUMNS} columns", clauses, words.most)
    found += section(f"files with more than {EQUAL} equal lines, the longest run of each two", list(by_files(repeats(texts))), words.most)
    sys.exit(words.check and found > 0)


if __name__ == "__main__":
    main()
