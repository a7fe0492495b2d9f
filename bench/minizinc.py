#!/usr/bin/env python3
"""The same question as a constraint model for MiniZinc with Gecode, behind the words of the other peers.

    minizinc.py PATTERN TARGET [--induced] [--map M] [--less L] [--format F]

A vertex's image is an integer variable, an edge a table of the target's edges with its label, in the induced kind two vertices a table of the pairs
with the same edges; images that have to differ are `all_different`, and those in order `<`. Gecode takes the variable with the most failures for its
size first. Prints `yes` with a line `p -> t` for each vertex, or `none`, or `unknown`, and on standard error `seconds N`: the processor time of
Gecode alone, without the model's translation. A model with tables of more than two million rows is `not taken`. Debian's packages: minizinc, flatzinc.
"""
import argparse
import os
import re
import subprocess
import sys
import tempfile

from agree import FORMATS
from asked import Asked, is_near
from on_encoding import told
from plain import asked_by, read_graph

MOST_ROWS = 2_000_000
#: Gecode's own constraints. Debian's MiniZinc finds no others for them, and would take tables apart.
NATIVE = """predicate gecode_table_int(array[int] of var int: x, array[int] of int: rows);
predicate all_different_int(array[int] of var int: x);
"""


def kinds_of(graph, induced):
    """Each ordered pair of two vertices with an edge, or in the induced kind each two, by what is between them."""
    labels, edges = graph
    found = {}
    if induced:
        for a in range(len(labels)):
            for b in range(len(labels)):
                if a != b:
                    found.setdefault((edges.get((a, b)), edges.get((b, a))), []).append((a, b))
    else:
        for (a, b), label in sorted(edges.items()):
            found.setdefault(label, []).append((a, b))
    return found


def domain(pattern, target, asked, p):
    """The values of a vertex by itself: of its label, and with a loop where it has one."""
    loop = pattern[1].get((p, p))
    loops = (target[1].get((t, t)) for t in range(len(target[0])))
    fits = [here == loop or loop is None and not asked.induced for here in loops]
    return [t for t, label in enumerate(target[0]) if label == pattern[0][p] and fits[t]]


def blocks(pattern, asked):
    """The sets of vertices whose images have to differ."""
    vertices = range(len(pattern[0]))
    if asked.maps == "injective":
        return [list(vertices)]
    return [[q for q in vertices if is_near(pattern, c, q)] for c in vertices] if asked.maps == "local" else []


def model(pattern, target, asked, kind):
    """The text of the model, nothing where its tables are too large or a vertex has no value."""
    size = len(pattern[0])
    lines = [NATIVE]
    for p in range(size):
        values = domain(pattern, target, asked, p)
        if not values:
            return "constraint false;\nsolve satisfy;\n"
        lines.append(f"var {{{','.join(map(str, values))}}}: m{p};")
    rows = kinds_of(target, asked.induced)
    pairs = {what: [it for it in found if it[0] != it[1]] for what, found in kinds_of(pattern, asked.induced).items()}
    if sum(len(rows.get(what, ())) for what in pairs) > MOST_ROWS:
        return None
    for number, (what, found) in enumerate(pairs.items()):
        told_of = rows.get(what, [])
        flat = ",".join(f"{t},{u}" for t, u in told_of)
        lines.append(f"array[int] of int: e{number} = [{flat}];")
        both_ways = not FORMATS[kind][0]
        lines += [f"constraint gecode_table_int([m{p},m{q}],e{number});" for p, q in found if p < q or not both_ways]
    lines += [f"constraint all_different_int([{','.join(f'm{p}' for p in it)}]);" for it in blocks(pattern, asked) if len(it) > 1]
    lines += [f"constraint m{a} < m{b};" for a, b in asked.less]
    images = ",".join(f"m{p}" for p in range(size))
    lines.append(f"output [show([{images}])];")
    lines.append(f"solve :: int_search([{images}], dom_w_deg, indomain_min, complete) satisfy;" if size else "solve satisfy;")
    return "\n".join([*lines, ""])


def answer(text, folder):
    """The answer of Gecode to a model, the images, and its seconds."""
    given, flat, shown = (os.path.join(folder, f"model.{it}") for it in ("mzn", "fzn", "ozn"))
    with open(given, "w", encoding="ascii") as file:
        file.write(text)
    made = subprocess.run(["minizinc", "-c", "--solver", "gecode", "--fzn", flat, "--ozn", shown, given], capture_output=True, check=False)
    if b"UNSATISFIABLE" in made.stdout:
        return "none", [], 0.0
    if made.returncode:
        return "unknown", [], 0.0
    said, _, seconds = told(["fzn-gecode", flat], folder)
    if "=====UNSATISFIABLE=====" in said:
        return "none", [], seconds
    if "----------" not in said:
        return "unknown", [], seconds
    images = subprocess.run(["minizinc", "--ozn-file", shown], input=said, capture_output=True, text=True, check=True).stdout
    return "yes", re.findall(r"\d+", images), seconds


def main():
    words = argparse.ArgumentParser()
    words.add_argument("files", nargs=2)
    words.add_argument("--induced", action="store_true")
    words.add_argument("--map")
    words.add_argument("--less")
    words.add_argument("--format", default="lad")
    given = words.parse_args()
    asked = asked_by(given.induced, given.map, given.less) or Asked()
    graphs = []
    for who, path in zip(("pattern", "target"), given.files):
        with open(path, "rb") as file:
            graphs.append(read_graph(who, file.read(), given.format))
    text = model(*graphs, asked, given.format)
    if text is None:
        print("not taken")
        return
    with tempfile.TemporaryDirectory(dir="/dev/shm" if os.path.isdir("/dev/shm") else None) as folder:
        said, images, seconds = answer(text, folder)
    print(said, *(f"{p} -> {t}" for p, t in enumerate(images)), sep="\n")
    print(f"seconds {seconds:.4f}", file=sys.stderr)


if __name__ == "__main__":
    main()
