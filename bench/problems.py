"""Random and structured problems in each of the four formats, by a generator of random numbers, for the scripts that test answers.

A graph is the labels of its vertices and, for each ordered pair with an edge, this edge's label, as in `agree.py`.
"""
from dataclasses import dataclass, replace
from typing import Optional, Tuple

from agree import FORMATS, occurs, random_graph
from asked import Asked, of_all, pairs_of
from molecules import made

#: The formats with labels of vertices.
LABELS = {"vertexlabelledlad", "labelledlad"}


@dataclass
class Problem:
    """A pattern, a target, and what is asked of them; the answer, where it is known."""

    what: str
    kind: str
    asked: Asked
    pattern: Tuple[list, dict]
    target: Tuple[list, dict]
    known: Optional[str] = None


def graph_of(kind, size, edges, labels=None):
    """The graph of these edges; in a format without directions both ways round."""
    found = {}
    for a, b, *label in edges:
        found[a, b] = label[0] if label and FORMATS[kind][2] else 0
        if not FORMATS[kind][0]:
            found[b, a] = found[a, b]
    return list(labels) if labels and FORMATS[kind][1] else [0] * size, found


def moved(rng, graph):
    """The same graph with its vertices in another order."""
    labels, edges = graph
    order = rng.sample(range(len(labels)), len(labels))
    back = sorted(range(len(labels)), key=order.__getitem__)
    return [labels[v] for v in back], {(order[a], order[b]): label for (a, b), label in edges.items()}


def part(graph, vertices):
    labels, edges = graph
    place = {v: i for i, v in enumerate(vertices)}
    return [labels[v] for v in vertices], {(place[a], place[b]): it for (a, b), it in edges.items() if a in place and b in place}


def small(rng, kind, ask=of_all):
    """At most 6 vertices into at most 9, with loops and labels, which brute force decides. What is asked of maps is drawn by `ask`."""
    loops, labels = rng.random() < 0.3, rng.choice([1, 2, 3])
    target = random_graph(rng, rng.randint(0, 9), rng.random(), loops, labels, kind)
    pattern = random_graph(rng, rng.randint(0, 6), rng.random(), loops, labels, kind)
    asked = ask(rng, len(pattern[0]))
    return Problem("small", kind, asked, pattern, target, "yes" if occurs(pattern, target, asked, []) else "none")


def hard(rng, kind):
    """Near the point where half the patterns occur, so that searches restart and share what they have refuted."""
    # an edge in each direction asks twice: fewer of them make the problem as hard
    most, least_size, most_size = (0.4, 8, 10) if FORMATS[kind][0] else (0.6, 11, 14)
    labels = 2 if kind in LABELS and rng.random() < 0.3 else 1
    target = random_graph(rng, rng.randint(20, 30), rng.uniform(most / 2, most), False, labels, kind)
    pattern = random_graph(rng, rng.randint(least_size, most_size), rng.uniform(most / 2, most), False, labels, kind)
    return Problem("hard", kind, Asked(rng.random() < 0.5), pattern, target)


def clique(rng, kind):
    """Of four to six vertices, in a random graph."""
    size = rng.randint(4, 6)
    edges = [(a, b) for a in range(size) for b in range(size) if a != b]
    return Problem("clique", kind, Asked(rng.random() < 0.3), graph_of(kind, size, edges), random_graph(rng, rng.randint(10, 18), 0.6, False, 1, kind))


def two_sides(rng, kind):
    """An odd cycle into a graph of two sides, which has none."""
    size, half = rng.choice([3, 5]), rng.randint(4, 8)
    ring = [(v, (v + 1) % size) for v in range(size)]
    edges = [pair for a in range(half) for b in range(half, 2 * half) for pair in ((a, b), (b, a)) if rng.random() < 0.5]
    target = moved(rng, graph_of(kind, 2 * half, edges))
    return Problem("two sides", kind, Asked(), graph_of(kind, size, ring), target, "none")


def crowded(rng, kind):
    """Two sides that are joined whole, into two sides of which one has too few vertices or lacks some edges."""
    few = rng.randint(2, 4)
    edges = [(a, few + b) for a in range(few) for b in range(few)]
    left, right = few + rng.randint(-1, 2), few + rng.randint(0, 3)
    wider = [(a, left + b) for a in range(left) for b in range(right) if rng.random() < 0.85]
    return Problem("crowded", kind, Asked(rng.random() < 0.3), graph_of(kind, 2 * few, edges), moved(rng, graph_of(kind, left + right, wider)))


def grid_of(kind, width, height):
    edges = [(x * height + y, x * height + y + 1) for x in range(width) for y in range(height - 1)]
    return graph_of(kind, width * height, edges + [(x * height + y, (x + 1) * height + y) for x in range(width - 1) for y in range(height)])


def grid(rng, kind):
    """A grid into a larger one that has lost some edges."""
    pattern = grid_of(kind, rng.randint(2, 3), rng.randint(2, 4))
    labels, edges = grid_of(kind, rng.randint(3, 5), rng.randint(3, 5))
    gone = {(min(pair), max(pair)) for pair in edges if rng.random() < 0.05}
    edges = {(a, b): it for (a, b), it in edges.items() if (min(a, b), max(a, b)) not in gone}
    return Problem("grid", kind, Asked(rng.random() < 0.5), moved(rng, pattern), moved(rng, (labels, edges)))


def order(rng, kind):
    """A ring or a path that runs one way, into a graph whose edges all run upwards, by three at most."""
    size, count = rng.randint(3, 4), rng.randint(8, 12)
    ring = [(v, (v + 1) % size) for v in range(size)][: size - (rng.random() < 0.3)]
    upwards = [(a, b) for a in range(count) for b in range(a + 1, min(count, a + 4)) if rng.random() < 0.7]
    return Problem("order", kind, Asked(rng.random() < 0.3), graph_of(kind, size, ring), moved(rng, graph_of(kind, count, upwards)))


def molecule(rng, kind):
    """A piece of a molecule in this one, where one atom or bond is another in half of the pieces."""
    atoms, bonds = made(rng)
    both = [(a, b, it) for a, b, it in bonds] + [(b, a, it) for a, b, it in bonds]
    target = graph_of(kind, len(atoms), both, atoms)
    piece, near = [rng.randrange(len(atoms))], {v: {b for a, b in target[1] if a == v} for v in range(len(atoms))}
    while len(piece) < min(8, len(atoms)):
        piece.append(rng.choice(sorted(set().union(*(near[v] for v in piece)) - set(piece))))
    labels, edges = part(target, piece)
    if rng.random() < 0.5:
        a, b = rng.choice(sorted(edges))
        if FORMATS[kind][2] and rng.random() < 0.5:
            edges[a, b] = edges[b, a] = edges[a, b] % 4 + 1
        elif kind in LABELS:
            labels[a] = rng.choice([6, 7, 8, 16])
        else:
            edges[len(piece) - 1, 0] = edges[0, len(piece) - 1] = 0
        return Problem("molecule", kind, Asked(rng.random() < 0.3), (labels, edges), moved(rng, target))
    return Problem("molecule", kind, Asked(rng.random() < 0.5), (labels, edges), moved(rng, target), "yes")


def wide(rng, kind):
    """A short ring into a graph of two sides and more than 512 vertices, where logs are written without rows of what values share: an odd one has no place there."""
    size, half = rng.choice([3, 4, 5]), rng.randint(257, 300)
    ring = [(v, (v + 1) % size) for v in range(size)]
    both = [(a, half + rng.randrange(half)) for a in range(half) for _edge in range(rng.randint(1, 3))]
    edges = [pair for a, b in both for pair in ((a, b), (b, a))]
    target = moved(rng, graph_of(kind, 2 * half, edges))
    return Problem("wide", kind, Asked(), graph_of(kind, size, ring), target, "none" if size % 2 else None)


STRUCTURED = [clique, two_sides, crowded, grid, order, molecule]


def structured(rng, kind):
    return rng.choice(STRUCTURED)(rng, kind)


def varied(rng, problem):
    """The same of another kind of map, of images in order, or both. No map at all is there where the answer is known to be none."""
    asked = problem.asked
    if not asked.induced:
        asked = replace(asked, maps=rng.choice(["injective", "local", "any"]))
    if asked.maps == "injective" or rng.random() < 0.3:
        asked = replace(asked, less=pairs_of(rng, len(problem.pattern[0])))
    known = None if asked.less and problem.known == "yes" else problem.known
    return replace(problem, asked=asked, known=known)
