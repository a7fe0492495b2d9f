#!/usr/bin/env python3
"""Writes pairs of graphs in LAD text, by family, the same for the same seed.

    pairs.py FOLDER [--sizes S,M,L] [--families a,b] [--seed N]

FOLDER/index.json lists the pairs: name, family, pattern, target, induced, map, less, format and, where the way they are made tells it, the
answer. Standard library only, but for `molecules`, which are left out where RDKit and its data (Debian's python3-rdkit and rdkit-data) are
not there; `made_molecules` are of that shape, and made at random.
"""
import argparse
import json
import math
import os
import random
import sys

from asked import Asked
from molecules import made, of_rdkit


class Graph:
    """A graph as a list of sets of neighbours, with or without labels.

    Without directions each edge stands at both ends; with them at the vertex that it leads from. `kinds` are the labels of edges by ordered pair,
    and a graph that has them is written with directions, both ways."""

    def __init__(self, size, edges=(), labels=None, directed=False, kinds=None):
        self.size = size
        self.near = [set() for _ in range(size)]
        self.labels = labels
        self.directed = directed
        self.kinds = kinds
        for a, b in edges:
            self.join(a, b)

    def join(self, a, b):
        self.near[a].add(b)
        if not self.directed:
            self.near[b].add(a)

    def edges(self):
        return [(a, b) for a in range(self.size) for b in sorted(self.near[a]) if self.directed or a < b]

    def moved(self, size, place):
        """The graph of so many vertices to which the vertices in `place` go; the others are left out."""
        edges = [(place[a], place[b]) for a in place for b in self.near[a] if b in place and (self.directed or place[a] < place[b])]
        labels = None
        if self.labels:
            labels = [0] * size
            for v, there in place.items():
                labels[there] = self.labels[v]
        kinds = self.kinds and {(place[a], place[b]): kind for (a, b), kind in self.kinds.items() if a in place and b in place}
        return Graph(size, edges, labels, self.directed, kinds)

    def part(self, vertices):
        """The induced subgraph on these vertices, in their order."""
        return self.moved(len(vertices), {v: i for i, v in enumerate(vertices)})

    def thinned(self, source, kept):
        return Graph(self.size, [e for e in self.edges() if source.random() < kept], self.labels, self.directed, self.kinds)

    def shuffled(self, source):
        order = list(range(self.size))
        source.shuffle(order)
        return self.moved(self.size, dict(enumerate(order)))

    def connected(self, source, count):
        """Some vertices grown from one of them."""
        while True:
            first = source.randrange(self.size)
            seen, front, grown = {first}, [first], []
            while front and len(grown) < count:
                v = front.pop(source.randrange(len(front)))
                grown.append(v)
                for u in sorted(self.near[v] - seen):
                    seen.add(u)
                    front.append(u)
            if len(grown) == count:
                return grown

    def format(self):
        return "labelledlad" if self.kinds is not None else "directedlad" if self.directed else "vertexlabelledlad" if self.labels else "lad"

    def text(self):
        rows = [str(self.size)]
        for v in range(self.size):
            words = [self.labels[v]] if self.labels else []
            words.append(len(self.near[v]))
            for u in sorted(self.near[v]):
                words += [u] if self.kinds is None else [u, self.kinds[v, u]]
            rows.append(" ".join(map(str, words)))
        return "\n".join(rows) + "\n"


def random_graph(source, size, density):
    return Graph(size, [(a, b) for a in range(size) for b in range(a) if source.random() < density])


def sparse_graph(source, size, degree):
    """Connected, with no more than so many neighbours a vertex."""
    graph = Graph(size)
    for v in range(1, size):
        u = source.randrange(v)
        while len(graph.near[u]) >= degree:
            u = source.randrange(v)
        graph.join(u, v)
    for _ in range(10 * size):
        a, b = source.randrange(size), source.randrange(size)
        if a != b and max(len(graph.near[a]), len(graph.near[b])) < degree:
            graph.join(a, b)
    return graph


def mesh(width, height):
    edges = [(x * height + y, x * height + y + 1) for x in range(width) for y in range(height - 1)]
    edges += [(x * height + y, (x + 1) * height + y) for x in range(width - 1) for y in range(height)]
    return Graph(width * height, edges)


def scale_free(source, size, links):
    graph, ends = Graph(size), []
    for v in range(links, size):
        chosen = set()
        while len(chosen) < links:
            chosen.add(source.choice(ends) if ends and source.random() < 0.95 else source.randrange(v))
        for u in sorted(chosen):
            graph.join(u, v)
            ends += [u, v]
    return graph


def clique(size):
    return Graph(size, [(a, b) for a in range(size) for b in range(a)])


def cycle(size):
    return Graph(size, [(v, (v + 1) % size) for v in range(size)])


def choices(target, pattern):
    """The logarithm of how many injective maps there are."""
    return sum(math.log(target - i) for i in range(pattern))


# Each family gives (pattern, target, induced, answer if known), or in place of `induced` all that is asked; S, M and L are its sizes.

def planted(source, size):
    pattern, target, density = {"S": (15, 80, 0.3), "M": (45, 200, 0.3), "L": (60, 400, 0.3)}[size]
    graph = random_graph(source, target, density)
    yield graph.part(source.sample(range(target), pattern)).thinned(source, 0.85).shuffled(source), graph, False, "yes"
    yield graph.part(source.sample(range(target), pattern)).shuffled(source), graph, True, "yes"


def dense_none(source, size):
    pattern, target, thick, thin = {"S": (12, 60, 0.7, 0.3), "M": (15, 100, 0.75, 0.35), "L": (18, 200, 0.8, 0.4)}[size]
    yield random_graph(source, pattern, thick), random_graph(source, target, thin), False, None
    yield random_graph(source, pattern + 4, 0.5), random_graph(source, target, 0.5), True, None


def phase(source, size):
    """About one embedding expected, moved by a factor."""
    target, want = {"S": (60, 0.85), "M": (100, 0.75), "L": (150, 0.7)}[size]
    for thin in (0.3, 0.5, 0.7):
        pattern = round(1 + 2 * math.log(target * 0.9) / (-math.log(thin) * want))
        thick = choices(target, pattern) / (-math.log(thin) * pattern * (pattern - 1) / 2)
        for factor in (0.9, 1.1):
            yield random_graph(source, pattern, min(1, factor * thick)), random_graph(source, target, thin), False, None


def phase_induced(source, size):
    target = {"S": 50, "M": 80, "L": 120}[size]
    for thick, thin in ((0.5, 0.5), (0.3, 0.4), (0.8, 0.6)):
        pattern = 4
        while choices(target, pattern) + pattern * (pattern - 1) / 2 * (thick * math.log(thin) + (1 - thick) * math.log(1 - thin)) > 0:
            pattern += 1
        yield random_graph(source, pattern, thick), random_graph(source, target, thin), True, None


def cliques(source, size):
    target, count = {"S": (60, 8), "M": (100, 9), "L": (200, 11)}[size]
    graph = random_graph(source, target, 0.5)
    yield clique(count - 2), graph, False, None
    yield clique(count + 2), graph, False, None


def odd_cycles(source, size):
    """An odd cycle into a bipartite graph."""
    target, count = {"S": (40, 5), "M": (100, 7), "L": (200, 9)}[size]
    half = target // 2
    edges = [(a, b) for a in range(half) for b in range(half, target) if source.random() < 0.3]
    yield cycle(count), Graph(target, edges).shuffled(source), False, "none"


def meshes(source, size):
    small, large = {"S": (4, 10), "M": (6, 20), "L": (12, 80)}[size]
    yield mesh(small, small), mesh(large, large).shuffled(source), False, "yes"
    yield mesh(small, small), mesh(large, large).thinned(source, 0.97).shuffled(source), False, None


def parts(source, graph, share):
    """A connected part that lost some edges, and one that lost none."""
    part = graph.part(graph.connected(source, int(graph.size * share)))
    yield part.thinned(source, 0.95).shuffled(source), graph.shuffled(source), False, "yes"
    yield part.shuffled(source), graph.shuffled(source), True, "yes"


def sparse(source, size):
    target, degree, shares = {"S": (200, 4, (0.1, 0.3)), "M": (2000, 5, (0.1, 0.3)), "L": (8000, 4, (0.02, 0.05))}[size]
    graph = sparse_graph(source, target, degree)
    for share in shares:
        yield from parts(source, graph, share)


def scale_free_parts(source, size):
    target, links, shares = {"S": (60, 2, (0.3, 0.8)), "M": (250, 3, (0.3, 0.8)), "L": (2000, 3, (0.05, 0.2))}[size]
    graph = scale_free(source, target, links)
    for share in shares:
        yield from parts(source, graph, share)


def labelled(source, size):
    """Few labels on a sparse graph, as the atoms of molecules."""
    target = {"S": 100, "M": 800, "L": 5000}[size]
    graph = sparse_graph(source, target, 4)
    graph.labels = [source.choice((6, 6, 6, 6, 7, 8, 16)) for _ in range(target)]
    part = graph.part(graph.connected(source, target // 5))
    yield part.shuffled(source), graph.shuffled(source), False, "yes"
    part.labels[source.randrange(part.size)] = 16
    yield part.shuffled(source), graph.shuffled(source), False, None


def directed_graph(source, size, density):
    """Each ordered pair has its edge by chance."""
    return Graph(size, [(a, b) for a in range(size) for b in range(size) if a != b and source.random() < density], directed=True)


def directed_planted(source, size):
    """Parts of directed graphs: one that lost some edges, and one that lost none."""
    pattern, target, density = {"S": (15, 80, 0.2), "M": (40, 200, 0.15), "L": (70, 450, 0.1)}[size]
    graph = directed_graph(source, target, density)
    yield graph.part(source.sample(range(target), pattern)).thinned(source, 0.85).shuffled(source), graph, False, "yes"
    yield graph.part(source.sample(range(target), pattern)).shuffled(source), graph, True, "yes"


def directed_none(source, size):
    """Fewer than one embedding expected by a factor, in either kind."""
    target, pattern = {"S": (60, 8), "M": (100, 10), "L": (200, 12)}[size]
    for thin in (0.2, 0.4):
        thick = choices(target, pattern) / (-math.log(thin) * pattern * (pattern - 1))
        for factor in (1.1, 1.4):
            yield directed_graph(source, pattern, min(1, factor * thick)), directed_graph(source, target, thin), False, None
    for thick, thin in ((0.5, 0.5), (0.3, 0.4)):
        pattern = 4
        while choices(target, pattern) + pattern * (pattern - 1) * (thick * math.log(thin) + (1 - thick) * math.log(1 - thin)) > 0:
            pattern += 1
        yield directed_graph(source, pattern + 1, thick), directed_graph(source, target, thin), True, None


def molecule(found):
    """The graph of a molecule, its bonds both ways round."""
    atoms, bonds = found
    return Graph(len(atoms), [(a, b) for a, b, _ in bonds], atoms, kinds={e: kind for a, b, kind in bonds for e in ((a, b), (b, a))})


def beside_each_other(graphs):
    size, edges, labels, kinds = 0, [], [], {}
    for it in graphs:
        edges += [(size + a, size + b) for a, b in it.edges()]
        kinds.update({(size + a, size + b): kind for (a, b), kind in it.kinds.items()})
        labels += it.labels
        size += it.size
    return Graph(size, edges, labels, kinds=kinds)


def fragment(source, graph):
    """A connected piece of half a molecule."""
    return graph.part(graph.connected(source, max(6, graph.size // 2)))


def pieces(graph):
    """The connected parts, as sets of vertices."""
    left, found = set(range(graph.size)), []
    while left:
        front = [left.pop()]
        part = set(front)
        while front:
            near = graph.near[front.pop()] & left
            left -= near
            part |= near
            front += near
        found.append(part)
    return found


def pieces_in_libraries(source, size, known):
    """Pieces of molecules in another one or in a library, of which all molecules stand beside each other; one piece, or several at once, induced."""
    whole = [it for it in map(molecule, known) if it.size >= 12 and len(pieces(it)) == 1]
    for _ in range(4):
        chosen = source.sample(whole, {"S": 1, "M": 50, "L": 200}[size])
        target = beside_each_other(chosen).shuffled(source)
        yield fragment(source, chosen[0]).shuffled(source), target, False, "yes"
        yield fragment(source, source.choice(whole)).shuffled(source), target, False, None
        yield beside_each_other([fragment(source, it) for it in chosen[:8]]).shuffled(source), target, True, "yes"


def molecules(source, size):
    known = of_rdkit()
    if not known:
        print("RDKit or its data are not there: no molecules but made ones", file=sys.stderr)
        return
    yield from pieces_in_libraries(source, size, known)


def made_molecules(source, size):
    yield from pieces_in_libraries(source, size, [made(source) for _ in range(1000)])


def colourings(source, size):
    """Random graphs into cliques by any maps: colourings with as many colours, near the point where half of the graphs have one."""
    count = {"S": 60, "M": 120, "L": 240}[size]
    for colours, degree in ((3, 4.6), (4, 8.4), (5, 12.7)):
        for factor in (0.92, 1.08):
            yield random_graph(source, count, min(1, factor * degree / count)), clique(colours), Asked(maps="any"), None


def local_colourings(source, size):
    """Graphs into cliques by local maps: colourings in which neighbours of a vertex differ too. A mesh has one with five colours, and not with four."""
    side, count = {"S": (8, 50), "M": (16, 150), "L": (30, 500)}[size]
    yield mesh(side, side).shuffled(source), clique(5), Asked(maps="local"), "yes"
    yield mesh(side, side).shuffled(source), clique(4), Asked(maps="local"), "none"
    for colours in (6, 7):
        yield sparse_graph(source, count, 4), clique(colours), Asked(maps="local"), None


def lift(source, graph, times):
    """So many copies of a graph, each of whose edges leads to the copies by an order of its own: it goes to the graph by a local map."""
    lifted = Graph(graph.size * times)
    for a, b in graph.edges():
        for copy, other in enumerate(source.sample(range(times), times)):
            lifted.join(a * times + copy, b * times + other)
    return lifted


def lifts(source, size):
    """Lifts of sparse graphs, as they are and with two edges crossed, into these graphs by local maps."""
    count, degree, times = {"S": (12, 4, 4), "M": (40, 4, 6), "L": (150, 5, 6)}[size]
    for _ in range(2):
        graph = sparse_graph(source, count, degree)
        whole = lift(source, graph, times)
        yield whole.shuffled(source), graph.shuffled(source), Asked(maps="local"), "yes"
        (a, b), (c, d) = source.sample(whole.edges(), 2)
        crossed = Graph(whole.size, [e for e in whole.edges() if e not in ((a, b), (c, d))] + [(a, d), (b, c)])
        yield crossed.shuffled(source), graph.shuffled(source), Asked(maps="local"), None


def in_order(source, size):
    """Cliques and even cycles whose copies are met once: images in order along a clique, and a cycle's first image the least."""
    target, count = {"S": (60, 8), "M": (100, 9), "L": (200, 11)}[size]
    graph = random_graph(source, target, 0.5)
    for more in (-2, 2):
        rising = tuple((v, v + 1) for v in range(count + more - 1))
        yield clique(count + more), graph, Asked(less=rising), None
    half = target // 2
    sides = Graph(target, [(a, b) for a in range(half) for b in range(half, target) if source.random() < 0.3])
    least = tuple((0, v) for v in range(1, count | 1)) + ((1, (count | 1) - 1),)
    yield cycle(count | 1), sides.shuffled(source), Asked(less=least), "none"
    yield cycle(count | 1), graph.shuffled(source), Asked(less=least), None


FAMILIES = [planted, dense_none, phase, phase_induced, cliques, odd_cycles, meshes, sparse, scale_free_parts, labelled]
FAMILIES += [directed_planted, directed_none, molecules, made_molecules, colourings, local_colourings, lifts, in_order]


def main():
    words = argparse.ArgumentParser()
    words.add_argument("folder")
    words.add_argument("--sizes", default="S,M,L")
    words.add_argument("--families", default=",".join(f.__name__ for f in FAMILIES))
    words.add_argument("--seed", type=int, default=1)
    asked = words.parse_args()
    os.makedirs(asked.folder, exist_ok=True)
    listed = []
    for family in FAMILIES:
        if family.__name__ not in asked.families.split(","):
            continue
        for size in asked.sizes.split(","):
            source = random.Random(f"{family.__name__} {size} {asked.seed}")
            for number, (pattern, target, how, answer) in enumerate(family(source, size)):
                what = how if isinstance(how, Asked) else Asked(how)
                name = f"{family.__name__}-{size}-{number}"
                for role, graph in (("pattern", pattern), ("target", target)):
                    with open(os.path.join(asked.folder, f"{name}.{role}"), "w") as file:
                        file.write(graph.text())
                listed.append({
                    "name": name, "family": family.__name__, "size": size, "answer": answer,
                    "induced": what.induced, "map": what.maps, "less": what.less, "format": pattern.format(),
                    "pattern": f"{name}.pattern", "target": f"{name}.target",
                    "vertices": [pattern.size, target.size],
                })
    with open(os.path.join(asked.folder, "index.json"), "w") as file:
        json.dump(listed, file, indent=1)
    print(f"{len(listed)} pairs in {asked.folder}")


if __name__ == "__main__":
    main()
