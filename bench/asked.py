"""What is asked of a map beside the two graphs: the kind of copy, which images have to differ, and which come before others.

The graphs are those of `agree.py`: the labels of vertices, and for each ordered pair with an edge this edge's label.
"""
from dataclasses import dataclass
from typing import Tuple

MAPS = ("injective", "local", "any")


@dataclass(frozen=True)
class Asked:
    """The options of a question; its pairs are pattern vertices, of which the first is to have the lesser image."""

    induced: bool = False
    maps: str = "injective"
    less: Tuple[Tuple[int, int], ...] = ()

    def options(self):
        """The words of the command line."""
        words = ["--induced"] if self.induced else []
        words += ["--map", self.maps] if self.maps != "injective" else []
        return words + (["--less", ":".join(f"{a},{b}" for a, b in self.less)] if self.less else [])

    def what(self):
        """A word for it in a table."""
        kind = "induced" if self.induced else self.maps
        return f"{kind} in order" if self.less else kind


def is_near(graph, a, b):
    """Whether these are two vertices with an edge between them, in either direction."""
    return a != b and ((a, b) in graph[1] or (b, a) in graph[1])


def differ(asked, pattern, p, q):
    """Whether two vertices have to have two images."""
    if asked.maps == "local":
        return any(is_near(pattern, c, p) and is_near(pattern, c, q) for c in range(len(pattern[0])))
    return asked.maps == "injective"


def pairs_of(rng, size, most=3):
    """Some pairs of vertices, of which none or one may have an image: they may go round."""
    return tuple(tuple(rng.sample(range(size), 2)) for _ in range(rng.randint(1, most))) if size > 1 else ()


def of_copies(rng, size):
    """Either kind of copy, and nothing else."""
    return Asked(rng.random() < 0.5)


def of_all(rng, size):
    """Anything that a pattern of so many vertices can be asked: half of the maps are injective, and a third are in order."""
    maps = rng.choice(["injective", "injective", "local", "any"])
    less = pairs_of(rng, size) if rng.random() < 0.33 else ()
    return Asked(maps == "injective" and rng.random() < 0.5, maps, less)
