"""Which images have to differ, and which come before others: the words of the program for both."""
from __future__ import annotations

from typing import Iterable, List, Literal, Tuple

from .graph import Graph, Name

#: The kinds of maps: any two images differ, those around each vertex do, or none has to.
Map = Literal["injective", "local", "any"]
MAPS = ("injective", "local", "any")
#: Two pattern vertices, of which the first has the earlier image.
Pair = Tuple[Name, Name]
#: The most pairs of one question.
MOST_PAIRS = 64


def map_options(pattern: Graph, induced: bool, map: str, less: Iterable[Pair]) -> List[str]:
    """The options for the kind of copy, the kind of map and the order of images.

    Raises
    ------
    ValueError
        There is no such kind, or not of an induced copy; or a pair is not of two pattern vertices, or there are too many.
    """
    if map not in MAPS:
        raise ValueError(f"there is no map {map!r}: {', '.join(MAPS)}")
    if induced and map != "injective":
        raise ValueError(f"an induced copy has an injective map: {map!r} is none")
    words = ["--induced"] if induced else []
    if map != "injective":
        words += ["--map", map]
    pairs = less_places(pattern, less)
    return [*words, "--less", ":".join(f"{a},{b}" for a, b in pairs)] if pairs else words


def less_places(pattern: Graph, less: Iterable[Pair]) -> List[Tuple[int, int]]:
    """The pairs by the places of their vertices in the pattern."""
    pairs = []
    for first, second in less:
        strange = [name for name in (first, second) if name not in pattern.number]
        if strange:
            raise ValueError(f"the pattern has no vertex {strange[0]!r}, which `less` names")
        if first == second:
            raise ValueError(f"a pair of `less` has the vertex {first!r} twice")
        pairs.append((pattern.number[first], pattern.number[second]))
    if len(pairs) > MOST_PAIRS:
        raise ValueError(f"`less` has {len(pairs)} pairs, and at most {MOST_PAIRS} are allowed")
    return pairs
