"""Places for the vertices of a picture: distances on paper near to distances in the graph.

The stress of a layout is a weighted sum of squares: by how much distances on paper miss the numbers of steps between vertices.
It is made small by moving pairs, one by one in a mixed order, with steps that shrink (Zheng, Pawar, Goodman, 2018). The same
graph is always laid out the same. Up to `DENSE` vertices each pair is moved `ROUNDS` times. A larger graph has as many pairs as
that many vertices have, and at least 20 for each vertex: its neighbours, and some vertices to which all hold.
"""
from __future__ import annotations

import math
import random
from collections import deque
from typing import Dict, List, Sequence, Set, Tuple

Point = Tuple[float, float]
ROUNDS = 15
DENSE = 300


def layout(neighbours: Sequence[Set[int]], shape: float = 1.0) -> List[Point]:
    """A place for each vertex, one step being about 1.

    Parameters
    ----------
    neighbours : sequence of set of int
    shape : float
        Width over height that the parts of a graph in several parts are put into.
    """
    places: List[Point] = [(0.0, 0.0)] * len(neighbours)
    boxes = []
    for part in _parts(neighbours):
        laid = _straight(_laid_part(neighbours, part))
        boxes.append((part, laid))
    for part, moved in _packed(boxes, shape):
        for vertex, place in zip(part, moved):
            places[vertex] = place
    return places


def _parts(neighbours: Sequence[Set[int]]) -> List[List[int]]:
    """The connected parts, the largest first."""
    seen: Set[int] = set()
    parts = []
    for start in range(len(neighbours)):
        if start not in seen:
            part = sorted(_steps_from(neighbours, start))
            seen.update(part)
            parts.append(part)
    return sorted(parts, key=lambda part: (-len(part), part))


def _steps_from(neighbours: Sequence[Set[int]], start: int) -> Dict[int, int]:
    """The number of steps to each vertex that can be reached."""
    steps = {start: 0}
    waiting = deque([start])
    while waiting:
        a = waiting.popleft()
        for b in neighbours[a]:
            if b not in steps:
                steps[b] = steps[a] + 1
                waiting.append(b)
    return steps


def _laid_part(neighbours: Sequence[Set[int]], part: List[int]) -> List[Point]:
    chance = random.Random(len(part))
    place = {v: i for i, v in enumerate(part)}
    if len(part) <= DENSE:
        fixed = part
        pairs = []
    else:
        fixed = chance.sample(part, max(20, DENSE * DENSE // len(part)))
        pairs = [(place[v], place[u], 1.0) for v in part for u in sorted(neighbours[v]) if u < v]
    for v in fixed:
        steps = _steps_from(neighbours, v)
        pairs += [(place[v], place[u], float(steps[u])) for u in part if u < v or (u != v and fixed is not part)]
    x = [chance.random() for _ in part]
    y = [chance.random() for _ in part]
    farthest = max((d for _, _, d in pairs), default=1.0)
    first, last = farthest * farthest, 0.05
    for turn in range(ROUNDS):
        step = first * (last / first) ** (turn / (ROUNDS - 1))
        chance.shuffle(pairs)
        for a, b, d in pairs:
            _move(x, y, a, b, d, step)
    return list(zip(x, y))


def _move(x: List[float], y: List[float], a: int, b: int, d: float, step: float) -> None:
    """Moves two points towards the distance d, by half of what they miss where the step is large."""
    dx, dy = x[a] - x[b], y[a] - y[b]
    now = math.hypot(dx, dy) or 1e-9
    part = min(step / (d * d), 1.0) * (now - d) / 2 / now
    x[a] -= part * dx
    y[a] -= part * dy
    x[b] += part * dx
    y[b] += part * dy


def _straight(points: List[Point]) -> List[Point]:
    """The points turned so that they are widest from left to right."""
    middle_x = sum(x for x, _ in points) / len(points)
    middle_y = sum(y for _, y in points) / len(points)
    xx = sum((x - middle_x) ** 2 for x, _ in points)
    yy = sum((y - middle_y) ** 2 for _, y in points)
    xy = sum((x - middle_x) * (y - middle_y) for x, y in points)
    turn = -math.atan2(2 * xy, xx - yy) / 2
    cos, sin = math.cos(turn), math.sin(turn)
    return [(cos * x - sin * y, sin * x + cos * y) for x, y in _middled(points)]


def _packed(boxes: List[Tuple[List[int], List[Point]]], shape: float) -> List[Tuple[List[int], List[Point]]]:
    """The parts side by side in rows, none over another."""
    sizes = [_size(points) for _, points in boxes]
    area = sum((w + 1) * (h + 1) for w, h in sizes)
    width = max([math.sqrt(area * shape), *(w + 1 for w, _ in sizes)], default=1.0)
    left = top = high = 0.0
    moved = []
    for (part, points), (w, h) in zip(boxes, sizes):
        if left and left + w > width:
            left, top, high = 0.0, top + high + 1, 0.0
        least_x, least_y = min(x for x, _ in points), min(y for _, y in points)
        moved.append((part, [(x - least_x + left, y - least_y + top) for x, y in points]))
        left += w + 1
        high = max(high, h)
    return moved


def _size(points: List[Point]) -> Point:
    xs, ys = [x for x, _ in points], [y for _, y in points]
    return max(xs) - min(xs), max(ys) - min(ys)


def turned_like(points: List[Point], model: List[Point]) -> List[Point]:
    """The points turned, and maybe mirrored, so that they lie as near as can be to a model's, one for one.

    Sizes and middles are left out of account. It is the best turn in the sense of least squares.
    """
    if len(points) < 2 or len(points) != len(model):
        return points
    a, b = _middled(points), _middled(model)
    best: List[Point] = points
    most = -1.0
    for mirror in (1, -1):
        cos = sum(x * u + mirror * y * v for (x, y), (u, v) in zip(a, b))
        sin = sum(x * v - mirror * y * u for (x, y), (u, v) in zip(a, b))
        size = math.hypot(cos, sin)
        if size > most + 1e-9:
            most = size
            c, s = (cos / size, sin / size) if size else (1.0, 0.0)
            best = [(c * x - s * mirror * y, s * x + c * mirror * y) for x, y in a]
    return best


def _middled(points: List[Point]) -> List[Point]:
    middle_x = sum(x for x, _ in points) / len(points)
    middle_y = sum(y for _, y in points) / len(points)
    return [(x - middle_x, y - middle_y) for x, y in points]
