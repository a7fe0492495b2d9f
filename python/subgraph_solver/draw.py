"""Pictures: the pattern beside the target, and where each vertex goes."""
from __future__ import annotations

import math
import os
from dataclasses import dataclass, field
from html import escape
from typing import Any, Dict, List, Mapping, Optional, Sequence, Set, Tuple, Union

from .graph import Graph, Name, NodeLabel, as_graph, is_molecule
from .layout import Point, layout, turned_like

COLOURS = ("#4269d0", "#e8871e", "#2f9e6b", "#c2417c", "#8a63d2", "#11889c", "#a8641b", "#d6453d", "#5b7f1b", "#5c6b8a")
INK = "#27313b"
QUIET_EDGE = "#c9d1d8"
QUIET_VERTEX = "#eef1f3"
QUIET_LINE = "#9aa6b0"
STYLE = "font-family:'Helvetica Neue',Helvetica,Arial,sans-serif"
PATTERN_WIDTH = 380.0
TARGET_WIDTH = 480.0
CROWDED_WIDTH = 760.0
#: Past this many vertices a target is drawn wider, and only images have names.
CROWD = 60
LEAST_HEIGHT = 240.0
MOST_HEIGHT = 620.0
MARGIN = 40.0
HEAD = 56.0
GAP = 24.0
#: The width and height of a molecule.
MOLECULE = 420
#: The height of a line of the list of images.
LINE = 20.0

#: Where a text beside a vertex may stand, the best place first, in radii from its middle.
SIDES = ((0.8, -0.8), (0.8, 0.8), (-0.8, -0.8), (-0.8, 0.8), (1.1, 0.0), (-1.1, 0.0), (0.0, -1.3), (0.0, 1.3))

Box = Tuple[float, float, float, float]


@dataclass
class _Panel:
    """One of the two graphs: where its vertices stand on the page, and how each is shown."""

    graph: Graph
    title: str
    left: float
    width: float
    radius: float
    colours: Dict[int, str]
    bold: Set[Tuple[int, int]]
    names: Set[int]
    beside: Dict[int, str]
    places: List[Point] = field(default_factory=list)
    unnamed: bool = False

    def margin(self) -> float:
        """The room at both sides, more of it where names are long."""
        longest = max((len(str(self.graph.names[v])) for v in self.names), default=0)
        return MARGIN if longest <= 4 else min(2.4 * MARGIN, MARGIN + 4.0 * longest)

    def size_of(self, v: int) -> float:
        """The radius of a vertex. Images stand out."""
        if v in self.colours:
            return max(self.radius, 6.0)
        return 0.85 * self.radius if self.colours else self.radius


def draw(
    pattern: Any,
    target: Any,
    mapping: Optional[Mapping[Name, Name]] = None,
    path: Union[None, str, "os.PathLike[str]"] = None,
    answer: Optional[str] = None,
    node_label: NodeLabel = None,
) -> str:
    """Draws the pattern beside the target, as SVG.

    Parameters
    ----------
    pattern, target : graphs
        As `find` has them.
    mapping : mapping, optional
        What `find` answered. Each image has its vertex's colour, and images of edges are bold. Without it the two graphs
        are drawn alone. Edges with a direction are arrows, except loops.
    path : path, optional
        The file that gets the picture.
    answer : str, optional
        A word for the head, such as ``unknown``.
    node_label : as in `find`
        Labels stand beside the vertices. Labels of edges are not drawn.

    Returns
    -------
    str
        The picture. RDKit draws two molecules.
    """
    said = answer if answer is not None else ("yes" if mapping is not None else "")
    if is_molecule(pattern) and is_molecule(target):
        picture = _molecules(pattern, target, mapping or {}, said)
    else:
        picture = _graphs(as_graph(pattern, node_label), as_graph(target, node_label), mapping or {}, said)
    if path is not None:
        with open(path, "w", encoding="utf-8") as file:
            file.write(picture)
    return picture


def _graphs(pattern: Graph, target: Graph, mapping: Mapping[Name, Name], said: str) -> str:
    images = {pattern.number[p]: target.number[t] for p, t in mapping.items()}
    target_places = layout(_joined(target), 1.5)
    pattern_places = layout(_joined(pattern))
    if images and len(images) == len(pattern):
        pattern_places = turned_like(pattern_places, [target_places[images[p]] for p in range(len(pattern))])
    panels = [_pattern_panel(pattern, images), _target_panel(pattern, target, images)]
    laid = (pattern_places, target_places)
    high = max(_height(panel, places) for panel, places in zip(panels, laid))
    for panel, places in zip(panels, laid):
        _place(panel, places, high)
    width = panels[1].left + panels[1].width
    drawn = [_panel_text(panel) for panel in panels]
    listed, below = "", 0.0
    if any(panel.unnamed for panel in panels):
        listed, below = _images_text(pattern, target, images, width, HEAD + high)
    parts = [_opening(width, HEAD + high + below), _head(panels[1].left - GAP / 2, width, high, said)]
    return "\n".join([*parts, *drawn, *[listed] * bool(listed), "</svg>\n"])


def _joined(graph: Graph) -> List[Set[int]]:
    """For each vertex those that an edge leads to, or that it comes from."""
    if not graph.directed:
        return graph.neighbours
    joined = [set(near) for near in graph.neighbours]
    for a, b in graph.edges():
        joined[b].add(a)
    return joined


def _colour(vertex: int) -> str:
    return COLOURS[vertex % len(COLOURS)]


def _pattern_panel(graph: Graph, images: Mapping[int, int]) -> _Panel:
    every = range(len(graph))
    bold = set(graph.edges()) if images else set()
    colours = {p: _colour(p) for p in images}
    names = set(every) if len(graph) <= CROWD else set()
    return _Panel(graph, "pattern", 0.0, PATTERN_WIDTH, 0.0, colours, bold, names, _label_texts(graph))


def _target_panel(pattern: Graph, graph: Graph, images: Mapping[int, int]) -> _Panel:
    crowded = len(graph) > CROWD
    colours = {t: _colour(p) for p, t in images.items()}
    pairs = [(images[a], images[b]) for a, b in pattern.edges()] if images else []
    names = set(images.values()) if crowded else set(range(len(graph)))
    beside = _label_texts(graph)
    for t in set(images.values()):
        mine = [str(pattern.names[p]) for p in sorted(images) if images[p] == t]
        shown = [] if crowded or mine == [str(graph.names[t])] else mine
        beside[t] = " · ".join(shown + ([beside[t]] if t in beside else []))
    long = max((len(str(graph.names[t])) for t in names), default=0) > 4
    width = CROWDED_WIDTH if crowded or (long and len(graph) > 12) else TARGET_WIDTH
    bold = set(pairs) if graph.directed else {(min(it), max(it)) for it in pairs}
    return _Panel(graph, "target", PATTERN_WIDTH + GAP, width, 0.0, colours, bold, names, beside)


def _label_texts(graph: Graph) -> Dict[int, str]:
    """The labels as texts, where there are labels and room for them."""
    if graph.labels is None or len(graph) > CROWD:
        return {}
    return {v: " ".join(map(str, it)) if isinstance(it, tuple) else str(it) for v, it in enumerate(graph.labels)}


def _extent(places: Sequence[Point]) -> Box:
    xs, ys = [x for x, _ in places], [y for _, y in places]
    return min(xs, default=0.0), min(ys, default=0.0), max(xs, default=0.0), max(ys, default=0.0)


def _scale(panel: _Panel, places: Sequence[Point], high: float) -> float:
    left, top, right, bottom = _extent(places)
    across = (panel.width - 2 * panel.margin()) / max(right - left, 1e-9)
    down = (high - 2 * MARGIN) / max(bottom - top, 1e-9)
    wide = max(right - left, bottom - top, 1e-9)
    return min(across, down, max(100.0, 90.0 * math.sqrt(len(places)) / wide))


def _height(panel: _Panel, places: Sequence[Point]) -> float:
    """The height that a graph wants where it takes the whole width."""
    _, top, _, bottom = _extent(places)
    wanted = (bottom - top) * _scale(panel, places, MOST_HEIGHT) + 2 * MARGIN
    return min(max(wanted, LEAST_HEIGHT), MOST_HEIGHT)


def _place(panel: _Panel, places: Sequence[Point], high: float) -> None:
    """Puts the vertices on the page, and chooses how large they are."""
    scale = _scale(panel, places, high)
    left, top, right, bottom = _extent(places)
    shift_x = panel.left + (panel.width - scale * (left + right)) / 2
    shift_y = HEAD + (high - scale * (top + bottom)) / 2
    panel.places = [(scale * x + shift_x, scale * y + shift_y) for x, y in places]
    panel.radius = _radius(panel.places)


def _radius(places: Sequence[Point]) -> float:
    """A radius at which vertices mostly do not touch: of the distances to the nearest one the tenth part from below counts.

    Of many vertices some 300 are looked at.
    """
    if len(places) < 2:
        return 16.0
    looked = range(0, len(places), 1 + len(places) // 300)
    nearest = sorted(min(_square(places[a], it) for b, it in enumerate(places) if b != a) for a in looked)
    return max(2.5, min(16.0, 0.42 * math.sqrt(nearest[len(nearest) // 10])))


def _square(one: Point, other: Point) -> float:
    return (one[0] - other[0]) ** 2 + (one[1] - other[1]) ** 2


def _opening(width: float, height: float) -> str:
    size = f'viewBox="0 0 {width:g} {height:g}" width="{width:g}" height="{height:g}"'
    paper = '<rect width="100%" height="100%" fill="#ffffff"/>'
    return f'<svg xmlns="http://www.w3.org/2000/svg" {size} style="{STYLE}">\n{paper}'


def _text(x: float, y: float, size: float, text: str, more: str = "") -> str:
    return f'<text x="{x:.1f}" y="{y:.1f}" font-size="{size:g}" {more}>{escape(text)}</text>'


def _head(middle: float, width: float, high: float, said: str) -> str:
    line = f'<line x1="{middle:g}" y1="16" x2="{middle:g}" y2="{HEAD + high - 12:g}" stroke="#e3e7ea"/>'
    if not said:
        return line
    return _text(width - 16, 26, 15, said, f'text-anchor="end" font-weight="bold" fill="{INK}"') + "\n" + line


def _panel_text(panel: _Panel) -> str:
    edges = panel.graph.edges()
    order = sorted(range(len(panel.graph)), key=lambda v: v in panel.colours)
    lines = [
        _text(panel.left + 16, 26, 15, panel.title, f'font-weight="bold" fill="{INK}"'),
        _text(panel.left + 16, 44, 12, f"{len(panel.graph)} vertices, {len(edges)} edges", 'fill="#66727d"'),
    ]
    for is_bold in (False, True):
        lines += [_edge(panel, a, b, is_bold) for a, b in edges if ((a, b) in panel.bold) == is_bold]
    lines += [_vertex(panel, v) for v in order]
    return "\n".join([*lines, *_names(panel, order)])


def _edge(panel: _Panel, a: int, b: int, is_bold: bool) -> str:
    (x, y), (u, v) = panel.places[a], panel.places[b]
    if is_bold:
        crowded = len(panel.bold) > 2 * len(panel.colours)
        colour, width = INK, 1.6 if crowded else max(1.8, 0.22 * panel.radius)
    else:
        colour, width = QUIET_EDGE if panel.colours else QUIET_LINE, 1.3 if panel.radius > 7 else 0.7
    paint = f'stroke="{colour}" stroke-width="{width:.1f}"'
    if a == b:
        r = 0.8 * panel.size_of(a)
        return f'<circle cx="{x:.1f}" cy="{y - 1.5 * r:.1f}" r="{r:.1f}" fill="none" {paint}/>'
    line = f'<line x1="{x:.1f}" y1="{y:.1f}" x2="{u:.1f}" y2="{v:.1f}" {paint}/>'
    if not panel.graph.directed:
        return line
    return line + _arrow(panel.places[a], panel.places[b], panel.size_of(b), 4 + 2.5 * width, colour)


def _arrow(start: Point, end: Point, radius: float, size: float, colour: str) -> str:
    """The head of an arrow that ends at a vertex of this radius."""
    far = max(math.dist(start, end), 1e-9)
    dx, dy = (end[0] - start[0]) / far, (end[1] - start[1]) / far
    x, y = end[0] - radius * dx, end[1] - radius * dy
    corners = [(x, y)] + [(x - size * (dx - it * dy), y - size * (dy + it * dx)) for it in (-0.4, 0.4)]
    points = " ".join(f"{u:.1f},{v:.1f}" for u, v in corners)
    return f'<polygon points="{points}" fill="{colour}"/>'


def _vertex(panel: _Panel, v: int) -> str:
    x, y = panel.places[v]
    colour = panel.colours.get(v)
    paint = f'fill="{colour}" stroke="#ffffff"' if colour else f'fill="{QUIET_VERTEX}" stroke="{QUIET_LINE}"'
    tip = escape(str(panel.graph.names[v]))
    where = f'cx="{x:.1f}" cy="{y:.1f}" r="{panel.size_of(v):.1f}"'
    return f"<circle {where} {paint}><title>{tip}</title></circle>"


def _names(panel: _Panel, order: Sequence[int]) -> List[str]:
    """The names of vertices, in their circles where they have room there, and what stands beside them.

    What stands beside is put where it covers no vertex, no bold edge and no other text, and left out where there is no
    such place.
    """
    taken = [_around(x, y, panel.size_of(v)) for v, (x, y) in enumerate(panel.places)]
    if len(panel.graph) <= CROWD:
        taken += [box for a, b in sorted(panel.bold) for box in _along(panel.places[a], panel.places[b])]
    lines = []
    for v in reversed(order):
        x, y = panel.places[v]
        r = panel.size_of(v)
        name = str(panel.graph.names[v]) if v in panel.names else ""
        beside = panel.beside.get(v, "")
        size = min(12.0, r)
        if r >= 9 and 0.6 * len(name) * size <= 1.9 * r:
            ink = "#ffffff" if v in panel.colours else INK
            lines.append(_text(x, y + 0.36 * size, size, name, f'text-anchor="middle" fill="{ink}"') if name else "")
        else:
            beside = f"{name} · {beside}" if name and beside else name or beside
        if beside:
            lines.append(_beside(panel, v, _short(beside), taken))
            panel.unnamed |= v in panel.colours and not lines[-1]
    panel.unnamed |= panel.radius < 9 and bool(panel.colours)
    return [it for it in lines if it]


def _short(text: str, most: int = 24) -> str:
    return text if len(text) <= most else text[: most - 1] + "…"


def _around(x: float, y: float, r: float) -> Box:
    return x - r, y - r, x + r, y + r


def _along(start: Point, end: Point) -> List[Box]:
    """Small boxes that cover a line."""
    (x, y), (u, v) = start, end
    steps = max(1, int(max(abs(u - x), abs(v - y)) / 6))
    return [_around(x + (u - x) * i / steps, y + (v - y) * i / steps, 2.0) for i in range(steps + 1)]


def _beside(panel: _Panel, v: int, text: str, taken: List[Box]) -> str:
    """The text beside a vertex, empty where each place for it is taken or outside the panel."""
    x, y = panel.places[v]
    r = panel.size_of(v)
    size = 11.0 if r > 7 else 10.0
    wide = 0.58 * size * len(text)
    for dx, dy in SIDES:
        middle_y = y + dy * (r + 0.4 * size)
        left = x + dx * r + 2 if dx > 0 else x + dx * r - 2 - wide if dx < 0 else x - wide / 2
        box = (left, middle_y - 0.45 * size, left + wide, middle_y + 0.45 * size)
        within = panel.left < box[0] and box[2] < panel.left + panel.width
        if within and not any(box[0] < c and a < box[2] and box[1] < d and b < box[3] for a, b, c, d in taken):
            taken.append(box)
            halo = 'paint-order="stroke" stroke="#ffffff" stroke-width="3" stroke-linejoin="round"'
            return _text(left, middle_y + 0.36 * size, size, text, f'fill="{INK}" {halo}')
    return ""


def _images_text(
    pattern: Graph, target: Graph, images: Mapping[int, int], width: float, top: float
) -> Tuple[str, float]:
    """The list of images below the picture, and its height."""
    texts = {p: _short(f"{pattern.names[p]} → {target.names[t]}", 60) for p, t in images.items()}
    column = max(90.0, 6.3 * max(map(len, texts.values()), default=0) + 30)
    columns = max(1, int((width - 22) // column))
    lines = []
    for place, (p, text) in enumerate(texts.items()):
        x, y = 22 + column * (place % columns), top + LINE * (place // columns + 0.5)
        lines.append(f'<circle cx="{x:.1f}" cy="{y:.1f}" r="5" fill="{_colour(p)}"/>')
        lines.append(_text(x + 10, y + 4, 11, text, f'fill="{INK}"'))
    return "\n".join(lines), LINE * (-(-len(texts) // columns) + 1)


def _molecules(pattern: Any, target: Any, mapping: Mapping[Name, Name], said: str) -> str:
    """Both molecules in RDKit's depiction, the mapped atoms and bonds in colour."""
    from rdkit.Chem import rdDepictor
    from rdkit.Chem.Draw import rdMolDraw2D

    drawing = rdMolDraw2D.MolDraw2DSVG(2 * MOLECULE, MOLECULE, MOLECULE, MOLECULE)
    drawing.drawOptions().addAtomIndices = True
    images: Dict[Any, Any] = dict(mapping)
    atoms: List[Dict[int, Tuple[float, float, float]]] = [
        {p: _light(_colour(p)) for p in images},
        {t: _light(_colour(p)) for p, t in images.items()},
    ]
    bonds: List[Dict[int, Tuple[float, float, float]]] = [{}, {}]
    for bond in pattern.GetBonds() if mapping else ():
        a, b = bond.GetBeginAtomIdx(), bond.GetEndAtomIdx()
        bonds[0][bond.GetIdx()] = atoms[0][a]
        bonds[1][target.GetBondBetweenAtoms(images[a], images[b]).GetIdx()] = atoms[0][a]
    molecules = []
    for it in (pattern, target):
        molecules.append(rdMolDraw2D.PrepareMolForDrawing(it, kekulize=True))
        rdDepictor.Compute2DCoords(molecules[-1])
    drawing.DrawMolecules(
        molecules,
        legends=[f"pattern{': ' + said if said else ''}", "target"],
        highlightAtoms=[list(it) for it in atoms],
        highlightBonds=[list(it) for it in bonds],
        highlightAtomColors=atoms,
        highlightBondColors=bonds,
    )
    drawing.FinishDrawing()
    return str(drawing.GetDrawingText())


def _light(colour: str) -> Tuple[float, float, float]:
    """The colour mixed with white, so that letters over it can be read."""
    red, green, blue = (int(colour[i : i + 2], 16) / 255 for i in (1, 3, 5))
    return (0.45 * red + 0.55, 0.45 * green + 0.55, 0.45 * blue + 0.55)
