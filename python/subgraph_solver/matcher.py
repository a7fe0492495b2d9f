"""The same questions under the names of networkx."""
from __future__ import annotations

from typing import Any, Dict, Optional

from .graph import EdgeLabel, Name, NodeLabel
from .program import StrPath
from .questions import find


class GraphMatcher:
    """Replaces ``networkx.algorithms.isomorphism.GraphMatcher`` if one embedding is enough.

    Parameters
    ----------
    G1 : graph
        The target, first as in networkx.
    G2 : graph
        The pattern.
    node_label : str, sequence of str, or callable, optional
        In place of `node_match`: what two vertices share. It is no test of two vertices.
    seed, budget : int, optional
        As `find` has them.
    edge_label : str, sequence of str, or callable, optional
        In place of `edge_match`: what two edges share.

    Attributes
    ----------
    mapping : dict
        After the answer `True`: from vertices of G1 to those of G2, as in networkx. Else empty.
    """

    def __init__(
        self,
        G1: Any,
        G2: Any,
        node_label: NodeLabel = None,
        seed: Optional[int] = None,
        budget: Optional[int] = None,
        program: Optional[StrPath] = None,
        edge_label: EdgeLabel = None,
    ) -> None:
        self.G1 = G1
        self.G2 = G2
        self.mapping: Dict[Name, Name] = {}
        labels = {"node_label": node_label, "edge_label": edge_label}
        self._how: Dict[str, Any] = {**labels, "seed": seed, "budget": budget, "program": program}

    def subgraph_is_isomorphic(self) -> bool:
        """Does G1 have an induced copy of G2?"""
        return self._ask(True)

    def subgraph_is_monomorphic(self) -> bool:
        """Does G1 have a copy of G2, induced or not?"""
        return self._ask(False)

    def _ask(self, induced: bool) -> bool:
        images = find(self.G2, self.G1, induced, **self._how)
        self.mapping = {t: p for p, t in images.items()} if isinstance(images, dict) else {}
        return isinstance(images, dict)


class DiGraphMatcher(GraphMatcher):
    """`GraphMatcher` under networkx's name for directed graphs."""
