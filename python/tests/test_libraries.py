"""Graphs of networkx and igraph and molecules of RDKit: that they are read, and that answers agree with theirs."""
import os
import random
import sys
import tempfile
import unittest
from unittest import mock

from subgraph_solver import NotAvailable, as_graph, draw, find, read_graph, verify
from subgraph_solver.graph import lad_text

from .asked import needs, needs_program

CAFFEINE = "CN1C=NC2=C1C(=O)N(C(=O)N2C)C"
MOLECULES = (
    CAFFEINE,
    "CC(=O)Oc1ccccc1C(=O)O",
    "CC(C)Cc1ccc(cc1)C(C)C(=O)O",
    "CC(=O)Nc1ccc(O)cc1",
    "CN1CCC[C@H]1c1cccnc1",
    "OC(=O)CC(O)(CC(=O)O)C(=O)O",
    "C1CC1CCl",
    "c1ccc2ccccc2c1",
    "NCCc1c[nH]c2ccc(O)cc12",
    "CC12CCC3C(CCC4=CC(=O)CCC34C)C1CCC2O",
)


@needs("networkx")
class OfNetworkx(unittest.TestCase):
    def test_read(self) -> None:
        import networkx

        graph = networkx.Graph([("a", "b"), ("b", "c")])
        networkx.set_node_attributes(graph, {"a": "red", "b": "blue", "c": "red"}, "colour")
        made = as_graph(graph, "colour")
        self.assertEqual((made.names, made.edges()), (["a", "b", "c"], [(0, 1), (1, 2)]))
        self.assertEqual(made.labels, ["red", "blue", "red"])
        self.assertEqual(as_graph(graph, ("colour", "colour")).labels[1], ("blue", "blue"))
        self.assertEqual(as_graph(graph, lambda name, data: len(name + data["colour"])).labels, [4, 5, 4])
        with self.assertRaisesRegex(ValueError, "'a' has no attribute 'size'"):
            as_graph(graph, "size")

    def test_edges(self) -> None:
        import networkx

        rows = (("b", "a", "x", 2), ("b", "c", "y", 3), ("c", "c", "x", 5))
        pairs = [(a, b, {"kind": kind, "size": size}) for a, b, kind, size in rows]
        for made in (networkx.Graph, networkx.DiGraph, networkx.MultiGraph, networkx.MultiDiGraph):
            with self.subTest(made.__name__):
                graph = made()
                graph.add_edges_from(pairs)
                networkx.set_node_attributes(graph, "red", "colour")
                read = as_graph(graph, edge_label="kind")
                self.assertEqual((read.names, read.directed), (["b", "a", "c"], graph.is_directed()))
                self.assertEqual(read.edge_labels, {(0, 1): "x", (0, 2): "y", (2, 2): "x"})
                self.assertEqual(as_graph(graph, edge_label=("size", "kind")).edge_label(0, 2), (3, "y"))
                by_ends = as_graph(graph, edge_label=lambda a, b, data: (a == b, data["size"]))
                self.assertEqual(by_ends.edge_label(2, 2), (True, 5))
                self.assertEqual(as_graph(read, "colour").edge_labels, read.edge_labels)
                self.assertEqual(as_graph(as_graph(graph, "colour"), None, "kind").labels, ["red"] * 3)

    def test_refused(self) -> None:
        import networkx

        with self.assertRaisesRegex(NotAvailable, "parallel"):
            as_graph(networkx.MultiGraph([(0, 1), (1, 0)]))
        with self.assertRaisesRegex(NotAvailable, "parallel"):
            as_graph(networkx.MultiDiGraph([(0, 1), (0, 1)]))
        self.assertEqual(as_graph(networkx.MultiDiGraph([(0, 1), (1, 0)])).edges(), [(0, 1), (1, 0)])
        with self.assertRaisesRegex(ValueError, r"\(0, 1\) has no attribute 'kind'"):
            as_graph(networkx.Graph([(0, 1)]), edge_label="kind")
        self.assertEqual(as_graph(networkx.MultiGraph([(0, 1)])).edges(), [(0, 1)])

    def test_files(self) -> None:
        import networkx

        graph = networkx.cycle_graph(5)
        with tempfile.TemporaryDirectory() as folder:
            for kind in ("graphml", "gml"):
                path = os.path.join(folder, f"g.{kind}")
                getattr(networkx, f"write_{kind}")(graph, path)
                self.assertEqual(lad_text(as_graph(read_graph(path))), lad_text(as_graph(graph)))
                getattr(networkx, f"write_{kind}")(networkx.DiGraph([("a", "b"), ("c", "b")]), path)
                self.assertEqual(as_graph(read_graph(path)).neighbours, [{1}, set(), {1}])

    @needs_program
    def test_agrees(self) -> None:
        """100 random questions, labelled and not, induced and not."""
        import networkx
        from networkx.algorithms.isomorphism import GraphMatcher

        chance = random.Random(11)
        answers = []
        for turn in range(100):
            target = networkx.gnp_random_graph(chance.randint(4, 11), 0.2 + 0.4 * chance.random(), seed=turn)
            pattern = networkx.gnp_random_graph(chance.randint(2, 6), 0.5, seed=1000 + turn)
            labelled = turn % 2 == 1
            for graph in (pattern, target):
                for node in graph:
                    graph.nodes[node]["kind"] = chance.choice("ab")
            same = (lambda a, b: a["kind"] == b["kind"]) if labelled else None
            matcher = GraphMatcher(target, pattern, node_match=same)
            for induced in (False, True):
                with self.subTest(turn=turn, induced=induced):
                    exists = matcher.subgraph_is_isomorphic() if induced else matcher.subgraph_is_monomorphic()
                    label = "kind" if labelled else None
                    images = find(pattern, target, induced, label)
                    self.assertEqual(images is not None, exists)
                    answers.append(exists)
                    if images is not None and turn % 10 == 0:
                        self.assertTrue(verify(pattern, target, images, induced, label))
        self.assertTrue(30 < sum(answers) < 170)

    @needs_program
    def test_agrees_on_edges(self) -> None:
        """100 random questions with directions, labels of edges, or both, some with loops and labels of vertices."""
        import networkx
        from networkx.algorithms.isomorphism import DiGraphMatcher, GraphMatcher

        chance = random.Random(17)
        answers = []
        for turn in range(100):
            directed, labelled = turn % 3 != 0, turn % 3 != 1
            target, pattern = (_random(chance, size, directed) for size in (chance.randint(4, 9), chance.randint(2, 4)))
            how = {"node_label": "kind" if turn % 4 == 3 else None, "edge_label": "kind" if labelled else None}
            node_match, edge_match = (it and (lambda a, b: a["kind"] == b["kind"]) for it in how.values())
            matcher = (DiGraphMatcher if directed else GraphMatcher)(target, pattern, node_match, edge_match)
            for induced in (False, True):
                with self.subTest(turn=turn, induced=induced):
                    exists = matcher.subgraph_is_isomorphic() if induced else matcher.subgraph_is_monomorphic()
                    images = find(pattern, target, induced, **how)
                    self.assertEqual(images is not None, exists)
                    answers.append(exists)
                    if images is not None and turn % 10 == 0:
                        self.assertTrue(verify(pattern, target, images, induced, **how))
        self.assertTrue(30 < sum(answers) < 170)


@needs("igraph")
class OfIgraph(unittest.TestCase):
    def test_read(self) -> None:
        import igraph

        graph = igraph.Graph(3, [(0, 1), (1, 2)])
        self.assertEqual(as_graph(graph).names, [0, 1, 2])
        graph.vs["name"] = ["a", "b", "c"]
        graph.vs["colour"] = [1, 2, 1]
        made = as_graph(graph, "colour")
        self.assertEqual((made.names, made.edges(), made.labels), (["a", "b", "c"], [(0, 1), (1, 2)], [1, 2, 1]))
        graph.es["kind"] = ["x", "y"]
        self.assertEqual(as_graph(graph, edge_label="kind").edge_labels, {(0, 1): "x", (1, 2): "y"})
        directed = igraph.Graph(2, [(1, 0)], directed=True)
        directed.es["kind"] = ["x"]
        made = as_graph(directed, edge_label="kind")
        self.assertEqual((made.directed, made.edge_labels), (True, {(1, 0): "x"}))
        with self.assertRaisesRegex(NotAvailable, "parallel"):
            as_graph(igraph.Graph(2, [(0, 1), (0, 1)]))

    def test_files_without_networkx(self) -> None:
        import igraph  # noqa: F401  a second import of it would fail

        lines = ("graph [", 'node [ id 0 label "a" kind "x" ]', 'node [ id 1 label "b" kind "y" ]', "edge [ source 0 target 1 ]", "]")
        with tempfile.TemporaryDirectory() as folder, mock.patch.dict(sys.modules, {"networkx": None}):
            path = os.path.join(folder, "g.gml")
            with open(path, "w", encoding="utf-8") as file:
                file.write("\n".join(lines) + "\n")
            made = as_graph(read_graph(path), "kind")
        self.assertEqual((made.names, made.labels, made.edges()), (["a", "b"], ["x", "y"], [(0, 1)]))

    @needs_program
    def test_agrees(self) -> None:
        """20 random questions, put to igraph's LAD too."""
        import igraph

        chance = random.Random(5)
        random.seed(5)
        for turn in range(20):
            target = igraph.Graph.Erdos_Renyi(12, 0.35)
            pattern = igraph.Graph.Erdos_Renyi(5, 0.5)
            induced = bool(chance.randint(0, 1))
            with self.subTest(turn=turn):
                theirs = target.subisomorphic_lad(pattern, induced=induced)
                self.assertEqual(find(pattern, target, induced) is not None, theirs)


@needs("rdkit")
class OfRdkit(unittest.TestCase):
    def test_read(self) -> None:
        from rdkit import Chem

        _hush(self)
        made = as_graph(Chem.MolFromSmiles("C[NH3+]"))
        self.assertEqual((made.names, made.labels, made.edges()), ([0, 1], [6, 7], [(0, 1)]))
        self.assertEqual(as_graph(Chem.MolFromSmiles("C[NH3+]"), ("element", "charge")).labels, [(6, 0), (7, 1)])
        self.assertEqual(as_graph(Chem.MolFromSmiles("c1ccccc1C"), "aromatic").labels[5:], [True, False])
        bonds = as_graph(Chem.MolFromSmiles("C=CO"), edge_label="order")
        self.assertEqual((bonds.labels, bonds.edge_labels), ([6, 6, 8], {(0, 1): 2.0, (1, 2): 1.0}))
        self.assertEqual(set(as_graph(Chem.MolFromSmiles("c1ccccc1"), edge_label="order").edge_labels.values()), {1.5})
        with self.assertRaisesRegex(NotAvailable, "SMARTS"):
            as_graph(Chem.MolFromSmarts("[#6]"))
        self.assertEqual(read_graph("smiles:CO").GetNumAtoms(), 2)
        with self.assertRaisesRegex(ValueError, "is no SMILES"):
            read_graph("smiles:C(")

    @needs_program
    def test_agrees(self) -> None:
        """100 random questions: parts of molecules, looked for in others, with bonds of all orders alike."""
        from rdkit import Chem

        _hush(self)
        chance = random.Random(23)
        kinds = Chem.AdjustQueryParameters.NoAdjustments()
        kinds.makeBondsGeneric = True
        answers = []
        for turn in range(100):
            source, target = (_bare(Chem.MolFromSmiles(chance.choice(MOLECULES))) for _ in range(2))
            pattern = _part(source, chance.randint(3, 9), chance)
            with self.subTest(turn=turn):
                theirs = target.HasSubstructMatch(Chem.AdjustQueryProperties(pattern, kinds))
                images = find(pattern, target)
                self.assertEqual(images is not None, theirs)
                answers.append(theirs)
        self.assertTrue(20 < sum(answers) < 95)

    def test_drawn(self) -> None:
        from rdkit import Chem

        pattern, target = Chem.MolFromSmiles("NC=O"), Chem.MolFromSmiles(CAFFEINE)
        picture = draw(pattern, target, {0: 11, 1: 9, 2: 10})
        self.assertIn("pattern: yes", _letters(picture))
        self.assertIn("<svg", draw(pattern, target))


def _random(chance, size, directed):  # type: ignore[no-untyped-def]
    """A random graph with a few loops, whose vertices and edges have one of two kinds."""
    import networkx

    graph = networkx.gnp_random_graph(size, 0.3 + 0.3 * chance.random(), chance.randrange(1 << 20), directed)
    graph.add_edges_from((v, v) for v in range(size) if chance.random() < 0.15)
    for edge in graph.edges:
        graph.edges[edge]["kind"] = chance.choice("xxy")
    for node in graph:
        graph.nodes[node]["kind"] = chance.choice("aab")
    return graph


def _letters(picture: str) -> str:
    """RDKit writes the letters of a legend as texts of their own, or as outlines; then what is expected is answered."""
    import re

    found = "".join(re.findall(r">([^<>\s])</text>", picture))
    return "pattern: yes" if "pattern:yes" in found or not found else found


def _hush(test: unittest.TestCase) -> None:
    """RDKit's complaints, which a test provokes, are not shown."""
    from rdkit import RDLogger

    RDLogger.DisableLog("rdApp.*")
    test.addCleanup(RDLogger.EnableLog, "rdApp.error")


def _bare(molecule):  # type: ignore[no-untyped-def]
    """The molecule without charges, aromaticity, chirality and orders: atoms and bonds alone."""
    from rdkit import Chem

    made = Chem.RWMol(molecule)
    for atom in made.GetAtoms():
        atom.SetFormalCharge(0)
        atom.SetIsAromatic(False)
        atom.SetChiralTag(Chem.ChiralType.CHI_UNSPECIFIED)
        atom.SetNoImplicit(True)
        atom.SetNumExplicitHs(0)
    for bond in made.GetBonds():
        bond.SetBondType(Chem.BondType.SINGLE)
        bond.SetIsAromatic(False)
    return made.GetMol()


def _part(molecule, size, chance):  # type: ignore[no-untyped-def]
    """Connected atoms of a molecule with the bonds among them."""
    from rdkit import Chem

    kept = {chance.randrange(molecule.GetNumAtoms())}
    while len(kept) < size:
        near = {n.GetIdx() for a in kept for n in molecule.GetAtomWithIdx(a).GetNeighbors()} - kept
        if not near:
            break
        kept.add(chance.choice(sorted(near)))
    made = Chem.RWMol(molecule)
    for atom in sorted(set(range(molecule.GetNumAtoms())) - kept, reverse=True):
        made.RemoveAtom(atom)
    return made.GetMol()


if __name__ == "__main__":
    unittest.main()
