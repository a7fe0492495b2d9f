#!/usr/bin/env python3
"""Substructure match of RDKit (Debian's python3-rdkit) behind the words of the other peers: molecules in `labelledlad`, not induced.

    rdkit_match.py PATTERN TARGET --format labelledlad
    rdkit_match.py --list LIST --format labelledlad

With a list each of its lines, a pattern and a target, gets a line `J: yes` or `J: none`, as of `subgraph batch` without images. The molecules are built from the text: atoms by their number, bonds by their kind, without charges or hydrogen. Prints the answer and the map,
and on standard error the seconds of the call alone, which are what a user of that library pays; anything else is `not taken`.
"""
import sys
import time

from compare import NOT_TAKEN, read_graph


def build(chem, path):
    """A molecule; none where the text is of no molecule."""
    kinds = {1: chem.BondType.SINGLE, 2: chem.BondType.DOUBLE, 3: chem.BondType.TRIPLE, 4: chem.BondType.AROMATIC}
    labels, near = read_graph(path, "labelledlad")
    bonds = {(v, u): kind for v, row in enumerate(near) for u, kind in row.items()}
    if any(bonds.get((u, v)) != kind or u == v or kind not in kinds for (v, u), kind in bonds.items()) or any(not 0 < it < 119 for it in labels):
        return None
    molecule = chem.RWMol()
    for label in labels:
        atom = chem.Atom(label)
        atom.SetNoImplicit(True)
        molecule.AddAtom(atom)
    for (v, u), kind in bonds.items():
        if v < u:
            molecule.AddBond(v, u, kinds[kind])
    molecule = molecule.GetMol()
    molecule.UpdatePropertyCache(strict=False)
    return molecule


def answer_list(path):
    """A line for each question of a list, and the seconds of all calls."""
    from rdkit import Chem

    seconds = 0.0
    with open(path, encoding="ascii") as file:
        for number, line in enumerate(file, 1):
            pattern, target = (build(Chem, it) for it in line.split())
            begun = time.process_time()
            found = target.HasSubstructMatch(pattern)
            seconds += time.process_time() - begun
            print(f"{number}: {'yes' if found else 'none'}")
    print(f"seconds {seconds:.6f}", file=sys.stderr)


def main():
    words = sys.argv[1:]
    if words[:1] == ["--list"]:
        return answer_list(words[1])
    files = [it for it in words[:2] if not it.startswith("-")]
    molecules = []
    if len(files) == 2 and "labelledlad" in words and not {"--induced", "--map", "--less"} & set(words):
        from rdkit import Chem

        molecules = [build(Chem, it) for it in files]
    if len(molecules) != 2 or None in molecules:
        print(NOT_TAKEN)
        sys.exit(3)
    pattern, target = molecules
    begun = time.process_time()
    images = target.GetSubstructMatch(pattern)
    seconds = time.process_time() - begun
    print("yes" if images else "none", *(f"{p} -> {t}" for p, t in enumerate(images)), sep="\n")
    print(f"seconds {seconds:.6f}", file=sys.stderr)
    sys.exit(0 if images else 1)


if __name__ == "__main__":
    main()
