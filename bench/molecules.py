"""Molecules as graphs: the NCI's that Debian's package rdkit-data has, read by python3-rdkit, and made ones.

A molecule is the atomic numbers of its atoms without hydrogen, and for each bond its two atoms and its kind: 1, 2 and 3 for single, double
and triple, 4 for aromatic.
"""
import functools
import os

CARBON, NITROGEN, OXYGEN, SULPHUR = 6, 7, 8, 16
#: How many bonds an atom of a made molecule has room for.
ROOM = {CARBON: 4, NITROGEN: 3, OXYGEN: 2, SULPHUR: 2}
AROMATIC = 4


@functools.lru_cache(None)
def of_rdkit():
    """The NCI's first molecules; none where RDKit or its data are not installed."""
    try:
        from rdkit import Chem, RDConfig, RDLogger
    except ImportError:
        return []
    path = os.path.join(RDConfig.RDDataDir, "NCI", "first_5K.smi")
    if not os.path.exists(path):
        return []
    RDLogger.DisableLog("rdApp.*")
    kinds = {Chem.BondType.SINGLE: 1, Chem.BondType.DOUBLE: 2, Chem.BondType.TRIPLE: 3, Chem.BondType.AROMATIC: AROMATIC}
    found = []
    with open(path, encoding="ascii") as file:
        for line in file:
            molecule = Chem.MolFromSmiles(line.split()[0])
            bonds = list(molecule.GetBonds()) if molecule else []
            if bonds and all(it.GetBondType() in kinds for it in bonds):
                atoms = [it.GetAtomicNum() for it in molecule.GetAtoms()]
                found.append((atoms, [(it.GetBeginAtomIdx(), it.GetEndAtomIdx(), kinds[it.GetBondType()]) for it in bonds]))
    return found


def made(source):
    """A molecule at random: rings of six, aromatic or not, and single atoms, each bound to what is there."""
    atoms, bonds, room = [], [], []

    def add(atom, at, kind):
        atoms.append(atom)
        room.append(ROOM[atom])
        if at is not None:
            bonds.append((at, len(atoms) - 1, kind))
            room[at] -= kind
            room[-1] -= kind

    def free(least):
        return [it for it, left in enumerate(room) if left >= least]

    def ring(at):
        kind = source.choice([1, AROMATIC])
        first = len(atoms)
        for _ in range(6):
            atoms.append(NITROGEN if source.random() < 0.15 else CARBON)
            room.append(ROOM[atoms[-1]] - (2 if kind == 1 else 3))
        bonds.extend((first + i, first + (i + 1) % 6, kind) for i in range(6))
        ends = [it for it in range(first, first + 6) if room[it] > 0]
        if at is not None and ends:
            bonds.append((at, ends[0], 1))
            room[at] -= 1
            room[ends[0]] -= 1

    ring(None)
    size = source.randrange(8, 40)
    while len(atoms) < size and free(1):
        if source.random() < 0.15:
            ring(source.choice(free(1)))
            continue
        atom = source.choice([CARBON] * 6 + [NITROGEN, OXYGEN, OXYGEN, SULPHUR])
        kind = 2 if source.random() < 0.2 and free(2) and ROOM[atom] >= 2 else 1
        add(atom, source.choice(free(kind)), kind)
    return atoms, bonds
