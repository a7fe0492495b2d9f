"""Does a pattern graph occur in a target graph? The proved program ``subgraph``, asked from Python.

>>> from subgraph_solver import find
>>> find([("a", "b"), ("b", "c")], [(1, 2), (2, 3)])["b"]
2
>>> print(find([("a", "b"), ("b", "c"), ("c", "a")], [(1, 2), (2, 3)]))
None

``find`` answers the image of each pattern vertex, or ``None`` if no embedding exists. It raises ``Undecided`` when the budget
is spent. Graphs come from networkx, igraph and RDKit, or as plain lists of edges, and the answer is in their names. The
program is proved. This package writes its questions and reads its answers, and is tested, not proved.
"""
from .answers import Embedding, Failed, Proof, Unknown
from .errors import (
    Fault,
    LibraryMissing,
    LogRefused,
    NotACommand,
    NotAvailable,
    OutOfMemory,
    ProgramFailed,
    ProgramMissing,
    Stopped,
    SubgraphError,
    TextRefused,
    Undecided,
    WorkerLost,
)
from .graph import Graph, as_graph
from .matcher import DiGraphMatcher, GraphMatcher
from .program import Progress
from .prepared import Prepared, prepare
from .questions import check, encode, find, trim, verify
from .batch import batch
from .draw import draw
from .reading import read_graph
from .stopping import Stop
from .version import VERSION as __version__

__all__ = [
    "DiGraphMatcher",
    "Embedding",
    "Failed",
    "Fault",
    "Graph",
    "GraphMatcher",
    "LibraryMissing",
    "LogRefused",
    "NotACommand",
    "NotAvailable",
    "OutOfMemory",
    "Prepared",
    "ProgramFailed",
    "ProgramMissing",
    "Progress",
    "Proof",
    "Stop",
    "Stopped",
    "SubgraphError",
    "TextRefused",
    "Undecided",
    "Unknown",
    "WorkerLost",
    "as_graph",
    "batch",
    "check",
    "draw",
    "encode",
    "find",
    "prepare",
    "read_graph",
    "trim",
    "verify",
]
