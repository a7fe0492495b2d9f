"""The version: the file ``VERSION`` at the top of the repository is the one place that has it."""
from importlib import metadata
from pathlib import Path


def _version() -> str:
    """The text of that file, or of the copy that `make install` puts beside this module, or what pip has installed."""
    here = Path(__file__).resolve().parent
    top = here.parents[1]
    if (here / "VERSION").is_file():
        return (here / "VERSION").read_text(encoding="ascii").strip()
    if (top / "crates.txt").is_file():
        return (top / "VERSION").read_text(encoding="ascii").strip()
    return metadata.version("subgraph_solver")


VERSION = _version()
