"""``python -m subgraph_solver``: asks about two files, and answers in their names."""
from __future__ import annotations

import argparse
import os
import sys
from contextlib import closing, nullcontext
from typing import Any, ContextManager, Dict, List, Optional

from .answers import Embedding, Failed, Proof, Unknown
from .batch import Answer, batch
from .cluster import distributed
from .draw import draw
from .errors import SubgraphError, Undecided
from .graph import Name, as_graph
from .library import FORMATS
from .maps import MAPS
from .questions import check, encode, find, trim, verify
from .reading import read_graph

#: The status if the words or the files are at fault, before the program is asked.
BAD_INPUT = 3
#: The status of a batch in which a question failed, and the others are answered.
FAILED = 8


def _words() -> argparse.ArgumentParser:
    words = argparse.ArgumentParser(
        prog="python -m subgraph_solver",
        description="Does a pattern occur in a target? Graphs are files (GraphML, GML, edge lists, LAD, SMILES "
        "by their endings), or molecules as smiles:CCO.",
        epilog="Exit status: 0 yes, 1 none, 2 unknown; 3 to 7 as the program's, 3 also for a fault of the words or files; "
        "of batch 0 if all are decided, 8 if a question failed.",
    )
    commands = words.add_subparsers(dest="command", required=True)
    for name, what in (
        ("find", "print the images of the pattern's vertices"),
        ("verify", "test a mapping: a file of lines NAME -> NAME"),
        ("encode", "write the question as pseudo-Boolean constraints"),
        ("draw", "draw the two graphs, with an embedding if one is found"),
    ):
        _graphs(commands.add_parser(name, help=what), name)
    lines = "answer each line of a list: two names of LAD files, and perhaps induced behind them"
    _batch_words(commands.add_parser("batch", help=lines))
    of_check = commands.add_parser("check", help="judge a proof log over an encoding")
    of_check.add_argument("encoding")
    of_check.add_argument("log")
    of_trim = commands.add_parser("trim", help="write a log without the steps on which nothing rests")
    of_trim.add_argument("encoding")
    of_trim.add_argument("log")
    of_trim.add_argument("out", help="the file to write")
    return words


def _batch_words(words: argparse.ArgumentParser) -> None:
    words.add_argument("list", help="the list; names of files count from the current folder")
    words.add_argument("--scheduler", metavar="ADDRESS", help="ask the workers of this scheduler of dask.distributed")
    words.add_argument("--format", default="lad", choices=FORMATS, help="the format of all files")
    words.add_argument("--seed", type=int, help="where choices begin")
    words.add_argument("--budget", type=int, help="the most failed guesses of each question")
    words.add_argument("--threads", type=int, help="how many questions a run works on at a time, 1 to 64")
    words.add_argument("--book", type=int, help="rows of the book of each search")
    words.add_argument("--prove", metavar="FOLDER", help="put a proof of each answer none into this folder")
    words.add_argument("--piece", type=int, metavar="N", help="how many questions each run has, 1 to 1000")
    words.add_argument("--as-done", action="store_true", help="print answers as they are done")
    ends = "end at a question that fails (the default without a scheduler), or tell it as failed and go on"
    words.add_argument("--errors", choices=("raise", "answer"), help=ends)
    words.add_argument("--progress", action="store_true", help="show a bar, if tqdm is installed")


def _graphs(words: argparse.ArgumentParser, name: str) -> None:
    words.add_argument("pattern")
    words.add_argument("target")
    if name == "verify":
        words.add_argument("mapping")
    if name in ("encode", "draw"):
        words.add_argument("out", help="the file to write")
    apart = "images of vertices without an edge have no edge either"
    words.add_argument("--induced", action="store_true", help=apart)
    differ = "which images differ: of any two vertices (the default), of the neighbours of each vertex, or none has to"
    words.add_argument("--map", choices=MAPS, default="injective", help=differ)
    before = "the image of pattern vertex A comes before that of B; may be repeated"
    words.add_argument("--less", action="append", nargs=2, metavar=("A", "B"), help=before)
    words.add_argument("--kind", help="the format of both files, whatever their endings say")
    shared = "an attribute that a vertex and its image share; may be repeated"
    words.add_argument("--label", action="append", metavar="NAME", help=shared)
    words.add_argument("--edge-label", action="append", metavar="NAME", help="the same for edges")
    words.add_argument("--directed", action="store_true", help="edge lists have directions, from the first name to the second")
    if name in ("find", "draw"):
        words.add_argument("--seed", type=int, help="where choices begin")
        words.add_argument("--budget", type=int, help="the most failed guesses of each thread")
        words.add_argument("--threads", type=int, help="how many searches share the work, 1 to 64")
        words.add_argument("--book", type=int, help="rows that threads share; 1048576 for several threads")
        words.add_argument("--progress", action="store_true", help="tell how long it takes and what was spent")
    if name == "find":
        words.add_argument("--prove", metavar="FOLDER", help="if there is none, put a proof into this folder")
        words.add_argument("--draw", metavar="FILE", help="draw the answer")


def _by_text(graph: Any) -> Dict[str, Name]:
    """A graph's names by their texts."""
    return {str(name): name for name in as_graph(graph).names}


def _read_mapping(path: str, pattern: Any, target: Any) -> Dict[Name, Name]:
    """The mapping of lines ``NAME -> NAME``, by the texts of the graphs' names."""
    of_pattern, of_target = _by_text(pattern), _by_text(target)
    mapping = {}
    with open(path, encoding="utf-8") as file:
        for line in file:
            p, found, t = line.strip().partition(" -> ")
            if found:
                mapping[of_pattern.get(p, p)] = of_target.get(t, t)
    return mapping


def _label(names: Optional[List[str]]) -> Any:
    return names[0] if names and len(names) == 1 else names


def _find(asked: argparse.Namespace, how: Dict[str, Any], pattern: Any, target: Any) -> int:
    names = ("seed", "budget", "threads", "book", "progress")
    searching = {name: getattr(asked, name) for name in names}
    prove = getattr(asked, "prove", None)
    to = asked.out if asked.command == "draw" else asked.draw
    answer, status, said = None, 1, "none"
    try:
        answer = find(pattern, target, prove=prove or False, **searching, **how)
    except Undecided:
        status, said = 2, "unknown"
    if isinstance(answer, dict):
        status, said = 0, "yes"
    print(said)
    for p, t in (answer or {}).items() if status == 0 else ():
        print(f"{p} -> {t}")
    if isinstance(answer, Proof):
        print(f"proof: {answer.encoding} {answer.log}", file=sys.stderr)
    if to:
        draw(pattern, target, answer or None, to, answer=said, node_label=how["node_label"])
    return status


def _batch(asked: argparse.Namespace) -> int:
    """Prints a line for each question, and answers the status: 8 for a failed one, before 2 for an unknown one."""
    names = ("format", "seed", "budget", "threads", "book", "piece", "errors", "progress")
    how: Dict[str, Any] = {name: getattr(asked, name) for name in names}
    status = 0
    with _client(asked.scheduler) as client:
        how.update(client=client, prove=asked.prove or False)
        pairs = batch(asked.list, as_done=True, **how) if asked.as_done else enumerate(batch(asked.list, **how), 1)
        for number, answer in pairs:
            print(f"{number}: {_told(answer)}", flush=asked.as_done)
            if isinstance(answer, Failed):
                status = FAILED
            elif isinstance(answer, Unknown):
                status = max(status, 2)
    return status


def _client(address: Optional[str]) -> ContextManager[Any]:
    """A client of this scheduler, or none."""
    return nullcontext() if address is None else closing(distributed().Client(address))


def _told(answer: Answer) -> str:
    """An answer in the words of the program's `batch`."""
    if isinstance(answer, Failed):
        return str(answer)
    if isinstance(answer, Unknown):
        return "unknown"
    return " ".join(["yes", *map(str, answer.values())]) if isinstance(answer, Embedding) else "none"


def _answer(asked: argparse.Namespace) -> int:
    if asked.command == "batch":
        return _batch(asked)
    if asked.command == "check":
        print(f"accepted {check(asked.encoding, asked.log)}")
        return 0
    if asked.command == "trim":
        kept, made = trim(asked.encoding, asked.log, asked.out)
        print(f"kept {kept} of {made}")
        return 0
    pattern = read_graph(asked.pattern, asked.kind, asked.directed)
    target = read_graph(asked.target, asked.kind, asked.directed)
    names = _by_text(pattern) if asked.less else {}
    less = [(names.get(a, a), names.get(b, b)) for a, b in asked.less or ()]
    labels = {"node_label": _label(asked.label), "edge_label": _label(asked.edge_label)}
    how = {"induced": asked.induced, "map": asked.map, "less": less, **labels}
    if asked.command in ("find", "draw"):
        return _find(asked, how, pattern, target)
    if asked.command == "encode":
        variables, constraints = encode(pattern, target, asked.out, **how)
        print(f"{variables} variables, {constraints} constraints")
        return 0
    is_embedding = verify(pattern, target, _read_mapping(asked.mapping, pattern, target), **how)
    print("embedding" if is_embedding else "not an embedding")
    return 0 if is_embedding else 7


def main(words: Optional[List[str]] = None) -> int:
    """Runs the command of these words, and answers the exit status."""
    asked = _words().parse_args(words)
    try:
        return _answer(asked)
    except SubgraphError as error:
        print(f"subgraph_solver: {error}", file=sys.stderr)
        return error.status if error.status and error.status > 0 else BAD_INPUT
    except (ValueError, ImportError, OSError) as error:
        print(f"subgraph_solver: {error}", file=sys.stderr)
        return BAD_INPUT
    except BrokenPipeError:
        os.close(sys.stdout.fileno())
        return 5
    except KeyboardInterrupt:
        print("subgraph_solver: interrupted", file=sys.stderr)
        return 130


if __name__ == "__main__":
    sys.exit(main())
