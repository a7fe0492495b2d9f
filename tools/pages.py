#!/usr/bin/env python3
"""Lists pages that are too long, sentences that are too long to read at once, and files and names of a page that are not there.

usage: python3 tools/pages.py [--check] [--words N] [PAGE ..]

LINES says for each page how many lines it may have. A sentence has at most WORDS words; code, tables, pictures and addresses of links do not
count, and a piece of code within a sentence is one word. An item of a list is a text of its own. A file is one that a link leads to, or a name in
code with an ending of ENDINGS, whole or by its last parts. On the pages of BY_NAME each name in code is looked for in the sources. With --check the status is 1 where anything is listed. With --words another limit
is taken, to see which sentences come near.
"""
from __future__ import annotations

import argparse
import re
import subprocess
import sys
from pathlib import Path
from typing import Iterator, List, Set, Tuple

TOP = Path(__file__).resolve().parent.parent
#: How many lines a page may have; a page that is not here has no limit, and a page that is not there is passed over.
LINES = {
    "README.md": 130,
    "CONTRIBUTING.md": 50,
    "CHANGELOG.md": 50,
    "docs/ARCHITECTURE.md": 170,
    "docs/CLAIMS.md": 110,
    "docs/CLUSTER.md": 90,
    "docs/DECISIONS.md": 200,
    "docs/DEFINITIONS.md": 90,
    "docs/FORMATS.md": 240,
    "docs/GATE.md": 70,
    "docs/LIBRARY.md": 155,
    "docs/LOGS.md": 200,
    "docs/PROOFS.md": 100,
    "docs/SPEED.md": 130,
    "docs/TESTING.md": 90,
    "docs/subgraph.1": 130,
}
#: Pages without a limit of lines, whose sentences are looked at too.
OTHERS = ("bench/README.md", "examples/**/*.md", "python/README.md")
WORDS = 35
#: Pages that tell crates, functions and definitions by their names.
BY_NAME = ("docs/ARCHITECTURE.md", "docs/CLAIMS.md", "docs/DECISIONS.md", "docs/DEFINITIONS.md", "docs/LOGS.md")
SOURCES = (".rt", ".antt", ".py", ".sh", ".cpp", "crates.txt", "Makefile")
NAME = re.compile(r"[A-Za-z_]\w{3,}")
ENDINGS = ("rt", "antt", "py", "sh", "cpp", "c", "h", "md", "txt", "svg")
NAMED = re.compile(r"`([\w./-]+\.(?:%s))`" % "|".join(ENDINGS))
LINK = re.compile(r"\]\(([^)#:]+)(?:#[^)]*)?\)")
ITEM = re.compile(r"^\s*(?:[-*+]|\d+\.)\s+")
#: What begins a sentence behind the end of another one.
BEGINS = r"(?=[\"'(\[*_`]*[A-Z0-9`])"
END = re.compile(r"(?<=[.?!])[\"')\]*_`]*\s+" + BEGINS)


def markdown(lines: List[str]) -> Iterator[Tuple[int, str]]:
    """The texts of a page, each with the number of its first line: paragraphs, items of lists, headings."""
    text: List[str] = []
    at, fenced = 0, False
    for number, line in enumerate([*lines, ""], 1):
        plain = line.strip()
        fence = plain.startswith("```")
        comment = plain.startswith("<!--")
        # Behind an empty line four blanks begin code, and within a list they do not.
        code = fenced or fence or (line.startswith("    ") and not text)
        apart = not plain or code or comment or plain.startswith(("|", "#", "![")) or ITEM.match(line)
        if apart and text:
            yield at, " ".join(text)
            text = []
        fenced ^= fence
        if plain and not code and not comment and not plain.startswith(("|", "![")):
            at = number if not text else at
            text.append(ITEM.sub("", plain.lstrip("#")).strip())


def roff(lines: List[str]) -> Iterator[Tuple[int, str]]:
    """The same of a manual page."""
    text: List[str] = []
    at, code = 0, False
    for number, line in enumerate([*lines, ".PP"], 1):
        if line.startswith("."):
            code = line.startswith(".nf") or code and not line.startswith(".fi")
            if text:
                yield at, " ".join(text)
                text = []
        elif not code:
            at = number if not text else at
            text.append(re.sub(r"\\f[BIR]", "`", line).replace("\\&", "").replace("\\-", "-"))


def sentences(text: str) -> Iterator[Tuple[int, str]]:
    """The sentences of a text, each with its number of words."""
    text = re.sub(r"!?\[([^]]*)\]\([^)]*\)", r"\1", text)
    text = re.sub(r"`[^`]*`", "`code`", text)
    for it in END.split(text):
        yield sum(any(c.isalnum() for c in word) for word in it.split()), it


def files() -> List[str]:
    """The files that git knows here, and those that it does not ignore."""
    words = ["git", "-C", str(TOP), "ls-files", "-co", "--exclude-standard"]
    return subprocess.run(words, capture_output=True, text=True, check=True).stdout.splitlines()


def missing(page: Path, text: str, known: List[str]) -> Iterator[str]:
    """The files that a page names and that are not there. Pages of LINES may be still to come."""
    for name in LINK.findall(text):
        path = (page.parent / name).resolve()
        if not path.exists() and str(path.relative_to(TOP)) not in LINES:
            yield name
    for name in NAMED.findall(text):
        if not any(it == name or it.endswith("/" + name) or it.endswith("/" + name.replace("/", "/src/", 1)) for it in known):
            yield name


def unknown(text: str, words: Set[str]) -> Iterator[str]:
    """The names in code of a page that stand nowhere in the sources."""
    named = {it for code in re.findall(r"`([^`]+)`", text) for it in NAME.findall(code)}
    yield from sorted(named - words)


def words_of(known: List[str]) -> Set[str]:
    """All names that stand in the sources."""
    found: Set[str] = set()
    for name in known:
        path = TOP / name
        if name.endswith(SOURCES) and path.is_file():
            found.update(NAME.findall(path.read_text(encoding="utf-8")))
    return found


def main() -> int:
    words = argparse.ArgumentParser(description=__doc__.splitlines()[0])
    words.add_argument("pages", nargs="*")
    words.add_argument("--check", action="store_true")
    words.add_argument("--words", type=int, default=WORDS)
    asked = words.parse_args()
    others = [str(it.relative_to(TOP)) for glob in OTHERS for it in sorted(TOP.glob(glob))]
    found = 0
    known = [*files(), *LINES]
    sources = words_of(known)
    for name in asked.pages or [*LINES, *others]:
        path = TOP / name
        if not path.is_file():
            continue
        page = path.read_text(encoding="utf-8")
        lines = page.splitlines()
        most = LINES.get(name, len(lines))
        if len(lines) > most:
            found += 1
            print(f"{name}: {len(lines)} lines, and it may have {most}")
        for it in missing(path, page, known):
            found += 1
            print(f"{name}: there is no {it}")
        for it in unknown(page, sources) if name in BY_NAME else ():
            found += 1
            print(f"{name}: no source has the name {it}")
        for at, text in (roff if name.endswith(".1") else markdown)(lines):
            for count, it in sentences(text):
                if count > asked.words:
                    found += 1
                    print(f"{name}:{at}: {count} words: {it[:100]}..")
    return 1 if asked.check and found else 0


if __name__ == "__main__":
    sys.exit(main())
