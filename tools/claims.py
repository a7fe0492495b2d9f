#!/usr/bin/env python3
"""Writes docs/STATEMENTS.md, and holds the definitions that docs/CLAIMS.md prints.

usage: python3 tools/claims.py [--check]

STATEMENTS.md lists which definitions a statement stands on, by crate, with how many lines they have, and which clauses each public function of a
crate has. A definition stands on each name of its text that is defined in the repository, and on what that stands on; the kit's prelude is not
counted. A type that the code declares (an enum or a struct that definitions speak of) counts as one definition without lines. A block of CLAIMS.md
behind a mark `<!-- definition of NAME in CRATE/specs/FILE.antt -->` is that definition as it stands in the source. With --check nothing is written,
and the status is 1 where a page is not as it would be written.
"""
import glob
import os
import re
import sys

STATEMENTS = {
    "none": ("subgraph_cli", "Solving", "NoneWritten"),
    "run": ("subgraph_cli", "Running", "Ran"),
}
#: What each statement is, in words.
TITLES = {"none": "What `none` alone stands on", "run": "What all clauses of a run stand on"}
#: Crates that are no part of the program.
ASIDE = ("_tests", "test_support", "memory_runs", "kernel_bench")
HERE = os.path.dirname(os.path.dirname(os.path.abspath(__file__)))
LISTS = os.path.join(HERE, "docs", "STATEMENTS.md")
CLAIMS = os.path.join(HERE, "docs", "CLAIMS.md")
PRINTED = re.compile(r"(<!-- definition of (\S+) in (\S+?)/specs/(\S+)\.antt -->\n\n)((?:    .*\n|\n(?=    ))*)")
BLOCK = re.compile(r"(?:pub )?(?:impl|trait)\b(?:<.*?>+)? (?:.* for )?([A-Za-z]+)")
CALL = re.compile(r"(\s*)(pub )?(?:const |final |extern \"C\" )*fn ([a-z0-9_]+)")
CLAUSE = re.compile(r"\s*ensures (?:([a-z_0-9]+) )?\{")
WORD = re.compile(r"[A-Za-z_◌][\w◌\-'≡≤]*(?:\.[A-Za-z_][\w\-]*)*")
HEAD = re.compile(r"(?:(?:pub|abbrev|unfoldable|record|data)\s+)+([^\s:{(]+)")
PLAIN = re.compile(r"([^\s:]+) :")
USE = re.compile(r"(?:pub )?use Rattle\.(\w+)\.specs\.([\w.]+?)(?:\.\{(.*)\}| as (\w+))$")


class Module:
    """One file of definitions: what it defines, and what its words mean that come from elsewhere."""

    def __init__(self, crate, name):
        self.crate, self.name = crate, name
        self.lines, self.words = {}, {}
        self.names, self.modules = {}, {}

    def read(self, path):
        current = None
        for line in open(path, encoding="utf-8"):
            line = line.rstrip("\n")
            used = USE.match(line)
            if used:
                self._use(*used.groups())
                continue
            if line.startswith(("--", "use ")) or not line.strip():
                continue
            head = None if line[0].isspace() else HEAD.match(line) or PLAIN.match(line)
            if head:
                current = head.group(1)
                self.lines.setdefault(current, 0)
                self.words.setdefault(current, set())
            if current:
                self.lines[current] += 1
                self.words[current].update(WORD.findall(line))

    def _use(self, crate, module, names, alias):
        if alias:
            self.modules[alias] = (crate, module)
            return
        for it in names.split(","):
            name, _, shown = it.strip().partition(" as ")
            self.names[shown or name] = (crate, module, name)


def modules():
    read = {}
    for path in sorted(glob.glob(os.path.join(HERE, "crates", "*", "specs", "**", "*.antt"), recursive=True)):
        crate, _, rest = os.path.relpath(path, os.path.join(HERE, "crates")).partition(os.sep)
        name = os.path.splitext(rest)[0].split(os.sep, 1)[1].replace(os.sep, ".")
        read[crate, name] = Module(crate, name)
        read[crate, name].read(path)
    return read


def meant(read, module, word):
    """The definitions that a word of a module may mean."""
    first, _, rest = word.partition(".")
    for name in {word, first}:
        if name in module.lines:
            yield module.crate, module.name, name
        elif name in module.names:
            yield module.names[name]
    if first in module.modules and rest:
        yield (*module.modules[first], rest)


def declared(crate, module):
    """A type that the code declares, by the path of its module; its variants are the type's."""
    parts = module.split(".")[1:]
    return crate, "declared", parts[parts.index("TheVariants") - 1] if "TheVariants" in parts else parts[-1]


def closure(read, start):
    seen, todo = {}, [start]
    while todo:
        crate, module, name = todo.pop()
        if module.startswith("declared."):
            seen.setdefault(declared(crate, module), 0)
            continue
        if (crate, module, name) in seen or name not in getattr(read.get((crate, module)), "lines", {}):
            continue
        home = read[crate, module]
        seen[crate, module, name] = home.lines[name]
        for word in home.words[name]:
            todo += meant(read, home, word)
    return seen


def listed(seen):
    """The list as text: a row for each crate."""
    crates = {}
    for (crate, _, name), lines in seen.items():
        crates.setdefault(crate, []).append((name, lines))
    rows = [f"{len(seen)} definitions, {sum(seen.values())} lines.", "", "| crate | definitions | lines | which |", "|---|---|---|---|"]
    for crate, each in sorted(crates.items()):
        names = ", ".join(f"`{it}`" for it in sorted({name for name, _ in each}))
        rows.append(f"| `{crate}` | {len(each)} | {sum(lines for _, lines in each)} | {names} |")
    return "\n".join(rows)


def clauses_in(path):
    """Each public call of a file, and each call of a trait, with the names of its clauses."""
    block, is_trait, call = "", False, None
    for line in open(path, encoding="utf-8"):
        found = BLOCK.match(line)
        if found or line.startswith("}"):
            block, is_trait, call = (found.group(1), "trait " in line, None) if found else ("", False, None)
        found = CALL.match(line)
        if found:
            indent, public, name = found.groups()
            call = None
            if public or is_trait and indent:
                call = (f"{block}::{name}" if indent else name, [])
                yield call
        found = CLAUSE.match(line)
        if found and call:
            call[1].append(found.group(1) or "")


def clauses():
    """A row for each crate: its public calls that have clauses."""
    rows = ["| crate | calls and their clauses |", "|---|---|"]
    for folder in sorted(glob.glob(os.path.join(HERE, "crates", "*", ""))):
        crate = os.path.basename(os.path.dirname(folder))
        if crate.endswith(ASIDE):
            continue
        told = []
        for path in sorted(glob.glob(os.path.join(folder, "src", "**", "*.rt"), recursive=True)):
            for call, names in list(clauses_in(path)):
                named = ", ".join(it for it in names if it)
                if names:
                    told.append(f"`{call}`" + (f" ({named})" if named else ""))
        rows.append(f"| `{crate}` | {'; '.join(told)} |")
    return "\n".join(rows)


def statements(read):
    """The page of lists."""
    parts = [
        "# What each statement stands on",
        "`python3 tools/claims.py` writes this page. [CLAIMS.md](CLAIMS.md) says how to read it. A type that the code declares counts without lines.",
    ]
    for mark, start in STATEMENTS.items():
        parts += [f"## {TITLES[mark]}", f"The statement is `{start[2]}` (`{start[0]}/specs/{start[1]}.antt`).", listed(closure(read, start))]
    parts += [
        "## The clauses of each crate",
        "The public calls of each crate, and the calls of its traits. The names of a call's clauses stand in brackets behind it; a call without "
        "brackets has one clause without a name. What a clause says stands at the call, in `crates/*/src/`.",
        clauses(),
    ]
    return "\n\n".join(parts) + "\n"


def definition(name, crate, module):
    """The lines of a definition as they stand in its source, without the comment above."""
    lines, found = [], False
    for line in open(os.path.join(HERE, "crates", crate, "specs", module + ".antt"), encoding="utf-8"):
        line = line.rstrip("\n")
        head = None if line[:1].isspace() or line.startswith("--") else HEAD.match(line) or PLAIN.match(line)
        if head or not line.strip() or line.startswith("--"):
            found = bool(head) and head.group(1) == name or found and line.startswith(name + " ")
        if found:
            lines.append(line)
    if not lines:
        sys.exit(f"docs/CLAIMS.md: {crate} has no definition {name} in specs/{module}.antt")
    return "".join(f"    {it}\n" for it in lines)


def with_definitions(page):
    """The page of claims with each definition as it is today."""
    return PRINTED.sub(lambda it: it.group(1) + definition(*it.group(2, 3, 4)), page)


def main():
    claims = open(CLAIMS, encoding="utf-8").read()
    for path, page in ((LISTS, statements(modules())), (CLAIMS, with_definitions(claims))):
        if "--check" not in sys.argv[1:]:
            with open(path, "w", encoding="utf-8") as file:
                file.write(page)
        elif not os.path.isfile(path) or open(path, encoding="utf-8").read() != page:
            sys.exit(f"{os.path.relpath(path, HERE)}: not what tools/claims.py writes")


if __name__ == "__main__":
    main()
