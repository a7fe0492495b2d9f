#!/usr/bin/env python3
"""Tells the processor time that a run of the gate takes, by crate: its proofs, its tests and its must-fail edits.

usage: python3 tools/gate_time.py rt ci        runs the command, then prints the table
       python3 tools/gate_time.py PID          watches one that runs already, from now on

The times of all processes below the run are read from /proc each second, so what a process takes in its last second is lost. They are
processor seconds: other work on the machine makes a run longer, and these hardly. What is no crate's (the run itself, and programs
and tests that it starts) is the last line. Linux only.
"""
from __future__ import annotations

import os
import re
import subprocess
import sys
import time
from collections import defaultdict
from typing import Dict, Tuple

TICKS = os.sysconf("SC_CLK_TCK")
COLUMNS = ("proof", "tests", "edits")


def processes() -> Dict[int, Tuple[int, float, str]]:
    """For each process its parent, its processor seconds and when it began."""
    found = {}
    for name in filter(str.isdigit, os.listdir("/proc")):
        try:
            with open(f"/proc/{name}/stat", encoding="utf-8", errors="replace") as stat:
                fields = stat.read().rpartition(")")[2].split()
        except OSError:
            continue
        found[int(name)] = (int(fields[1]), (int(fields[11]) + int(fields[12])) / TICKS, fields[19])
    return found


def what_it_does(pid: int) -> Tuple[str, str]:
    """The crate that a process works on, and the column that its time belongs to; two empty texts where there is none."""
    try:
        with open(f"/proc/{pid}/cmdline", encoding="utf-8", errors="replace") as line:
            words = line.read().replace("\0", " ")
        folder = os.readlink(f"/proc/{pid}/cwd")
    except OSError:
        return "", ""
    crate = re.search(r"--crate-name (\S+)", words)
    if not crate:
        return "", ""
    if "/rt-edit" in folder:
        return crate.group(1), "edits"
    return crate.group(1), "tests" if " --test " in words else "proof"


def watch(top: int) -> Dict[Tuple[str, str], float]:
    """The processor seconds by crate and column of all that is below this process, until it ends."""
    taken: Dict[Tuple[int, str], float] = {}
    work: Dict[Tuple[int, str], Tuple[str, str]] = {}
    while True:
        now = processes()
        if top not in now or is_over(top):
            break
        below = {top}
        for _ in now:
            more = {pid for pid, (parent, _, _) in now.items() if parent in below} - below
            if not more:
                break
            below |= more
        for pid in below:
            _, seconds, began = now[pid]
            taken[pid, began] = seconds
            if not work.get((pid, began), ("", ""))[0]:
                work[pid, began] = what_it_does(pid)
        time.sleep(1)
    sums: Dict[Tuple[str, str], float] = defaultdict(float)
    for key, seconds in taken.items():
        sums[work[key]] += seconds
    return sums


def is_over(pid: int) -> bool:
    """Whether a process has ended and only waits to be told of."""
    try:
        with open(f"/proc/{pid}/stat", encoding="utf-8", errors="replace") as stat:
            return stat.read().rpartition(")")[2].split()[0] == "Z"
    except OSError:
        return True


def table(sums: Dict[Tuple[str, str], float]) -> str:
    """The crates, the costly ones first, with what each column took."""
    crates = {crate for crate, _ in sums if crate}
    whole = {crate: sum(sums.get((crate, it), 0.0) for it in COLUMNS) for crate in crates}
    lines = ["| crate | proof | tests | edits | all |", "|---|---|---|---|---|"]
    for crate in sorted(crates, key=lambda it: (-whole[it], it)):
        cells = (f"{sums[crate, it]:.0f}" if (crate, it) in sums else "" for it in COLUMNS)
        lines.append(f"| `{crate}` | {' | '.join(cells)} | {whole[crate]:.0f} |")
    ends = [sum(seconds for (crate, it), seconds in sums.items() if crate and it == column) for column in COLUMNS]
    lines.append(f"| all crates | {' | '.join(f'{it:.0f}' for it in ends)} | {sum(ends):.0f} |")
    lines.append(f"| what is no crate's | | | | {sums.get(('', ''), 0.0):.0f} |")
    return "\n".join(lines)


def main() -> int:
    if len(sys.argv) < 2:
        print(__doc__, file=sys.stderr)
        return 2
    if sys.argv[1].isdigit():
        print(table(watch(int(sys.argv[1]))))
        return 0
    with subprocess.Popen(sys.argv[1:]) as run:
        sums = watch(run.pid)
        status = run.wait()
    print(table(sums))
    return status


if __name__ == "__main__":
    sys.exit(main())
