"""Counts what a program does, by valgrind or by the processor's own counters.

Valgrind 3.19 stops at debug information that it does not know, so it is given a copy of the program without any; the names of functions
stay. It cannot count a trial build of the kit, which starts itself anew outside of it.
"""
import os
import re
import shutil
import subprocess
import sys


def stripped(program, folder):
    """A copy without debug information."""
    copy = os.path.join(folder, f"counted-{len(os.listdir(folder))}")
    subprocess.run(["objcopy", "--strip-debug", program, copy], check=True)
    return copy


def ended(words):
    """Runs to the end, which is an answer: status 0, 1 or 2. Its standard output."""
    done = subprocess.run(words, stdout=subprocess.PIPE, stderr=subprocess.PIPE, text=True)
    if done.returncode not in (0, 1, 2):
        print(f"{' '.join(words)} ends with status {done.returncode}\n{done.stderr}", end="")
        sys.exit(1)
    return done.stdout


def by_processor():
    """Whether `perf` counts instructions here."""
    if not shutil.which("perf"):
        return False
    done = subprocess.run(["perf", "stat", "-x,", "-e", "instructions:u", "true"], stderr=subprocess.PIPE, text=True)
    return done.returncode == 0 and re.search(r"^\d+,", done.stderr, re.M) is not None


def instructions(words, folder, processor):
    """The answer's first word, and the instructions of a whole run."""
    told = os.path.join(folder, "told")
    if processor:
        answer = ended(["perf", "stat", "-x,", "-e", "instructions:u", "-o", told, *words])
        pattern = r"^(\d+),"
    else:
        answer = ended(["valgrind", "--tool=callgrind", f"--log-file={told}", "--callgrind-out-file=/dev/null", *words])
        pattern = r"Collected : (\d+)"
    with open(told, encoding="utf-8", errors="replace") as file:
        found = re.search(pattern, file.read(), re.M)
    if not found:
        print("nothing was counted: this is a trial build, which leaves valgrind, or the counter does not work here")
        sys.exit(1)
    return answer.split("\n")[0], int(found.group(1))


def calls(words, folder, function):
    """The answer's first word, and how often each thread called the functions whose names have this text; threads that never did are left out."""
    for name in os.listdir(folder):
        if name.startswith("calls."):
            os.remove(os.path.join(folder, name))
    files = f"--callgrind-out-file={folder}/calls.out"
    answer = ended(["valgrind", "--fair-sched=yes", "--tool=callgrind", "--separate-threads=yes", "--log-file=/dev/null", files, *words])
    counts = []
    for name in sorted(os.listdir(folder)):
        if name.startswith("calls.out-"):
            with open(os.path.join(folder, name), encoding="utf-8", errors="replace") as file:
                counts.append(calls_in(file, function))
    return answer.split("\n")[0], [it for it in counts if it]


def calls_in(lines, function):
    """The calls in one profile. A name stands beside its number where it is first used, and the number alone from then on."""
    names, called, count = {}, "", 0
    for line in lines:
        named = re.match(r"(c?fn)=(\(\d+\))(?: (.*))?", line)
        if named:
            if named.group(3):
                names[named.group(2)] = named.group(3)
            if named.group(1) == "cfn":
                called = names.get(named.group(2), "")
        elif line.startswith("calls=") and function in called:
            count += int(line[6:].split()[0])
    return count
