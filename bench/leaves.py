#!/usr/bin/env python3
"""Times the leaves of the search: operations on whole rows, domains over them, and counting domains together.

    leaves.py PROGRAM [--seconds S] [--times N]

PROGRAM is the built `kernel_bench`, which has no clock. For each shape and work the rounds are doubled until a run takes S seconds of
processor time; then it is run N times, and the least time counts, less that of a run of no rounds, which makes the same rows and
domains; for an operation on rows less that of as many rounds of none, which go through the same rows. The table has millions of words of
rows a second, for operations the nanoseconds of a call too, and the ratio of the time for a word to that of `and`.

    leaves.py PROGRAM --beside OTHER

holds the operations of two builds beside each other, in turns: nanoseconds of a call in each, and how many times faster PROGRAM is.
"""
import argparse
import resource
import subprocess

SHAPES = ["10x64", "10x128", "10x192", "10x256", "100x1000", "500x8192"]
OPERATIONS = ["and", "and_not", "or", "ones"]
WORKS = [("and", "words"), ("and_not", "words"), ("or", "words"), ("ones", "words"),
         ("domains", "pairs"), ("domains", "words"), ("prune", "pairs"), ("prune", "words")]


def run(program, shape, trail, work, rounds):
    """The seconds of processor time, and how many words the rounds went through."""
    before = resource.getrusage(resource.RUSAGE_CHILDREN)
    done = subprocess.run([program, shape, trail, work, str(rounds)], capture_output=True, text=True, check=True)
    after = resource.getrusage(resource.RUSAGE_CHILDREN)
    seconds = after.ru_utime + after.ru_stime - before.ru_utime - before.ru_stime
    return seconds, int(done.stdout.split()[1])


def rounds_for(asked, shape, trail, work):
    """How many rounds take the seconds that are asked for."""
    rounds = 1000
    while run(asked.program, shape, trail, work, rounds)[0] < asked.seconds and rounds < 2 ** 31:
        rounds *= 2
    return rounds


def least(programs, shape, trail, work, rounds, times):
    """The least seconds of each program, which take turns, and how many words the rounds went through."""
    runs = [[run(it, shape, trail, work, rounds) for it in programs] for _ in range(times)]
    return [min(it[k][0] for it in runs) for k in range(len(programs))], runs[0][0][1]


def taken(asked, programs, shape, trail, work):
    """The seconds that each program takes for the work alone, how many words that is, and how many rounds."""
    rounds = rounds_for(asked, shape, trail, work)
    whole, words = least(programs, shape, trail, work, rounds, asked.times)
    if work in OPERATIONS:
        rest, _ = least(programs, shape, trail, "nothing", rounds, asked.times)
    else:
        rest, _ = least(programs, shape, trail, work, 0, asked.times)
    return [a - b for a, b in zip(whole, rest)], words, rounds


def beside(asked):
    """The table of two builds."""
    print("| words of a row | " + " | ".join(f"`{it}`: ns, of the other, ratio" for it in OPERATIONS) + " |")
    print("|---|" + "---|" * len(OPERATIONS))
    for shape in SHAPES:
        cells = []
        for work in OPERATIONS:
            (own, other), words, rounds = taken(asked, [asked.program, asked.beside], shape, "words", work)
            cells.append(f"{own / rounds * 1e9:.2f}, {other / rounds * 1e9:.2f}, {other / own:.2f}")
        print(f"| {words // rounds} | " + " | ".join(cells) + " |", flush=True)


def main():
    words = argparse.ArgumentParser()
    words.add_argument("program")
    words.add_argument("--seconds", type=float, default=1)
    words.add_argument("--times", type=int, default=3)
    words.add_argument("--beside")
    asked = words.parse_args()
    if asked.beside:
        beside(asked)
        return
    print("| shape | work | trail | million words a second | ns of a call | time of a word, of that of `and` |")
    print("|---|---|---|---|---|---|")
    for shape in SHAPES:
        plain = None
        for work, trail in WORKS:
            (own,), count, rounds = taken(asked, [asked.program], shape, trail, work)
            speed = count / own
            plain = plain or speed
            shown = trail if work in ("domains", "prune") else ""
            each = f"{own / rounds * 1e9:.2f}" if work in OPERATIONS else ""
            print(f"| {shape} | {work} | {shown} | {speed / 1e6:.0f} | {each} | {plain / speed:.2f} |", flush=True)


main()
