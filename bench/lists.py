#!/usr/bin/env python3
"""Times the operations on lists of candidates, and prints a table of nanoseconds for each candidate: `lists.py PROGRAM [RUNS]`.

The program is that of crates/bench_lists, with the words TASK SIZE ORDER ROUNDS: it prints the nanoseconds of its fastest
round of turns with the operation and of the fastest one without it, and over how many candidates. A round has eight turns. The lists of a turn are made
anew, at random, and given up. In the order `fresh` the slots of a list lie one beside the other, in `scattered` anywhere. The
table has the difference of the two least times of all runs. With `--beside OTHER` another program with the same words and the
same output runs in turn with it. The tasks `cells2` to `cells256` add so many repeaters.
"""
import argparse
import subprocess

TASKS = ["wire", "load", "absorb", "merge", "cells2", "cells16", "cells256"]
SIZES = [10, 100, 1000, 10000]
ORDERS = ["fresh", "scattered"]
TURNS = 8


def measure(program, task, size, order):
    """The least nanoseconds with and without the operation, and the candidates, of one run."""
    words = [program, task, str(size), order, str(max(40, 200000 // size))]
    told = subprocess.run(words, stdout=subprocess.PIPE, check=True, text=True).stdout.split()
    return int(told[0]), int(told[3]), int(told[6])


def measure_each(programs, runs, task, size, order):
    """The nanoseconds of a round's calls and their candidates, of each program, which run in turn."""
    best = [measure(program, task, size, order) for program in programs]
    for _ in range(runs - 1):
        for at, program in enumerate(programs):
            best[at] = tuple(map(min, best[at], measure(program, task, size, order)))
    return [(timed - bare, slots) for timed, bare, slots in best]


def row(*cells):
    print("| " + " | ".join(cells) + " |", flush=True)


def main():
    words = argparse.ArgumentParser(usage="lists.py PROGRAM [RUNS] [--beside OTHER]")
    words.add_argument("program")
    words.add_argument("runs", nargs="?", type=int, default=9)
    words.add_argument("--beside")
    given = words.parse_args()
    programs = [path for path in [given.program, given.beside] if path]
    titles = ["operation", "candidates", "order", "ns", "ns a call"] + ["ns of the other", "its ns a call", "times its time"][: 3 * len(programs) - 3]
    row(*titles)
    row(*["---"] * len(titles))
    for task in TASKS:
        for size in SIZES:
            for order in ORDERS:
                found = measure_each(programs, given.runs, task, size, order)
                ratio = [f"{found[0][0] / found[1][0]:.2f}"] if given.beside else []
                figures = [figure for ns, slots in found for figure in (f"{ns / slots:.2f}", f"{ns / TURNS:.0f}")]
                row(task, f"{size:,}", order, *figures, *ratio)


main()
