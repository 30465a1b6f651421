#!/usr/bin/env python3
"""Refuses memory to vginsert, one request after the other, and prints a table.

    refuse_memory.py PROGRAM [--most N] [--jobs N]

PROGRAM is the proved program, crates/vginsert/out/vginsert, which `make` builds. Each run is done once with all memory,
which counts its requests, and then for each request with this one refused, and with this one and all later ones. Of a
run with more than `--most` requests (5,000 if it is not given) so many are tried, which are spread evenly over it,
the first and the last among them.

A run in which memory was refused has to end with status 7, with nothing on standard output, with the line
`vginsert: out of memory` on standard error and with the files as they were; or just as the run with all memory does,
where the program can do without that memory. Of the runs that end in another way the first of each column is shown on
standard error, and the status of this script is 1.

Memory is refused by `refuse_memory.c`, which the C compiler `cc` makes into a library that is loaded before the C
library. So this is for Linux with glibc.
"""
import argparse
import os
import subprocess
import sys
import tempfile
from concurrent.futures import ThreadPoolExecutor

HERE = os.path.dirname(os.path.abspath(__file__))
EXAMPLES = os.path.join(HERE, "..", "examples")
SECONDS = 60
OUT_OF_MEMORY = (7, b"", b"vginsert: out of memory\n")


def design(name):
    """The options that name the four files of a design of the examples."""
    options = {"spef": "spef", "verilog": "v", "lib": "lib", "cons": "cons"}
    files = {option: os.path.join(EXAMPLES, f"{name}.{end}") for option, end in options.items()}
    return [word for option, file in files.items() for word in (f"--{option}", file)]


OUTPUTS = ["--out-spef", "out.spef", "--out-verilog", "out.v"]
SMALL, SOC = design("small"), design("soc")
SMALL_CERT = ["--cert", os.path.join(EXAMPLES, "small.cert")]
RUNS = {
    "`best`, with a certificate": ["best", *SMALL, "--net", "n1", *OUTPUTS, "--cert", "out.cert"],
    "`best --all`": ["best", *SOC, "--all", *OUTPUTS],
    "`repair --all`": ["repair", *SOC, "--all", *OUTPUTS],
    "`frontier`": ["frontier", *SMALL, "--net", "n1"],
    "`frontier --all`": ["frontier", *SOC, "--all"],
    "`total --all`": ["total", *SOC, "--all", *OUTPUTS],
    "`width`": ["width", *SOC, "--net", "acc[0]", "--widths", os.path.join(EXAMPLES, "soc.widths")],
    "`check`": ["check", *SMALL, "--net", "n1", *SMALL_CERT],
    "`time --all`": ["time", *SOC, "--all"],
    "`wire`": ["wire", "--spef", os.path.join(EXAMPLES, "fork.spef"), "--net", "n1"],
    "`gen`": ["gen", "--size", "16"],
    "`sta`": ["sta", *SOC],
    "`segment --all`": ["segment", *SOC[:2], "--all", "--parts", "4", "--out-spef", "out.spef"],
}


def build(folder):
    """The library that refuses memory."""
    library = os.path.join(folder, "refuse_memory.so")
    source = os.path.join(HERE, "refuse_memory.c")
    subprocess.run(["cc", "-O2", "-Wall", "-fPIC", "-shared", "-o", library, source], check=True)
    return library


def files_in(folder):
    found = {}
    for name in sorted(os.listdir(folder)):
        with open(os.path.join(folder, name), "rb") as file:
            found[name] = file.read()
    return found


def run(library, words, at=0, later=False):
    """How a run in an empty folder ends: status, what it printed and told, files; and the number of its requests."""
    with tempfile.TemporaryDirectory() as folder, tempfile.NamedTemporaryFile() as count:
        own = {"LD_PRELOAD": library, "REFUSE_MEMORY_COUNT": count.name, "REFUSE_MEMORY_AT": str(at)}
        own["REFUSE_MEMORY_LATER"] = "1" if later else "0"
        how = {"cwd": folder, "env": {**os.environ, **own}, "stdin": subprocess.DEVNULL, "timeout": SECONDS}
        try:
            done = subprocess.run(words, capture_output=True, **how)
            ending = (done.returncode, done.stdout, done.stderr, files_in(folder))
        except subprocess.TimeoutExpired:
            ending = ("no end", b"", b"", files_in(folder))
        return ending, int.from_bytes(count.read(8), sys.byteorder)


def kind_of(ending, whole):
    if ending == (*OUT_OF_MEMORY, {}):
        return "7"
    return "whole" if ending == whole else "wrong"


def spread(count, most):
    """So many of the numbers from 1 to count, spread evenly, with the first and the last one."""
    if count <= most:
        return range(1, count + 1)
    return sorted({1 + at * (count - 1) // (most - 1) for at in range(most)})


def show(name, at, later, ending):
    status, printed, told, files = ending
    which = f"request {at}{' and all later ones' if later else ''}"
    said = f"status {status}, printed {printed[:200]!r}, told {told[:200]!r}, files {list(files)}"
    print(f"{name}, {which} refused: {said}", file=sys.stderr)


def try_all(library, name, words, later, tried, whole, jobs):
    """How many runs end with status 7, as with all memory, and in another way."""
    counts = {"7": 0, "whole": 0, "wrong": 0}
    with ThreadPoolExecutor(jobs) as pool:
        endings = pool.map(lambda at: run(library, words, at, later)[0], tried)
        for at, ending in zip(tried, endings):
            kind = kind_of(ending, whole)
            counts[kind] += 1
            if kind == "wrong" and counts[kind] == 1:
                show(name, at, later, ending)
    return list(counts.values())


def row(*cells):
    print("| " + " | ".join(str(cell) for cell in cells) + " |", flush=True)


def main():
    parser = argparse.ArgumentParser(description=__doc__, formatter_class=argparse.RawDescriptionHelpFormatter)
    parser.add_argument("program")
    parser.add_argument("--most", type=int, default=5000, help="the most requests of a run that are tried")
    parser.add_argument("--jobs", type=int, default=os.cpu_count(), help="how many runs go side by side")
    asked = parser.parse_args()
    program = os.path.abspath(asked.program)
    most = max(2, asked.most)
    wrong = 0
    kinds = ["status 7", "as with all memory", "wrong"]
    with tempfile.TemporaryDirectory() as folder:
        library = build(folder)
        columns = [f"{which}: {it}" for which in ("one refused", "and all later ones") for it in kinds]
        row("mode", "requests", "tried", *columns)
        row(*["---"] * 9)
        for name, words in RUNS.items():
            words = [program, "--mode", *words]
            whole, requests = run(library, words)
            if whole[0] not in (0, 1, 2) or requests == 0:
                sys.exit(f"refuse_memory.py: {name}: status {whole[0]} after {requests} requests: {whole[2]!r}")
            tried = spread(requests, most)
            alone, later = (try_all(library, name, words, it, tried, whole, asked.jobs) for it in (False, True))
            row(name, f"{requests:,}", f"{len(tried):,}", *alone, *later)
            wrong += alone[2] + later[2]
    sys.exit(1 if wrong else 0)


if __name__ == "__main__":
    main()
