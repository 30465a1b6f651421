#!/usr/bin/env python3
"""Times vginsert on inputs that it makes in a temporary folder, and prints a table: `run.py PROGRAM MODE [MB...]`.

| MODE | times | on |
|---|---|---|
| `wire` | `--mode wire` | nets of 65,536 nodes, each alone in its file |
| `design` | `--mode wire` | a small and the large net of extracted designs, each with its comments and without them |
| `time` | `--mode time` | a small and the large net of designs of four files |
| `rows` | `--mode time` | nets of 65,536 nodes, with 131,072 and 1,000,000 rows of constraints |
| `netlist` | `--mode time` | a small net, with netlists of wires, of escaped names, of bits and of undeclared nets |
| `library` | `--mode time` | a small net, with libraries of mixed cells, of deep and of wide groups, and of tables |
| `best` | `--mode best` | chains, random trees and fans of 1,024 to 65,536 nodes, with 2, 16, 64 and 256 repeaters |
| `cert` | `--mode best --cert` and `--mode check` | chains of 1,024 to 65,536 nodes, with 2 and 16 repeaters |
| `frontier` | `--mode frontier` | chains and random trees with 60 to 480 nodes between driver and sinks, with 2, 8 and 32 repeaters, with a cap and without one |
| `all` | `--mode time --all` and `--mode best --all` | all nets of designs of four files |
| `repair` | `--mode repair --all` with three targets, beside `best --all` and `frontier --all` of the same program | all nets of designs of four files |
| `total` | `--mode total --all`, with and without a cap and written files, beside `frontier --all` of the same program | the design of `examples/`, and designs of four files |
| `width` | `--mode width` with 1, 2, 4 and 8 widths, beside `--mode best` of the same program | chains and random trees with 60 to 4,096 nodes between driver and sinks, with 2 and 16 repeaters |
| `sta` | `--mode time --all` and `--mode sta` | designs of four files with short paths and with long ones, and one path through 2^20 nets |
| `segment` | `--mode segment --all` with 4 parts, and up to 16 MB also with 16; besides `--mode wire` for a small net, and `cp` of both files | extracted designs |

The sizes are the nodes in modes `best` and `cert`, the nodes but two in modes `frontier` and `width`, and those of the SPEF files in modes `design`, `time` and `segment` (1, 16, 64 and 256 MB if none is given), `all` (1, 16, 64 and 192 MB), `repair` and `total` (1, 4 and 16 MB) and `sta`
(16, 64 and 192 MB; where some are given, the one path goes through 8,192 nets for each MB of the last one), of the netlists (256 MB) and of the libraries (64 MB). With `--beside OTHER` each row but those of `rows`, `library`, `repair`, `total` and `width` also tells the seconds
and the memory of another program with the same arguments, run right after. In modes `best` and `cert` the changed files are written, too;
in mode `cert` each program checks its own certificate, unless this has more than 2^28 bytes. In mode `width` seconds
are those of the processor, the least of seven runs in turn with `best`, or of one that takes a second; a run is ended after 20, and no longer one of its kind is begun. In mode `segment` the nets that are too large when they are cut stay.
Seconds are the least of five runs of the whole process, peak memory is what GNU time tells, 1 MB is 2^20 bytes.
"""
import argparse
import os
import shutil
import signal
import statistics
import subprocess
import sys
import tempfile
import time

HERE = os.path.dirname(os.path.abspath(__file__))
LIBRARY = os.path.join(HERE, "..", "examples", "cells.lib")
BEST_FILES = ["--spef", "net.spef", "--lib", "made.lib", "--verilog", "net.v", "--cons", "net.cons"]
MOST_BYTES = 2**28
MOST_SECONDS = 20  # of the processor, for a run in mode `width`
STACK = ["prlimit", f"--stack={2**23}"]  # of mode `sta`, whatever the system gives: 8 bytes for each net of the one path
SHAPES = {"chain": "a chain", "star": "a star", "tree": "a binary tree"}


def run_script(script, words, out):
    """Runs a script of this folder, which prints to a file or a pipe."""
    return subprocess.run([sys.executable, os.path.join(HERE, script), *words], stdout=out, check=True).stdout


def make(script, words, path):
    """Writes what a script of this folder prints."""
    with open(path, "wb") as out:
        run_script(script, words, out)


def measure(words):
    """Runs the program once: status, what it printed, seconds, peak memory in bytes."""
    # Not the usage that Python tells of a child: that counts what the child was before it became the program.
    start = time.perf_counter()
    done = subprocess.run(["/usr/bin/time", "-q", "-o", "peak", "-f", "%M", *words], stdout=subprocess.PIPE)
    seconds = time.perf_counter() - start
    with open("peak") as peak:
        return done.returncode, done.stdout, seconds, int(peak.read()) * 1024


def measure_good(words, most=0):
    """What a run printed, and the least seconds and memory of five runs; all end with status 0, or with one up to another."""
    runs = [measure(words) for _ in range(5)]
    if any(not 0 <= status <= most for status, _, _, _ in runs):
        sys.exit(f"run.py: a status that is not to come: {' '.join(words)}")
    return runs[0][1], min(run[2] for run in runs), min(run[3] for run in runs)


def spawn(words, out):
    """Runs a program once, which prints to a file: its status, and the seconds of the processor, user and system."""
    to_file = (os.POSIX_SPAWN_OPEN, 1, out, os.O_WRONLY | os.O_CREAT | os.O_TRUNC, 0o644)
    _, status, usage = os.wait4(os.posix_spawnp(words[0], words, os.environ, file_actions=[to_file]), 0)
    return os.waitstatus_to_exitcode(status), usage.ru_utime + usage.ru_stime


def measure_beside(words, other):
    """What a run printed, its memory, the least seconds of the processor of seven runs and of as many of another program in turn,
    and the median of the ratios. Of one that takes a second it is the only run; of one that is over MOST_SECONDS nothing is told."""
    limit = ["prlimit", f"--cpu={MOST_SECONDS}:{MOST_SECONDS + 1}"]
    status, first = spawn(["/usr/bin/time", "-q", "-o", "peak", "-f", "%M", *limit, *words], "report")
    if status == 128 + signal.SIGXCPU:
        return None
    if status:
        sys.exit(f"run.py: a status that is not to come: {' '.join(words)}")
    pairs = [(first if first >= 1 else spawn(words, "turn")[1], spawn(other, "turn")[1]) for _ in range(1 if first >= 1 else 7)]
    with open("peak") as peak, open("report", "rb") as report:
        ratio = statistics.median(one / best for one, best in pairs)
        return report.read(), int(peak.read()) * 1024, min(one for one, _ in pairs), min(best for _, best in pairs), ratio


def head(*titles):
    row(*titles)
    row(*["---"] * len(titles))


def row(*cells):
    print("| " + " | ".join(cells) + " |", flush=True)


def mb(count):
    return f"{count / 2**20:.1f} MB"


def measure_each(programs, words):
    """What the first program printed, and the cells of seconds and memory of each."""
    runs = [measure_good([program, *words]) for program in programs]
    return runs[0][0], [cell for _, seconds, peak in runs for cell in (f"{seconds:.3f}", mb(peak))]


def titles(programs):
    """The titles of those cells."""
    return [name + of for of in ["", " of the other"][: len(programs)] for name in ["seconds", "peak memory"]]


def run_wire(programs):
    head("net", "file", "sinks", *titles(programs))
    for shape, name in SHAPES.items():
        make("one_net.py", ["65536", shape], "net.spef")
        printed, cells = measure_each(programs, ["--mode", "wire", "--spef", "net.spef", "--net", "n"])
        row(name, mb(os.path.getsize("net.spef")), f"{printed.count(b'sink '):,}", *cells)


def make_net(nodes, shape):
    """Writes a net and its netlist."""
    make("one_net.py", [nodes, shape], "net.spef")
    make("one_net.py", [nodes, shape, "netlist"], "net.v")


def time_words(library="net.lib", netlist="net.v", net="n"):
    """The words of mode `time` for a net."""
    files = ["--spef", "net.spef", "--lib", library, "--verilog", netlist, "--cons", "net.cons"]
    return ["--mode", "time", *files, "--net", net]


def run_rows(programs):
    head("net", "netlist", "rows of constraints", "constraints", "seconds", "peak memory")
    for rows in [131072, 1000000]:
        make("constraints.py", [str(rows)], "net.cons")
        for shape, name in SHAPES.items():
            make_net("65536", shape)
            _, seconds, peak = measure_good([programs[0], *time_words(LIBRARY)])
            netlist, constraints = (mb(os.path.getsize(path)) for path in ["net.v", "net.cons"])
            row(name, netlist, f"{rows:,}", constraints, f"{seconds:.2f}", mb(peak))


def drop_comments(path, out):
    """Copies a design without its comments and without lines of blanks alone."""
    with open(path, "rb") as design, open(out, "wb") as plain:
        for line in design:
            kept = line.split(b"//")[0].rstrip()
            if kept:
                plain.write(kept + b"\n")


def designs(sizes):
    """Writes designs, one after the other, and tells the names of two nets of each, with what they are."""
    for size in sizes or ["1", "16", "64", "256"]:
        nets = run_script("design.py", [size, "net"], subprocess.PIPE).decode().splitlines()
        yield [line.split(" ") for line in nets]


def run_design(programs, *sizes):
    head("file", "comments", "net", *titles(programs))
    for nets in designs(sizes):
        drop_comments("net.spef", "plain.spef")
        for path, comments in [("net.spef", "yes"), ("plain.spef", "no")]:
            for net, name in nets:
                _, cells = measure_each(programs, ["--mode", "wire", "--spef", path, "--net", name])
                row(mb(os.path.getsize(path)), comments, net, *cells)


def run_time(programs, *sizes):
    head("SPEF file", "netlist", "constraints", "net", *titles(programs))
    for nets in designs(sizes):
        files = [mb(os.path.getsize(path)) for path in ["net.spef", "net.v", "net.cons"]]
        for net, name in nets:
            _, cells = measure_each(programs, time_words(net=name))
            row(*files, net, *cells)


def run_netlist(programs, *sizes):
    head("netlist", "of", "instances", *titles(programs))
    make_net("3", "chain")
    make("constraints.py", ["8"], "net.cons")
    for size in sizes or ["256"]:
        for part in ["scalars", "escaped", "bits", "undeclared"]:
            make("netlist.py", [size, part], "made.v")
            with open("made.v", "rb") as netlist:
                instances = sum(b"(.A(" in line for line in netlist)
            _, cells = measure_each(programs, time_words(LIBRARY, "made.v"))
            row(mb(os.path.getsize("made.v")), part, f"{instances:,}", *cells)


def run_library(programs, *sizes):
    head("library", "of", "seconds", "peak memory", "of the file")
    make_net("3", "chain")
    make("constraints.py", ["8"], "net.cons")
    for size in sizes or ["64"]:
        for part in ["mixed", "deep", "wide", "values"]:
            make("library.py", [size, part], "made.lib")
            _, seconds, peak = measure_good([programs[0], *time_words("made.lib")])
            bytes_of_file = os.path.getsize("made.lib")
            row(mb(bytes_of_file), part, f"{seconds:.2f}", mb(peak), f"{peak / bytes_of_file:.2f}")


def run_best(programs, *sizes):
    head("net", "nodes", "repeaters", "printed cells", *titles(programs))
    words = ["--mode", "best", *BEST_FILES, "--net", "n", "--out-spef", "out.spef", "--out-verilog", "out.v"]
    for nodes in sizes or ["1024", "8192", "65536"]:
        for shape in ["chain", "tree", "fan"]:
            make_best_net(nodes, shape)
            for repeaters in ["2", "16", "64", "256"]:
                make("repeaters.py", [repeaters], "made.lib")
                runs = [measure_good([program, *words]) for program in programs]
                if any(run[0] != runs[0][0] for run in runs):
                    print("run.py: the programs print different reports", file=sys.stderr)
                cells = [cell for _, seconds, peak in runs for cell in (f"{seconds:.3f}", mb(peak))]
                row(shape, f"{int(nodes):,}", repeaters, f"{runs[0][0].count(b'at '):,}", *cells)


def run_cert(programs, *sizes):
    head("net", "nodes", "repeaters", "certificate", "step", *titles(programs))
    files = [*BEST_FILES, "--net", "n"]
    written = ["--out-spef", "out.spef", "--out-verilog", "out.v"]
    for nodes in sizes or ["1024", "8192", "65536"]:
        make_best_net(nodes, "chain")
        for repeaters in ["2", "16"]:
            make("repeaters.py", [repeaters], "made.lib")
            for step, words in [("written", ["best", *files, *written]), ("checked", ["check", *files])]:
                if step == "checked" and os.path.getsize("0.cert") > MOST_BYTES:
                    continue
                runs = [measure_good([program, "--mode", *words, "--cert", f"{at}.cert"]) for at, program in enumerate(programs)]
                if any(run[0] != runs[0][0] for run in runs):
                    print("run.py: the programs print different reports", file=sys.stderr)
                cells = [cell for _, seconds, peak in runs for cell in (f"{seconds:.3f}", mb(peak))]
                row("chain", f"{int(nodes):,}", repeaters, mb(os.path.getsize("0.cert")), step, *cells)


def make_best_net(nodes, shape):
    """Writes a net on which repeaters are to be placed, with its netlist and its constraints."""
    for part, path in [("spef", "net.spef"), ("netlist", "net.v"), ("constraints", "net.cons")]:
        make("best_net.py", [nodes, shape, part], path)


def points_in(report):
    """The cost and the slack of each point of a report: of two placements that have both, either may be told."""
    return [line.split()[1:3] for line in report.splitlines() if line.startswith(b"point ")]


def run_frontier(programs, *sizes):
    head("net", "places", "repeaters", "cap", "points", *titles(programs))
    words = ["--mode", "frontier", *BEST_FILES, "--net", "n"]
    for shape in ["chain", "tree"]:
        for places in sizes or ["60", "120", "240", "480"]:
            make_best_net(str(int(places) + 2), shape)
            for repeaters in ["2", "8", "32"]:
                make("repeaters.py", [repeaters], "made.lib")
                greatest = points_in(measure([programs[0], *words])[1])[-1][0].decode()
                for cap in [None, str(int(greatest) // 2)]:
                    limit = ["--cap", cap] if cap else []
                    runs = [measure_good([program, *words, *limit]) for program in programs]
                    if any(points_in(run[0]) != points_in(runs[0][0]) for run in runs):
                        print("run.py: the programs print different points", file=sys.stderr)
                    cells = [cell for _, seconds, peak in runs for cell in (f"{seconds:.3f}", mb(peak))]
                    row(shape, places, repeaters, cap or "none", f"{len(points_in(runs[0][0])):,}", *cells)


def run_all(programs, *sizes):
    head("SPEF file", "netlist", "nets", "mode", "cells", *titles(programs))
    files = ["--spef", "net.spef", "--lib", "net.lib", "--verilog", "net.v", "--cons", "net.cons"]
    written = ["--out-spef", "out.spef", "--out-verilog", "out.v"]
    for size in sizes or ["1", "16", "64", "192"]:
        next(iter(designs([size])))
        with open("net.spef", "rb") as design:
            nets = sum(line.startswith((b"*D_NET", b"*R_NET")) for line in design)
        sizes_of = [mb(os.path.getsize(path)) for path in ["net.spef", "net.v"]]
        for mode, words in [("time", []), ("best", written)]:
            # A net of the design may be refused: status 2.
            runs = [measure_good([program, "--mode", mode, *files, "--all", *words], 2) for program in programs]
            if any(run[0] != runs[0][0] for run in runs):
                print("run.py: the programs print different reports", file=sys.stderr)
            cells = [cell for _, seconds, peak in runs for cell in (f"{seconds:.2f}", mb(peak))]
            put = sum(line.startswith(b"at ") for line in runs[0][0].splitlines())
            row(*sizes_of, f"{nets:,}", mode, f"{put:,}", *cells)


def slacks_in(report):
    """The slacks of nets in a report of mode `time`, in ps, from the least on."""
    words = [line.split(b" ") for line in report.splitlines()]
    return sorted(int(line[3]) / 10**9 for line in words if line[2] == b"slack")


def run_repair(programs, *sizes):
    head("SPEF file", "nets", "mode", "target", "nets with slack enough", "cells", "seconds", "peak memory")
    files = ["--spef", "net.spef", "--lib", "net.lib", "--verilog", "net.v", "--cons", "net.cons", "--all"]
    written = ["--out-spef", "out.spef", "--out-verilog", "out.v"]
    for size in sizes or ["1", "4", "16"]:
        next(iter(designs([size])))
        slacks = slacks_in(measure_good([programs[0], "--mode", "time", *files], 2)[0])
        # Nineteen of twenty nets have slack enough as they are; half have it; none has it, with any cells.
        targets = [f"{slacks[len(slacks) // 20]:.9f}", f"{slacks[len(slacks) // 2]:.9f}", "1000000000"]
        modes = [("best", written, ""), ("frontier", [], "")] + [("repair", [*written, f"--target={target}"], target) for target in targets]
        for mode, words, target in modes:
            # Nets of the design may be refused or short of the target: status 2.
            report, seconds, peak = measure_good([programs[0], "--mode", mode, *files, *words], 2)
            enough = sum(slack >= float(target) for slack in slacks) if target else ""
            put = sum(line.startswith(b"at ") for line in report.splitlines())
            row(mb(os.path.getsize("net.spef")), f"{len(slacks):,}", mode, target, str(enough), f"{put:,}", f"{seconds:.2f}", mb(peak))


def run_total(programs, *sizes):
    head("SPEF file", "nets", "cap", "mode", "points", "report", "seconds", "peak memory", "times the time of `frontier`")
    files = ["--spef", "net.spef", "--lib", "net.lib", "--verilog", "net.v", "--cons", "net.cons", "--all"]
    written = ["--out-spef", "out.spef", "--out-verilog", "out.v"]
    for size in sizes or ["soc", "1", "4", "16"]:
        if size == "soc":
            for end in ["spef", "lib", "v", "cons"]:
                shutil.copy(os.path.join(HERE, "..", "examples", f"soc.{end}"), f"net.{end}")
        else:
            next(iter(designs([size])))
        for cap in ["", "30000"]:
            words = [*files, *(["--cap", cap] if cap else [])]
            report, base, peak = measure_good([programs[0], "--mode", "frontier", *words], 2)
            nets, points = report.count(b"\nnet ") + 1, report.count(b"\npoint ")
            row(mb(os.path.getsize("net.spef")), f"{nets:,}", cap, "frontier", f"{points:,}", mb(len(report)), f"{base:.2f}", mb(peak), "")
            for more in [[], written]:
                report, seconds, peak = measure_good([programs[0], "--mode", "total", *words, *more], 2)
                points = report.count(b"\npoint ")
                name = "total, with files" if more else "total"
                row(mb(os.path.getsize("net.spef")), f"{nets:,}", cap, name, f"{points:,}", mb(len(report)), f"{seconds:.2f}", mb(peak), f"{seconds / base:.2f}")


def slack_of(report):
    return int(report.split(b" ", 4)[3])


def run_width(programs, *sizes):
    titles = ["more slack than `best`, ps", "cells", "wider wires", "seconds", "peak memory", "seconds of `best`", "times `best`"]
    head("net", "places", "repeaters", "widths", *titles)
    best, slow = [programs[0], "--mode", "best", *BEST_FILES, "--net", "n", "--out-spef", "out.spef", "--out-verilog", "out.v"], set()
    width = [programs[0], "--mode", "width", *BEST_FILES, "--net", "n", "--widths", "made.widths"]
    for shape in ["chain", "tree"]:
        for places in sizes or ["60", "240", "1024", "4096"]:
            make_best_net(str(int(places) + 2), shape)
            for repeaters in ["2", "16"]:
                make("repeaters.py", [repeaters], "made.lib")
                base = slack_of(measure_good(best)[0])
                for widths in [1, 2, 4, 8]:
                    told = [shape, f"{int(places):,}", repeaters, str(widths)]
                    make("widths.py", [str(widths)], "made.widths")
                    is_slow = any((shape, repeaters, fewer) in slow for fewer in range(widths + 1))
                    run = None if is_slow else measure_beside(width, best)
                    if run is None:
                        slow.add((shape, repeaters, widths))
                        row(*told, "not run" if is_slow else f"ended after {MOST_SECONDS} s", *[""] * 6)
                        continue
                    report, peak, seconds, seconds_of_best, ratio = run
                    words, gain = report.split(b"\n", 1)[0].decode().split(" "), slack_of(report) - base
                    if gain < 0 or (gain and widths == 1):
                        print("run.py: a slack that is not to come", file=sys.stderr)
                    cells = [f"{gain // 10**9:,}", f"{int(words[7]):,}", f"{int(words[9]):,}"]
                    row(*told, *cells, f"{seconds:.3f}", mb(peak), f"{seconds_of_best:.3f}", f"{ratio:.2f}")


def sta_designs(sizes):
    """Writes designs, one after the other, and tells of what kind each is."""
    for kind in ["clocked", "chained"]:
        for size in sizes or ["16", "64", "192"]:
            run_script("design.py", [size, "net", kind], subprocess.PIPE)
            yield kind
    make_chain = [str(int(sizes[-1]) * 2**13 if sizes else 2**20), "net"]
    run_script("net_chain.py", make_chain, subprocess.PIPE)
    yield "one path"


def run_sta(programs, *sizes):
    head("design", "SPEF file", "netlist", "nets", "mode", *titles(programs))
    files = ["--spef", "net.spef", "--lib", "net.lib", "--verilog", "net.v", "--cons", "net.cons"]
    for kind in sta_designs(sizes):
        with open("net.spef", "rb") as design:
            nets = sum(line.startswith(b"*D_NET") for line in design)
        sizes_of = [mb(os.path.getsize(path)) for path in ["net.spef", "net.v"]]
        for words in [["time", "--all"], ["sta"]]:
            runs = [measure_good([*STACK, program, "--mode", *words, *files]) for program in programs]
            if any(run[0] != runs[0][0] for run in runs):
                print("run.py: the programs print different reports", file=sys.stderr)
            row(kind, *sizes_of, f"{nets:,}", words[0], *[cell for _, seconds, peak in runs for cell in (f"{seconds:.2f}", mb(peak))])


def run_segment(programs, *sizes):
    head("SPEF file", "nets", "parts", "written file", *titles(programs), "seconds of `wire`", "seconds of `cp`", "seconds of `cp` of the written file")
    for nets in designs(sizes):
        size, small = os.path.getsize("net.spef"), nets[0][1]
        _, wire, _ = measure_good([programs[0], "--mode", "wire", "--spef", "net.spef", "--net", small])
        _, copy, _ = measure_good(["cp", "net.spef", "copy.spef"])
        for parts in ["4", "16"] if size <= 2**24 else ["4"]:
            words = ["--mode", "segment", "--spef", "net.spef", "--all", "--parts", parts, "--out-spef"]
            # A net of the design may be refused: status 2.
            runs = [measure_good([program, *words, f"{at}.spef"], 2) for at, program in enumerate(programs)]
            if any(run[0] != runs[0][0] for run in runs):
                print("run.py: the programs print different reports", file=sys.stderr)
            _, copy_of_written, _ = measure_good(["cp", "0.spef", "copy.spef"])
            written, cells = os.path.getsize("0.spef"), [cell for _, seconds, peak in runs for cell in (f"{seconds:.2f}", mb(peak))]
            row(mb(size), f"{runs[0][0].count(b'net '):,}", parts, mb(written), *cells, *[f"{seconds:.2f}" for seconds in [wire, copy, copy_of_written]])


MODES = {
    "wire": run_wire,
    "design": run_design,
    "time": run_time,
    "rows": run_rows,
    "netlist": run_netlist,
    "library": run_library,
    "best": run_best,
    "cert": run_cert,
    "frontier": run_frontier,
    "all": run_all,
    "repair": run_repair,
    "total": run_total,
    "width": run_width,
    "sta": run_sta,
    "segment": run_segment,
}


def main():
    words = argparse.ArgumentParser(usage=f"run.py PROGRAM {'|'.join(MODES)} [MB...] [--beside OTHER]")
    words.add_argument("program")
    words.add_argument("mode", choices=MODES)
    words.add_argument("sizes", nargs="*")
    words.add_argument("--beside")
    given = words.parse_intermixed_args()
    if given.sizes and given.mode in ["wire", "rows"]:
        words.error("the modes wire and rows have no sizes")
    programs = [os.path.abspath(path) for path in [given.program, given.beside] if path]
    with tempfile.TemporaryDirectory() as work:
        os.chdir(work)
        MODES[given.mode](programs, *given.sizes)


main()
