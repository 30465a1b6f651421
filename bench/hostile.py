#!/usr/bin/env python3
"""Times vginsert on files that are made to be dear, beside plain ones of the same size, and prints a table.

    hostile.py PROGRAM [--count N]

PROGRAM is the proved program, crates/vginsert/out/vginsert, which `make` builds. Each row is two runs of mode `time` on
one net, or of mode `best` where cells may not stand everywhere: the hostile one has names that the program's hashes put
into one chain, or few words that stand for much, N times over (12,000 if it is not given); the plain one has as many
names or words without that. Seconds are the least of three runs of the whole process; memory is the peak that GNU time
tells, and its factor is that over the bytes of all files.
"""
import argparse
import os
import subprocess
import sys
import tempfile
import time

HEADER = """*SPEF "IEEE 1481-1998"
*DESIGN "d"
*DATE "none"
*VENDOR "none"
*PROGRAM "none"
*VERSION "1"
*DESIGN_FLOW "none"
*DIVIDER /
*DELIMITER :
*BUS_DELIMITER [ ]
*T_UNIT 1 PS
*C_UNIT 1 FF
*R_UNIT 1 OHM
*L_UNIT 1 HENRY
"""
NET = """*D_NET n1 200
*CONN
*I u1:Z O
*I u2:A I
*CAP
1 n1:1 100
*RES
1 u1:Z n1:1 1000
2 n1:1 u2:A 1000
*END
"""
LIBRARY = """library (l) {
  delay_model : generic_cmos;
  time_unit : "1ps";
  capacitive_load_unit (1, ff);
  cell (DRV) { dont_use : true; pin (A) { direction : input; capacitance : 2; }
    pin (Z) { direction : output; function : "A"; timing () { related_pin : "A";
      intrinsic_rise : 10; rise_resistance : 1; } } }
  cell (BUF) { pin (A) { direction : input; capacitance : 2; }
    pin (Z) { direction : output; function : "A"; timing () { related_pin : "A";
      intrinsic_rise : 20; rise_resistance : 0.5; } } }
"""
MODULE = """module d (in1, out1);
  input in1;
  output out1;
  wire n1;
  DRV u1 (.A(in1), .Z(n1));
  BUF u2 (.A(n1), .Z(out1));
"""
CONSTRAINTS = "vgcons 1\nrequired u2:A 400\n"


def plain_names(count):
    """Names that are numbered one after another, as long as those that collide."""
    return [f"w{10**16 + at}" for at in range(count)]


def colliding_names(count):
    """Names whose hashes of 32 bits are one: the numbers at their ends differ by multiples of 2^32."""
    return [f"w{10**16 + at * 2**32}" for at in range(count)]


def leaves(count, step):
    """Numbers of nodes whose digits, read to base 11, are multiples of a step, all of one length."""
    found, at = [], 0
    while len(found) < count:
        value, digits = at * step, []
        for _ in range(12):
            digits.append(value % 11)
            value //= 11
        if value == 0 and max(digits) < 10:
            found.append("1" + "".join(map(str, reversed(digits))))
        at += 1
        if value:
            raise ValueError("too many nodes")
    return found


def sections(names):
    return HEADER + NET + "".join(f"*D_NET {name} 1\n*END\n" for name in names)


def name_map(names):
    rows = "".join(f"*{name[1:]} m{at}\n" for at, name in enumerate(names))
    return HEADER + "*NAME_MAP\n" + rows + NET


def chain(nodes):
    """A net whose resistors lead from node to node."""
    rows = [f"1 u1:Z n1:{nodes[0]} 1\n"]
    rows += [f"{at + 2} n1:{one} n1:{other} 1\n" for at, (one, other) in enumerate(zip(nodes, nodes[1:]))]
    rows += [f"{len(nodes) + 1} n1:{nodes[-1]} u2:A 1\n"]
    return HEADER + "*D_NET n1 200\n*CONN\n*I u1:Z O\n*I u2:A I\n*RES\n" + "".join(rows) + "*END\n"


def module(rows):
    return MODULE + rows + "endmodule\n"


def library(cells):
    return LIBRARY + cells + "}\n"


def on_one_cell(count, cell_pins):
    """A net with so many sinks on pins of one cell, and the cell."""
    pins = [f"p{at}" for at in range(count)]
    spef = HEADER + "*D_NET n1 200\n*CONN\n*I u1:Z O\n" + "".join(f"*I u2:{pin} I\n" for pin in pins) + "*RES\n"
    spef += "".join(f"{at + 1} u1:Z u2:{pin} 1\n" for at, pin in enumerate(pins)) + "*END\n"
    verilog = "module d (in1);\n  input in1;\n  wire n1;\n  DRV u1 (.A(in1), .Z(n1));\n  BIG u2 ("
    verilog += ", ".join(f".{pin}(n1)" for pin in pins) + ");\nendmodule\n"
    rows = "".join(f"pin (q{at}) {{ direction : input; capacitance : 2; }}\n" for at in range(cell_pins))
    rows += f"pin ({', '.join(pins)}) {{ direction : input; capacitance : 2; }}\n"
    return {"spef": spef, "v": verilog, "lib": library(f"cell (BIG) {{ {rows} }}\n"), "cons": "vgcons 1\ndefault required 400\n"}


def boxes(count, overlapping):
    """A chain of nodes with places, and boxes with none of them inside."""
    nodes = "".join(f"*N n1:{at} *C {at} {2 * at}\n" for at in range(1, count + 1))
    rows = ["1 u1:Z n1:1 1\n"] + [f"{at + 1} n1:{at} n1:{at + 1} 1\n" for at in range(1, count)]
    rows += [f"{count + 1} n1:{count} u2:A 1\n"]
    spef = HEADER + "*D_NET n1 200\n*CONN\n*I u1:Z O\n*I u2:A I\n" + nodes + "*RES\n" + "".join(rows) + "*END\n"
    if overlapping:
        cons = "".join(f"block_box 0 {-at} {count + 1} {-at - 1}\n" for at in range(count))
    else:
        cons = "".join(f"block_box {at} {-at} {at + 1} {-at - 1}\n" for at in range(count))
    return {"spef": spef, "cons": CONSTRAINTS.replace("vgcons 1", "vgcons 2") + cons}


def rows(count):
    """What each row runs: its name, the hostile files, the plain ones; and the words, where they are not `time`'s."""
    hostile, plain = colliding_names(count), plain_names(count)
    many = min(count, 60000)
    bits = 2**16
    best = ["best", "--out-spef", "out.spef", "--out-verilog", "out.v"]
    return [
        ("names of sections", {"spef": sections(hostile)}, {"spef": sections(plain)}),
        ("indices of a name map", {"spef": name_map(hostile)}, {"spef": name_map(plain)}),
        ("nodes of a net", {"spef": chain(leaves(many, 2**17))}, {"spef": chain([str(10**12 + at) for at in range(many)])}),
        ("wires", {"v": module("".join(f"wire {name};\n" for name in hostile))},
         {"v": module("".join(f"wire {name};\n" for name in plain))}),
        ("instances", {"v": module("".join(f"BUF {name} ();\n" for name in hostile))},
         {"v": module("".join(f"BUF {name} ();\n" for name in plain))}),
        ("cells", {"lib": library("".join(f"cell ({name}) {{ }}\n" for name in hostile))},
         {"lib": library("".join(f"cell ({name}) {{ }}\n" for name in plain))}),
        ("rows of constraints", {"cons": CONSTRAINTS + "".join(f"load {name} 1\n" for name in hostile)},
         {"cons": CONSTRAINTS + "".join(f"load {name} 1\n" for name in plain)}),
        ("a group of pins with one list of related pins",
         {"lib": library(related(count))}, {"lib": library(related(10))}),
        ("sinks on one cell of as many pins", on_one_cell(count, count), on_one_cell(count, 0)),
        ("boxes, far from as many nodes", boxes(many, True), boxes(many, False), best),
        ("64 vectors of 2^16 bits", {"v": module("".join(f"wire [{bits - 1}:0] v{at};\n" for at in range(64)))},
         {"v": module("".join(f"wire v{at};\n" for at in range(64)))}),
        ("a vector of 2^16 bits, named 64 times", {"v": module(f"wire [{bits - 1}:0] v;\nBUF u3 (.A({{{','.join(['v'] * 64)}}}));\n")},
         {"v": module(f"wire v;\nBUF u3 (.A({{{','.join(['v'] * 64)}}}));\n")}),
        ("`assign a = a, a = a, ..`", {"v": module("wire a;\nassign " + ",".join(["a=a"] * count) + ";\n")},
         {"v": module("wire a;\nassign a=a;\n" + "//" + "a=a," * count + "\n")}),
        ("wires that are implied", {"v": module(f"BUF u3 (.A({{{','.join(short_names(count))}}}));\n")},
         {"v": module("wire " + ",".join(short_names(count)) + ";\n")}),
        ("wires of the shortest names", {"v": module("wire " + ",".join(shortest_names(count)) + ";\n")},
         {"v": module("".join(f"wire {name};\n" for name in plain))}),
        ("assignments of them", {"v": module("assign " + ",".join(f"{name}={name}" for name in shortest_names(count)) + ";\n")},
         {"v": module("wire a;\nassign a=a;\n" + "//" + "aaaa=aaaa," * count + "\n")}),
        ("cells with a pin each", {"lib": library("".join(f"cell({name}){{pin(a){{}}}}\n" for name in shortest_names(count)))},
         {"lib": library("".join(f"cell({name}){{}}\n" for name in shortest_names(count)))}),
    ]


def short_names(count):
    return [f"x{at:x}" for at in range(count)]


def shortest_names(count):
    """Names of four letters and digits."""
    signs = "abcdefghijklmnopqrstuvwxyz0123456789"
    return [first + second + third + fourth for first in "bcdfghjkmnpqrstvwxyz" for second in signs
            for third in signs for fourth in signs][:count]


def related(count):
    pins = ", ".join(f"a{at}" for at in range(count))
    inputs = " ".join(f"b{at}" for at in range(count))
    return (f"cell (BIG) {{ dont_use : true;\npin ({pins}) {{ direction : output; function : \"b0\";\n"
            f"timing () {{ related_pin : \"{inputs}\"; intrinsic_rise : 1; rise_resistance : 1; }} }} }}\n")


def run(program, folder, files, words):
    """Bytes of the files, the least seconds of three runs and the peak memory in bytes."""
    every = {"spef": HEADER + NET, "lib": library(""), "v": module(""), "cons": CONSTRAINTS, **files}
    total = 0
    for end, text in every.items():
        total += len(text)
        with open(os.path.join(folder, f"d.{end}"), "w") as out:
            out.write(text)
    options = [word for option, end in (("spef", "spef"), ("lib", "lib"), ("verilog", "v"), ("cons", "cons"))
               for word in (f"--{option}", os.path.join(folder, f"d.{end}"))]
    best, peak, status = None, 0, 0
    for _ in range(3):
        start = time.perf_counter()
        # Not the usage that Python tells of a child: that counts what the child was before it became the program.
        status = subprocess.run(["/usr/bin/time", "-q", "-o", "peak", "-f", "%M", program, "--mode", *words, *options, "--net", "n1"],
                                cwd=folder, stdout=subprocess.DEVNULL, stderr=subprocess.DEVNULL).returncode
        seconds = time.perf_counter() - start
        best = seconds if best is None else min(best, seconds)
        with open(os.path.join(folder, "peak")) as told:
            peak = int(told.read()) * 1024
        if seconds > 10:
            break
    return total, best, peak, status


def main():
    parser = argparse.ArgumentParser()
    parser.add_argument("program")
    parser.add_argument("--count", type=int, default=12000)
    chosen = parser.parse_args()
    program = os.path.abspath(chosen.program)
    print("| what | bytes | plain | hostile | times | memory | times the bytes |")
    print("|---|---|---|---|---|---|---|")
    with tempfile.TemporaryDirectory() as folder:
        for name, hostile, plain, *words in rows(chosen.count):
            words = words[0] if words else ["time"]
            _, usual, _, usual_end = run(program, folder, plain, words)
            size, seconds, peak, end = run(program, folder, hostile, words)
            if usual_end not in (0, 1, 2) or end not in (0, 1, 2):
                sys.exit(f"hostile.py: {name}: status {usual_end} and {end}")
            print(f"| {name} | {size:,} | {usual:.3f} s | {seconds:.3f} s | {seconds / usual:.1f} "
                  f"| {peak / 2**20:.0f} MB | {peak / size:.1f} |", flush=True)


main()
