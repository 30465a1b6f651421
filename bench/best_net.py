#!/usr/bin/env python3
"""Writes a part of a design of one net on which repeaters are to be placed: `best_net.py NODES SHAPE PART > FILE`.

SHAPE is `chain` (one sink at the end), `tree` (each node is below one of the 40 before it, at random; the leaves are sinks) or
`fan` (arms as long as they are many, each with a sink at its end, which all meet at one node). PART is `spef` (the parasitics),
`netlist` (Verilog) or `constraints`. Every node that is neither the driver nor a sink is a place. Between two nodes lie 20
micrometres of wire: 40 ohms and 4 fF. Each sink has a required time of its own. In a tree every fifth or so of the sinks that are
alone below a node wants the inverted signal.
"""
import random
import sys
from collections import Counter

from one_net import HEADER


def parents(shape, count):
    """For each node but the first the node above it."""
    if shape == "chain":
        return list(range(count - 1))
    if shape == "tree":
        pick = random.Random(count)
        return [pick.randrange(max(0, v - 40), v) for v in range(1, count)]
    arm = max(1, int((count - 2) ** 0.5))
    return [0] + [1 if v % arm == 0 else v + 1 for v in range(count - 2)]


def parasitics(above, names, sinks):
    count = len(names)
    yield f"{HEADER}*D_NET n {4 * count - 4}\n*CONN\n*I {names[0]} O\n"
    yield from (f"*I {names[v]} I\n" for v in sinks)
    yield "*CAP\n"
    yield from (f"{v} {names[v]} 4\n" for v in range(1, count))
    yield "*RES\n"
    yield from (f"{v} {names[above[v - 1]]} {names[v]} 40\n" for v in range(1, count))
    yield "*END\n"


def netlist(sinks):
    yield "module bench (in);\n input in;\n wire n;\n\n BUF_0 drv (.A(in), .Y(n));\n"
    yield from (f" BUF_0 u{v} (.A(n), .Y(out{v}));\n" for v in sinks)
    yield "endmodule\n"


def constraints(above, names, sinks, shape):
    pick = random.Random(len(names) + 1)
    yield "vgcons 1\n"
    yield from (f"required {names[v]} {pick.randrange(1000, 3000)}\n" for v in sinks)
    if shape == "tree":
        children = Counter(above)
        alone = [v for v in sinks if children[above[v - 1]] == 1]
        yield from (f"want {names[v]} inverted\n" for v in alone if pick.randrange(5) == 0)


def main():
    count, shape, part = int(sys.argv[1]), sys.argv[2], sys.argv[3]
    above = parents(shape, count)
    inner = set(above)
    sinks = [v for v in range(1, count) if v not in inner]
    names = ["drv:Y"] + [f"n:{v}" if v in inner else f"u{v}:A" for v in range(1, count)]
    lines = {
        "spef": lambda: parasitics(above, names, sinks),
        "netlist": lambda: netlist(sinks),
        "constraints": lambda: constraints(above, names, sinks, shape),
    }[part]()
    sys.stdout.write("".join(lines))


main()
