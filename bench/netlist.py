#!/usr/bin/env python3
"""Prints a netlist of nearly so many megabytes and never more: `netlist.py MB PART`, 1 MB is 2^20 bytes.

It has the net `n` from `drv:Y` to `u2:A`, which `one_net.py 3 chain` writes. PART says what the other nets are: `scalars` (a
wire for each instance, with the names that synthesis gives), `escaped` (names with the hierarchy in them), `bits` (the
bits of buses of 32) or `undeclared` (no wire is declared).
"""
import sys

HEAD = "module bench (in);\n input in;\n wire n;\n"
TAIL = " BUF_X1 drv (.A(in),\n    .Y(n));\n BUF_X1 u2 (.A(n),\n    .Y(out2));\nendmodule\n"
CELLS = ["NAND2_X1", "NOR2_X1", "AND2_X2", "XOR2_X1"]


def scalar(k):
    return f"_{k:06}_"


def escaped(k):
    return f"\\core{k % 8}/blk{k % 61}/n{k} "


def bit(k):
    return f"bus{k // 32}[{k % 32}]"


def scalar_wire(name):
    return lambda k: f" wire {name(k)};\n"


def bus_wire(k):
    return f" wire [31:0] bus{k // 32};\n" if k % 32 == 0 else ""


PARTS = {
    "scalars": (scalar, scalar_wire(scalar)),
    "escaped": (escaped, scalar_wire(escaped)),
    "bits": (bit, bus_wire),
    "undeclared": (scalar, lambda k: ""),
}


def instance(net, k):
    """The instance that drives net k, and the nets at its inputs."""
    first, second = net(k - 1 if k else 0), net(k * 7 // 8)
    return f" {CELLS[k % 4]} g{k:06} (.A({first}),\n    .B({second}),\n    .Y({net(k)}));\n"


def main():
    size, (net, wire) = int(sys.argv[1]) * 2**20, PARTS[sys.argv[2]]
    left, count = size - len(HEAD + TAIL), 0
    wires, instances = [], []
    while True:
        pieces = wire(count), instance(net, count)
        left -= len(pieces[0]) + len(pieces[1])
        if left < 0:
            break
        wires.append(pieces[0])
        instances.append(pieces[1])
        count += 1
    sys.stdout.write(HEAD)
    sys.stdout.writelines(wires)
    sys.stdout.writelines(instances)
    sys.stdout.write(TAIL)


main()
