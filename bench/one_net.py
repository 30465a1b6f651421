#!/usr/bin/env python3
"""Writes a SPEF file of one net with so many nodes: `one_net.py NODES SHAPE > net.spef`, or with `netlist` as a last word the
netlist in which the net is (Verilog).

SHAPE is `chain` (one sink at the end), `star` (every node but the driver is a sink) or `tree` (each node has two
children, every leaf is a sink). The driver is `drv:Y`, a sink is `u1:A`, `u2:A` and so on, by the number of its node; their
cells are `BUF_X1`.
"""
import sys

HEADER = """*SPEF "IEEE 1481-1998"
*DESIGN "bench"
*DATE "none"
*VENDOR "none"
*PROGRAM "none"
*VERSION "1"
*DESIGN_FLOW "none"
*DIVIDER /
*DELIMITER :
*BUS_DELIMITER [ ]
*T_UNIT 1 PS
*C_UNIT 1 FF
*R_UNIT 1 OHM
*L_UNIT 1 HENRY
"""


def parent(shape, v):
    """The number of the node above node v."""
    return {"chain": v - 1, "star": 0, "tree": (v - 1) // 2}[shape]


def parasitics(count, shape, inner):
    names = ["drv:Y"] + [f"n:{v}" if v in inner else f"u{v}:A" for v in range(1, count)]
    yield f"{HEADER}*D_NET n {count}\n*CONN\n*I {names[0]} O\n"
    yield from (f"*I {names[v]} I\n" for v in range(1, count) if v not in inner)
    yield "*CAP\n"
    yield from (f"{v} {names[v]} 0.5\n" for v in range(1, count))
    yield "*RES\n"
    yield from (f"{v} {names[parent(shape, v)]} {names[v]} 1.5\n" for v in range(1, count))
    yield "*END\n"


def netlist(count, inner):
    yield "module bench (in);\n input in;\n wire n;\n\n BUF_X1 drv (.A(in),\n    .Y(n));\n"
    yield from (f" BUF_X1 u{v} (.A(n),\n    .Y(out{v}));\n" for v in range(1, count) if v not in inner)
    yield "endmodule\n"


def main():
    count, shape = int(sys.argv[1]), sys.argv[2]
    inner = set(parent(shape, v) for v in range(1, count))
    out = netlist(count, inner) if sys.argv[3:] == ["netlist"] else parasitics(count, shape, inner)
    sys.stdout.write("".join(out))


if __name__ == "__main__":
    main()
