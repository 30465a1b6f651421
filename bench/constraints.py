#!/usr/bin/env python3
"""Writes constraints with so many rows: `constraints.py ROWS > net.cons`.

Half of the rows give the pins `u1:A`, `u2:A` and so on a required time, the other half block the nodes `n:1`, `n:2` and so on.
"""
import sys


def main():
    count = int(sys.argv[1]) // 2
    out = ["vgcons 1\n", "arrival drv:Y 10\n"]
    out += [f"required u{v}:A {400 + v % 100}.5\n" for v in range(1, count + 1)]
    out += [f"block n:{v}\n" for v in range(1, count + 1)]
    sys.stdout.write("".join(out))


main()
