#!/usr/bin/env python3
"""Writes the widths that a wire may have: `widths.py COUNT > FILE`, with a count from 1 to 8.

Width 0 is the wire as it is. The next ones are two, three and more times as wide: the resistance is divided by that, and a fifth
of the capacitance of a wire of `best_net.py`, which is 100 aF for each ohm, grows with the width.
"""
import sys


def main():
    print("vgwidth 1")
    for times in range(1, int(sys.argv[1]) + 1):
        print(f"width 1 {times} {20 * (times - 1)}")


main()
