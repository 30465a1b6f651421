#!/usr/bin/env python3
"""Compares slacks of vginsert with those of OpenSTA, for flow/check.sh.

    promises.py first SLACKS REPORT
    promises.py nets REPORT COUNT
    promises.py kept BEFORE FOLDER COUNT
    promises.py together BEFORE REPORT AFTER

SLACKS, BEFORE and AFTER are texts of flow/opensta.tcl. REPORT is what vginsert printed.

`first`: each slack that mode `time` reports has to be the worst of the net's loads in SLACKS, to the last digit. Clock
nets and nets without a constrained load have no such slack.

`nets`: the names of up to COUNT nets with new cells, spread over the report.

`kept`: N.report and N.slacks in FOLDER, for N from 1 to COUNT, are what vginsert promised when it placed the cells of
one net alone, and what OpenSTA saw then. The slack that was promised stands beside the worst one of the loads that the
net had in BEFORE.

`together`: the same of all nets with new cells in REPORT, placed together. The slack of a load then has the gains of
all nets on its path, and is no measure of a single promise.
"""
import os
import statistics
import sys

sys.path.insert(0, os.path.dirname(os.path.dirname(os.path.abspath(__file__))))
import common
import constraints
import reports
from common import Fault


def worst(slacks):
    """The worst of some slacks; None where no path is constrained."""
    return min((slack for slack in slacks if slack is not None), default=None)


def placed_nets(report):
    """The nets of a report that have new cells."""
    return [net for net in reports.read(report).nets if net.cells]


def first(slacks_path, report):
    slacks, count = constraints.read_slacks(slacks_path), 0
    for net in reports.read(report, "time").nets:
        known = slacks.nets.get(net.name)
        expected = worst(pin.slack for pin in known.loads) if known and not known.clock else None
        if expected is not None and net.slack is not None:
            count += 1
            if expected != net.slack:
                raise Fault(f"net {net.name} has {net.slack} zs, and OpenSTA has {expected}", report, net.line)
    print(f"first slacks: {count} nets as OpenSTA has them, to the last digit")


def changes(before, report, after_path):
    """For each net with new cells: its name, its slack before, the promised one, and the one after (zs)."""
    nets = constraints.read_slacks(after_path).nets.values()
    after = {pin.node: pin.slack for net in nets for pin in net.loads}
    for net in placed_nets(report):
        loads = before.nets[net.name].loads
        yield net.name, worst(pin.slack for pin in loads), net.slack, worst(after[pin.node] for pin in loads)


def kept(before_path, folder, count):
    before, rows = constraints.read_slacks(before_path), []
    print(f"{'net':12} {'before ps':>12} {'promised ps':>12} {'OpenSTA ps':>12}")
    for number in range(1, int(count) + 1):
        path = os.path.join(folder, str(number))
        for row in changes(before, f"{path}.report", f"{path}.slacks"):
            print(f"{row[0]:12} " + " ".join(f"{slack / common.ZS_PER_PS:12.1f}" for slack in row[1:]))
            rows.append(row[1:])
    print_shares(rows)


def together(before_path, report, after_path):
    print_shares([row[1:] for row in changes(constraints.read_slacks(before_path), report, after_path)])


def print_shares(rows):
    """What the nets were promised and what they got, from their slacks before, promised and after."""
    differences = sorted((new - promised) / common.ZS_PER_PS for _, promised, new in rows)
    if not differences:
        print("no net has new cells")
        return
    good = sum(difference >= 0 for difference in differences)
    promised = statistics.median((promised - old) / common.ZS_PER_PS for old, promised, _ in rows)
    seen = statistics.median((new - old) / common.ZS_PER_PS for old, _, new in rows)
    print(f"{len(rows)} nets with new cells: {good} have at least the slack that was promised")
    print(f"slack less promise: worst {differences[0]:.1f} ps, median {statistics.median(differences):.1f} ps")
    print(f"gain: median promised {promised:.1f} ps, median seen {seen:.1f} ps")


def nets(report, count):
    names = [net.name for net in placed_nets(report)]
    step = max(1, -(-len(names) // int(count)))
    print("\n".join(names[::step]))


def main():
    modes = {"first": (first, 2), "nets": (nets, 2), "kept": (kept, 3), "together": (together, 3)}
    mode, words = sys.argv[1:2], sys.argv[2:]
    if not mode or mode[0] not in modes or len(words) != modes[mode[0]][1]:
        raise Fault("the words are not those of any mode; the head of the script has them")
    modes[mode[0]][0](*words)


if __name__ == "__main__":
    common.run(main)
