#!/usr/bin/env python3
"""Compares `--mode total` with all choices of placements, on small designs of some nets that it makes at random.

    total_compare.py PROGRAM [COUNT] [--seed SEED] [--keep FOLDER]

PROGRAM is the program, as crates/vginsert/out/vginsert, which `make` builds, or the word `unproved`: then `rt try` compiles it
without a proof, and does all runs in more than a second each. COUNT designs are made, 1,000 if it is not given, from SEED, 1 if
it is not given: the same words make the same designs. The first five that differ are shown, those that differ are copied to
FOLDER, and the status of this script is then 1.

A design has none to four nets with one or two sinks each and up to three inner nodes, in a library of two or three repeaters of
different costs, some equal and some 0, and one of them an inverter. A net may be refused, may have no good placement, or may be
the twin of another. All placements of each net are tried, one by one, and all choices of one for each net; the cap, where there
is one, is the cost of a choice, or one less, or any. Compared are the refused nets, the points, what each point takes of each
net (its cost and slack are those of its cells, no other placement of the net within the cap outdoes it, and all together come
to the point), the status, and what mode `time` says of the files that are written: the slacks of the last point's picks, or,
where there is no point, the files themselves.
"""
import argparse
import collections
import itertools
import os
import random
import shutil
import sys
import tempfile

import repair_compare as repairs
import segment_compare as made

HEADER = made.HEADER.format(c_unit="FF", r_unit="OHM").replace("segment_compare.py", "total_compare.py")
MOST_CHOICES = 300000


class Maker:
    """Makes the four files of a design, and knows what they say."""

    def __init__(self, seed):
        self.random = random.Random(seed)
        d = self.design = made.Design()
        for name in ["BUF", "INV", "BIG"][: 2 + self.chance(0.4)]:
            limit = self.pick([None, None, self.random.randrange(20, 200) * made.FF])
            rep = made.Rep(name, self.random.randint(1, 4) * made.FF, self.random.randint(1, 30) * made.PS, self.random.randint(200, 2000) * made.OHM, limit, name == "INV")
            d.reps.append(rep)
        self.costs = {rep.name: self.pick([0, 1, 500, 1000, 1000, self.random.randrange(3000)]) for rep in d.reps}
        d.k, d.r = self.random.randint(0, 20) * made.PS, self.random.randint(300, 3000) * made.OHM
        d.limit, d.arrival = self.pick([None, None, self.random.randrange(50, 300) * made.FF]), 0
        self.nets, self.loops = [], set()
        for k in range(self.random.choice([0, 1, 2, 2, 3, 3, 4])):
            self.nets.append(self.make_net(k, self.nets[-1] if self.nets and self.chance(0.2) else None))
        self.trees = {net.name: made.Tree(net, d) for net in self.nets}
        self.found = {name: list(repairs.placements(tree, self.costs)) for name, tree in self.trees.items()}
        self.choose()

    def chance(self, of_one):
        return self.random.random() < of_one

    def pick(self, values):
        return self.random.choice(values)

    def make_net(self, k, twin):
        """A net, whose values may be those of another one."""
        net, d = made.Net(f"n{k}"), self.design
        sinks = len(twin.conns) - 1 if twin else self.random.randint(1, 2)
        inner = [(net.name, str(i)) for i in range(len(twin.nodes()) - sinks - 1 if twin else self.random.randint(0, 3))]
        pins = [(f"d{k}", "Z"), *((f"s{k}_{i}", "A") for i in range(sinks))]
        net.conns = [(pin, "O" if pin == pins[0] else "I") for pin in pins]
        nodes = [pins[0], *inner, *pins[1:]]
        if twin:
            old = [twin.conns[0][0], *(node for node in twin.nodes() if node[0] == twin.name), *(pin for pin, _ in twin.conns[1:])]
            to = dict(zip(old, nodes))
            net.resistors = [(to[one], to[other], value) for one, other, value in twin.resistors]
            net.caps = [(to[node], value, None) for node, value, _ in twin.caps]
            for was, pin in zip(old[1 + len(inner) :], pins[1:]):
                d.load[pin], d.required[pin] = d.load[was], d.required[was]
                d.inverted |= {pin} if was in d.inverted else set()
            return net
        net.resistors = [(self.pick(nodes[max(0, i - 2) : i]), node, self.random.randrange(2000) * made.OHM) for i, node in enumerate(nodes) if i]
        net.caps = [(node, self.random.randrange(60) * made.FF, None) for node in nodes]
        for pin in pins[1:]:
            d.load[pin], d.required[pin] = self.random.randint(0, 9) * made.FF, self.random.randint(0, 500) * made.PS
            if self.chance(0.1):
                d.inverted.add(pin)
        if self.chance(0.1):
            self.loops.add(net.name)
        return net

    def accepted(self):
        return [net for net in self.nets if net.name not in self.loops]

    def choose(self):
        """The cap, and all points of all choices within it, where they are not too many."""
        pairs = [sorted({(cost, slack) for cost, slack, _ in self.found[net.name]}) for net in self.accepted()]
        self.cap, self.points, count = None, None, 1
        for some in pairs:
            count *= len(some)
        if count > MOST_CHOICES:
            return
        totals = {(sum(cost for cost, _ in choice), min(slack for _, slack in choice)) for choice in itertools.product(*pairs) if choice}
        cap = self.pick([self.random.randrange(6000), *sorted(cost for cost, _ in totals)[:20]])
        self.cap = self.pick([None, None, cap, max(cap - 1, 0)])
        within = [(cost, slack, 0) for cost, slack in totals if self.cap is None or cost <= self.cap]
        self.points = repairs.frontier(within)

    # the texts

    def spef(self):
        yield HEADER
        for net in self.nets:
            yield f"*D_NET {net.name} 0\n*CONN\n" + "".join(f"*I {made.printed(pin)} {way}\n" for pin, way in net.conns)
            yield "*CAP\n" + "".join(f"{i} {made.printed(node)} {made.decimal(value, 3)}\n" for i, (node, value, _) in enumerate(net.caps, 1))
            resistors = list(net.resistors)
            if net.name in self.loops:
                resistors.append(resistors[0])
            rows = (f"{i} {made.printed(one)} {made.printed(other)} {made.decimal(value, 3)}\n" for i, (one, other, value) in enumerate(resistors, 1))
            yield "*RES\n" + "".join(rows) + "*END\n"

    def library(self):
        d, cell = self.design, made.Maker.cell
        yield 'library (made) {\n  delay_model : generic_cmos;\n  time_unit : "1ps";\n  capacitive_load_unit (1, ff);\n'
        yield from cell(self, "DRV", [], d.k, d.r, d.limit)
        for rep in d.reps:
            cost = made.decimal(self.costs[rep.name], 3)
            for text in cell(self, rep.name, [("A", rep.cin)], rep.k, rep.r, rep.limit, "!A" if rep.inverts else "A"):
                yield text.replace("area : 1;", f"area : {cost};")
        for load in sorted(set(d.load.values())):
            yield f"  cell (LD{load}) {{ area : 1; pin (A) {{ direction : input; capacitance : {made.decimal(load, 3)}; }} }}\n"
        yield "}\n"

    def netlist(self):
        yield "module top ();\n" + "".join(f"wire {net.name};\n" for net in self.nets)
        for net in self.nets:
            for (owner, _), way in net.conns:
                yield f"DRV {owner} (.Z({net.name}));\n" if way == "O" else f"LD{self.design.load[owner, 'A']} {owner} (.A({net.name}));\n"
        yield "endmodule\n"

    def constraints(self):
        d = self.design
        yield "vgcons 1\n"
        yield from (f"required {made.printed(sink)} {made.decimal(time, 9)}\n" for sink, time in d.required.items())
        yield from (f"want {made.printed(sink)} inverted\n" for sink in d.inverted)

    def write(self, folder):
        os.makedirs(folder, exist_ok=True)
        for name, pieces in {"a.spef": self.spef(), "l.lib": self.library(), "v.v": self.netlist(), "c.txt": self.constraints()}.items():
            with open(os.path.join(folder, name), "w", encoding="ascii") as out:
                out.writelines(pieces)


class Trial(made.Trial):
    """A design, and what the program makes of it."""

    def runs(self):
        cap = ["--cap", str(self.maker.cap)] if self.maker.cap is not None else []
        design = [word for name, file in [("lib", "l.lib"), ("cons", "c.txt")] for word in (f"--{name}", self.file(file))]
        read = [*design, "--spef", self.file("a.spef"), "--verilog", self.file("v.v"), "--all"]
        written = ["--out-spef", self.file("o.spef"), "--out-verilog", self.file("o.v")]
        yield "total", ["total", *read, *cap]
        yield "written", ["total", *read, *cap, *written]
        yield "time", ["time", *design, "--spef", self.file("o.spef"), "--verilog", self.file("o.v"), "--all"]

    def pick(self, net, lines):
        """What a point takes of a net: its cost and its slack, by the lines from the first on, which are taken away."""
        maker, tree = self.maker, self.maker.trees[net.name]
        words, cells = lines.pop(0).split(" "), {}
        by_name, nodes = {rep.name: rep for rep in maker.design.reps}, {made.printed(node): node for node in tree.places}
        while lines and lines[0].startswith("at "):
            _, node, cell = lines.pop(0).split(" ")
            cells[nodes[node]] = by_name[cell]
        cost, slack = sum(maker.costs[cell.name] for cell in cells.values()), tree.slack(cells)
        self.expect("pick", words, f"pick {net.name} {cost} {slack} cells {len(cells)}".split(" "))
        within = [one for one in maker.found[net.name] if maker.cap is None or one[0] <= maker.cap]
        if (cost, slack) not in repairs.frontier(within):
            raise made.Differs(f"a pick that is outdone: {words}\n")
        return cost, slack

    def check_points(self, lines):
        """Whether the lines have the points, each with picks that come to it; the slacks of the last one's."""
        slacks = {}
        self.expect("points", lines.pop(0), f"total points {len(self.maker.points)}")
        for cost, slack in self.maker.points:
            self.expect("point", lines.pop(0), f"point {cost} {slack}")
            picks = {net.name: self.pick(net, lines) for net in self.maker.accepted()}
            self.expect("sum", sum(cost for cost, _ in picks.values()), cost)
            slacks = {name: slack for name, (_, slack) in picks.items()}
            self.expect("least", min(slacks.values()), slack)
        return slacks

    def check(self):
        maker, (status, out) = self.maker, self.answers["total"]
        if maker.points is None:
            self.counts["too many choices"] += 1
            return
        lines, slacks = out.split("\n"), None
        for net in maker.nets:
            if net.name in maker.loops:
                self.expect("refused", lines.pop(0), f"net {net.name} refused 13 Loop")
        if maker.points:
            slacks = self.check_points(lines)
            self.counts["points"] += len(maker.points)
        else:
            self.expect("none", lines.pop(0), "total none")
            self.counts["none"] += 1
        self.expect("end", lines, [""])
        self.expect("status", status, 2 if maker.loops else int(not maker.points))
        self.expect("with files", self.answers["written"], (status, out))
        if slacks is None:
            for one, other in [("a.spef", "o.spef"), ("v.v", "o.v")]:
                with open(self.file(one), encoding="ascii") as old, open(self.file(other), encoding="ascii") as new:
                    self.expect(other, new.read(), old.read())
            return
        told = ""
        for net in maker.nets:
            told += f"net {net.name} refused 13 Loop\n" if net.name in maker.loops else f"net {net.name} slack {slacks[net.name]} polarity right\n"
        self.expect("time", self.answers["time"], (2 if maker.loops else 0, told))


def main():
    words = argparse.ArgumentParser(usage="total_compare.py PROGRAM|unproved [COUNT] [--seed SEED] [--keep FOLDER]")
    words.add_argument("program")
    words.add_argument("count", type=int, nargs="?", default=1000)
    words.add_argument("--seed", type=int, default=1)
    words.add_argument("--keep")
    given = words.parse_args()
    counts, differ = collections.Counter(), 0
    with tempfile.TemporaryDirectory() as work:
        trials = [Trial(Maker(f"{given.seed} {k}"), os.path.join(work, str(k))) for k in range(given.count)]
        for trial in trials:
            trial.maker.write(trial.folder)
        if given.program == "unproved":
            made.run_unproved(trials, work)
        else:
            made.run_built(os.path.abspath(given.program), trials)
        for k, trial in enumerate(trials):
            try:
                trial.check()
            except (made.Differs, ValueError, KeyError, IndexError) as difference:
                differ += 1
                if differ <= 5:
                    print(f"--- design {k}, cap {trial.maker.cap}: {difference!r}")
                if given.keep:
                    shutil.copytree(trial.folder, os.path.join(given.keep, f"{given.seed}_{k}"), dirs_exist_ok=True)
            counts += trial.counts
    told = ", ".join(f"{count} {kind}" for kind, count in sorted(counts.items()))
    print(f"{given.count} designs, of which {differ} differ: {told}")
    sys.exit(1 if differ else 0)


if __name__ == "__main__":
    main()
