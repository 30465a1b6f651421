#!/usr/bin/env python3
"""Compares `--mode width` with all choices of cells and widths, on small nets that it makes at random.

    width_compare.py PROGRAM [COUNT] [--seed SEED] [--keep FOLDER]

PROGRAM is the program, as crates/vginsert/out/vginsert, which `make` builds, or the word `unproved`: then `rt try` compiles it
without a proof, and does all runs, three for a design, in more than a second each. COUNT designs are made, 1,000 if it is not
given, from SEED, 1 if it is not given: the same words make the same designs. The first five that differ are shown, those that
differ are copied to FOLDER, and the status of this script is then 1.

A design is one net with one or two sinks, up to three inner nodes and some more without a sink below them, in a library of two
or three repeaters, one of them an inverter, with a netlist and constraints as in `segment_compare.py`: limits, wanted polarities,
blocked nodes and nodes that allow one cell. It has one to four widths, some of which only add capacitance, or are given twice.
A net may be refused: for a reason of mode `best`, or as too large, where its loads are about the limit with the widths.

All placements of the net are tried with all choices of one width for each wire, one by one. Compared are the slack, which is the
greatest; the cells and widths of the report, which are a good choice that has it; its cost, its counts and the order of its
lines; `none`, where no choice is good; the refusals, and the status. Of the choice that is reported the slack is computed once
more, stage by stage, as crates/wire_widths/specs/Widths.antt has it. The slack is no less than that of mode `best`, which is
tried, too, and with the one width `1 1 0` it is the same.
"""
import argparse
import collections
import itertools
import os
import shutil
import sys
import tempfile

import segment_compare as made

PLAIN = (1, 1, 0)


def resistance_by(width, r):
    num, den, _ = width
    return (2 * r * num + den) // (2 * den)


def added_by(width, r):
    return (2 * r * width[2] + 1000) // 2000


class Tree(made.Tree):
    """A net as a tree below its driver, whose wires have widths. The wire of a node is the one above it."""

    def __init__(self, net, design):
        super().__init__(net, design)
        live = set(self.sinks)
        for node in reversed(self.order[1:]):
            if node in live:
                live.add(self.above[node])
        self.wires = [node for node in self.order[1:] if node in live]

    def widest_load(self, widths):
        """All that can ever be a load."""
        cells = len(self.places) * max(rep.cin for rep in self.design.reps)
        return sum(self.c.values()) + cells + sum(max(added_by(width, self.r[node]) for width in widths) for node in self.wires)

    def is_wanted(self, cells):
        """Whether each sink gets the signal that it wants."""
        odd = {self.order[0]: False}
        for node in self.order[1:]:
            odd[node] = odd[self.above[node]] ^ (node in cells and cells[node].inverts)
        return all(odd[sink] == (sink in self.design.inverted) for sink in self.sinks)

    def placements(self):
        """Those with the wanted polarities."""
        for choice in itertools.product(*map(self.choices, self.places)):
            cells = {node: cell for node, cell in zip(self.places, choice) if cell}
            if self.is_wanted(cells):
                yield cells

    def slacks(self, widths):
        """The slack of each good choice of cells and widths. A choice without one counts as None."""
        d, at = self.design, {node: i for i, node in enumerate(self.order)}
        c, below = [self.c[node] for node in self.order], range(1, len(self.order))
        above = [0] + [at[self.above[node]] for node in self.order[1:]]
        ends = [(at[sink], d.required[sink] - d.arrival) for sink in self.sinks]
        rows = [[(0, 0)]] + [[(self.r[node], 0)] if node not in self.wires else [(resistance_by(w, self.r[node]), added_by(w, self.r[node])) for w in widths] for node in self.order[1:]]
        all_rows = list(itertools.product(*rows))
        for cells in self.placements():
            cell = [cells.get(node) for node in self.order]
            for wires in all_rows:
                load = c[:]
                for v in reversed(below):
                    rep = cell[v]
                    if rep and rep.limit is not None and load[v] > rep.limit:
                        break
                    load[above[v]] += wires[v][1] + (rep.cin if rep else load[v])
                else:
                    if d.limit is not None and load[0] > d.limit:
                        yield None
                        continue
                    delay = [d.k + d.r * load[0]] * len(c)
                    for v in below:
                        rep, (r, a) = cell[v], wires[v]
                        delay[v] = delay[above[v]] + r * (a + (rep.cin if rep else load[v])) + (rep.k + rep.r * load[v] if rep else 0)
                    yield min(time - delay[v] for v, time in ends)
                    continue
                yield None

    # the same for one choice, as the definitions have it

    def way(self, v, w):
        """The nodes from w up to just below v, or nothing where v is not w or above it."""
        found = []
        while w != v:
            if w not in self.above:
                return None
            found.append(w)
            w = self.above[w]
        return found

    def in_stage(self, cells, v, w):
        way = self.way(v, w)
        return way is not None and all(node not in cells for node in way)

    def ends_stage(self, cells, v, w):
        way = self.way(v, w)
        return bool(way) and w in cells and all(node not in cells for node in way[1:])

    def wide_load(self, cells, a, v):
        stage = [w for w in self.order if self.in_stage(cells, v, w)]
        ends = [w for w in self.order if self.ends_stage(cells, v, w)]
        return sum(self.c[w] for w in stage) + sum(cells[w].cin for w in ends) + sum(a[w] for w in stage + ends if w != v)

    def wide_slack(self, cells, chosen):
        """The slack of cells and widths, or nothing where they are not good."""
        d, root = self.design, self.order[0]
        if not self.is_wanted(cells) or any(rep not in self.choices(node) or node not in self.places for node, rep in cells.items()):
            return None
        r = {node: resistance_by(chosen.get(node, PLAIN), self.r[node]) for node in self.order[1:]}
        a = {node: added_by(chosen.get(node, PLAIN), self.r[node]) for node in self.order[1:]}
        load = {node: self.wide_load(cells, a, node) for node in self.order}
        limits = [(d.limit, load[root])] + [(rep.limit, load[node]) for node, rep in cells.items()]
        if any(limit is not None and charged > limit for limit, charged in limits):
            return None
        slacks = []
        for sink in self.sinks:
            way = self.way(root, sink)
            wires = sum(r[u] * ((cells[u].cin if u in cells else load[u]) + a[u]) for u in way)
            through = sum(cells[u].k + cells[u].r * load[u] for u in way if u in cells)
            slacks.append(d.required[sink] - d.arrival - (d.k + d.r * load[root] + wires + through))
        return min(slacks)


class Maker(made.Maker):
    """Makes the files of a design whose repeaters have costs, and its widths."""

    def __init__(self, seed):
        super().__init__(seed, False)
        self.widths = self.make_widths()
        names = [net.name for net in self.nets if net is not self.main]
        self.asked = self.main.name if self.chance(0.95) else self.pick([*names, "q"])
        self.tree, self.refusal = Tree(self.main, self.design), None
        if self.chance(0.1):
            self.spoil_main()

    def make_net(self, name, may_be_refused):
        if may_be_refused:
            return super().make_net(name, True)
        net, sinks = made.Net(name), self.random.randint(1, 2)
        pins = [("u1", "Z")] + [(f"u{k}", "A") for k in range(2, 2 + sinks)]
        if name == "n1" and self.chance(0.2):
            pins[-1] = (name, "")
        net.conns = [(node, "O" if node == pins[0] or not node[1] else "I") for node in pins]
        self.random.shuffle(net.conns)
        leaves = self.random.sample([*map(str, range(9)), "02", "31", "18446744073709551617"], 5)
        inner = [(name, leaf) for leaf in leaves[: self.pick([0, 1, 2, 2, 3, 3, 3])]]
        self.join_main(net, pins, inner)
        dead = [(name, leaf) for leaf in leaves[len(inner) : len(inner) + self.pick([0, 0, 1, 2])]]
        reached = pins + inner
        for node in dead:
            net.resistors.append((self.pick(reached), node, self.random.randrange(2000) * made.OHM))
            reached.append(node)
        self.charge(net, reached)
        self.random.shuffle(net.resistors)
        return net

    def join_main(self, net, pins, inner):
        """A tree of resistors, in most nets with the inner nodes above the sinks."""
        reached, left = [pins[0]], inner + pins[1:]
        if self.chance(0.2):
            self.random.shuffle(left)
        for node in left:
            ends = [self.pick(reached[-2:]), node]
            self.random.shuffle(ends)
            net.resistors.append((*ends, self.pick([self.value(3000 * made.OHM), self.random.randrange(2000 * made.OHM)])))
            reached.append(node)

    def make_design(self):
        design = super().make_design()
        self.costs = {rep.name: self.pick([0, 1, 500, 1000, 1000, self.random.randrange(3000)]) for rep in design.reps}
        return design

    def cell(self, name, *rest):
        cost = made.decimal(self.costs.get(name, 1000), 3)
        return (text.replace("area : 1;", f"area : {cost};") for text in super().cell(name, *rest))

    def make_width(self, widths):
        den, times, add = self.random.randint(1, 1000), self.random.randint(2, 8), self.random.randrange(30)
        return self.pick([
            (1, times, add * (times - 1) // 4),
            (1, times, add),
            (self.random.randint(1, den), den, add),
            (self.random.randint(1, den), den, self.pick([0, 1, 7 * add])),
            (den, den, add),
            (1, 1000, self.random.randrange(10**6 + 1)),
            self.pick(widths),
        ])

    def make_widths(self):
        widths = [PLAIN]
        for _ in range(self.pick([0, 1, 1, 2, 2, 3, 3, 3])):
            widths.append(self.make_width(widths))
        return widths

    def spoil_main(self):
        """Makes one thing wrong with the net, or its loads about as large as they may be."""
        kind, d, tree = self.random.randrange(5), self.design, self.tree
        if kind == 0:
            self.main.resistors.append(self.main.resistors[0])
            self.refusal = "13 Loop"
        elif kind == 1:
            sink = self.pick(self.main.sinks())
            del d.required[sink]
            self.refusal = f"15 Unconstrained {made.printed(sink)}"
        else:
            most = self.pick([tree.widest_load(self.widths), tree.widest_load(self.widths), tree.widest_load([PLAIN])])
            more = made.MOST_CHARGE - most + self.pick([-1, 0, 0, 1, self.random.randint(-200, 200) * made.FF])
            self.main.caps.append((self.pick(tree.order), more, None))
            d.limit = self.pick([None, None, d.limit])
            for rep in d.reps:
                rep.limit = self.pick([None, None, rep.limit])
            self.tree = Tree(self.main, d)

    def constraints(self):
        d = self.design
        left = [sink for sink in self.main.sinks() if sink not in d.required and not sink[1]]
        yield from super().constraints()
        yield from (f"load {made.printed(sink)} {made.decimal(d.load[sink], 3)}\n" for sink in left)

    def write(self, folder):
        super().write(folder)
        for name, widths in [("w.txt", self.widths), ("p.txt", [PLAIN])]:
            with open(os.path.join(folder, name), "w", encoding="ascii") as out:
                out.write("vgwidth 1\n")
                for numbers in widths:
                    space = self.pick([" ", " ", "  ", "\t"])
                    out.write(space.join(["width", *(self.pick(["", "", "0"]) * (number < 100) + str(number) for number in numbers)]) + "\n")


class Trial(made.Trial):
    """A design, and what the program makes of it."""

    def runs(self):
        files = {"spef": "a.spef", "lib": "l.lib", "verilog": "v.v", "cons": "c.txt"}
        read = [word for name, file in files.items() for word in (f"--{name}", self.file(file))] + ["--net", self.maker.asked]
        yield "width", ["width", *read, "--widths", self.file("w.txt")]
        yield "plain", ["width", *read, "--widths", self.file("p.txt")]
        yield "best", ["best", *read, "--out-spef", self.file("x.spef"), "--out-verilog", self.file("x.v")]

    def refusal(self, widths):
        """The reason against the net, where there is one."""
        return self.maker.refusal or ("16 TooLarge" if self.maker.tree.widest_load(widths) > made.MOST_CHARGE else None)

    def reported(self, lines, widths):
        """The cells and the widths that the lines name, in their order."""
        tree, cells, chosen = self.maker.tree, {}, {}
        nodes = {made.printed(node): node for node in tree.order}
        by_name = {rep.name: rep for rep in self.maker.design.reps}
        rows = [line.split(" ") for line in lines]
        for word, node, what in rows:
            if word == "at" and not chosen:
                cells[nodes[node]] = by_name[what]
            elif word == "width" and nodes[node] in tree.wires and 0 < int(what) < len(widths):
                chosen[nodes[node]] = widths[int(what)]
            else:
                raise made.Differs(f"a line that is not to come: {word} {node} {what}\n")
        self.expect("lines of a node", len(cells) + len(chosen), len(rows))
        for found in [cells, chosen]:
            self.expect("tree order", list(found), [node for node in tree.order if node in found])
        return cells, chosen

    def check_run(self, name, widths):
        """Whether a run says what is to be said with these widths; the greatest slack."""
        maker, asked, (status, out) = self.maker, self.maker.asked, self.answers[name]
        refusal = self.refusal(widths)
        if refusal:
            self.expect(f"{name}, refused", (status, out), (2, f"net {asked} refused {refusal}\n"))
            return None, refusal.split(" ")[1]
        slacks = list(maker.tree.slacks(widths))
        found = [slack for slack in slacks if slack is not None]
        self.counts["choices tried"] += len(slacks)
        if not found:
            self.expect(f"{name}, none", (status, out), (1, f"net {asked} none\n"))
            return None, "none"
        most, (first, *lines, end) = max(found), out.split("\n")
        self.expect("end", end, "")
        cells, chosen = self.reported(lines, widths)
        cost = sum(maker.costs[cell.name] for cell in cells.values())
        self.expect(f"{name}, line", first, f"net {asked} slack {most} cost {cost} cells {len(cells)} wide {len(chosen)}")
        self.expect(f"{name}, slack of the choice", maker.tree.wide_slack(cells, chosen), most)
        self.expect(f"{name}, status", status, 0)
        self.counts["several best choices" if name == "width" and found.count(most) > 1 else ""] += 1
        return most, "wide" if chosen else "not wide"

    def check(self):
        maker, (status, out) = self.maker, self.answers["best"]
        if maker.asked != maker.main.name:
            self.expect("status of best", status, 2)
            self.expect("refused as in best", [self.answers["width"], self.answers["plain"]], [(status, out)] * 2)
            self.counts["refused, another net"] += 1
            return
        most, kind = self.check_run("width", maker.widths)
        least, plain = self.check_run("plain", [PLAIN])
        self.counts[f"refused, {kind}" if self.refusal(maker.widths) else kind] += 1
        if least is None:
            self.expect("best", (status, out), self.answers["plain"])
        else:
            self.expect("slack of best", (status, out.split(" ")[:4]), (0, f"net {maker.asked} slack {least}".split(" ")))
        if most is not None:
            self.expect("no less than best", most >= least, True)
            self.counts["more slack than best"] += most > least
        self.counts["refused with widths alone"] += bool(self.refusal(maker.widths)) and not self.refusal([PLAIN])
        self.counts["at the limit of loads"] += maker.tree.widest_load(maker.widths) == made.MOST_CHARGE and not maker.refusal
        self.expect("as with one width", kind, plain if len(maker.widths) == 1 else kind)


def main():
    words = argparse.ArgumentParser(usage="width_compare.py PROGRAM|unproved [COUNT] [--seed SEED] [--keep FOLDER]")
    words.add_argument("program")
    words.add_argument("count", type=int, nargs="?", default=1000)
    words.add_argument("--seed", type=int, default=1)
    words.add_argument("--keep")
    given = words.parse_args()
    counts, differ = collections.Counter(), 0
    with tempfile.TemporaryDirectory() as work:
        trials = [Trial(Maker(f"{given.seed} {k}"), os.path.join(work, str(k))) for k in range(given.count)]
        for trial in trials:
            trial.maker.write(trial.folder)
        if given.program == "unproved":
            made.run_unproved(trials, work)
        else:
            made.run_built(os.path.abspath(given.program), trials)
        for k, trial in enumerate(trials):
            try:
                trial.check()
            except (made.Differs, ValueError, KeyError, IndexError) as difference:
                differ += 1
                if differ <= 5:
                    print(f"--- design {k}, widths {trial.maker.widths}: {difference!r}")
                if given.keep:
                    shutil.copytree(trial.folder, os.path.join(given.keep, f"{given.seed}_{k}"), dirs_exist_ok=True)
            counts += trial.counts
    told = ", ".join(f"{count:,} {kind}" for kind, count in sorted(counts.items()) if kind)
    print(f"{given.count:,} designs, of which {differ} differ: {told}")
    sys.exit(1 if differ else 0)


if __name__ == "__main__":
    main()
