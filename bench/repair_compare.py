#!/usr/bin/env python3
"""Compares `--mode repair` with all placements of a net, on small designs that it makes at random.

    repair_compare.py PROGRAM [COUNT] [--seed SEED] [--keep FOLDER]

PROGRAM is the program, as crates/vginsert/out/vginsert, which `make` builds, or the word `unproved`: then `rt try` compiles it
without a proof, and does all runs in more than a second each. COUNT designs are made, 1,000 if it is not given, from SEED, 1 if
it is not given: the same words make the same designs. The first five that differ are shown, those that differ are copied to
FOLDER, and the status of this script is then 1.

The designs are those of `segment_compare.py`, with repeaters of different costs, some of them equal and some 0. All placements
of the net are tried, one by one. The target is the slack of one of them that no other outdoes, or one zs more or less, or
below or above all; the cap, where there is one, is the cost of one of them, or one less, or any. Compared are the slack, the
cost, the cells and the status of the report, its last line, the frontier within the cap, and what mode `time` says of the
files that are written. With `--all` the lines of the net are those without it, and the last line counts all lines.
"""
import argparse
import collections
import itertools
import os
import re
import shutil
import sys
import tempfile

import segment_compare as made

MOST_PLACES = 6


class Maker(made.Maker):
    """Makes the four files of a design whose repeaters have costs, and chooses a target and a cap."""

    def make_design(self):
        design = super().make_design()
        self.costs = {rep.name: self.pick([0, 1, 500, 1000, 1000, self.random.randrange(3000)]) for rep in design.reps}
        return design

    def cell(self, name, *rest):
        cost = made.decimal(self.costs.get(name, 1000), 3)
        return (text.replace("area : 1;", f"area : {cost};") for text in super().cell(name, *rest))

    def choose(self, points):
        """The target and the cap, by the frontier of the net."""
        slacks = [slack for _, slack in points] or [0]
        about = self.pick([slacks[0] - 7, slacks[-1] + 1, *slacks, *slacks])
        self.target = self.pick([about, about, about - 1, about + 1, self.random.randint(-900, 900) * made.PS])
        costs = [cost for cost, _ in points] or [0]
        cap = self.pick([*costs, self.random.randrange(5000)])
        self.cap = self.pick([None, None, cap, max(cap - 1, 0)])


def placements(tree, costs):
    """The cost and the slack of each good placement, and how many cells it has."""
    for choice in itertools.product(*map(tree.choices, tree.places)):
        cells = {node: cell for node, cell in zip(tree.places, choice) if cell}
        slack = tree.slack(cells)
        if slack is not None:
            yield sum(costs[cell.name] for cell in cells.values()), slack, len(cells)


def frontier(found):
    """The pairs of cost and slack that no other pair outdoes, by rising cost."""
    points = []
    for cost, slack in sorted(((cost, slack) for cost, slack, _ in found), key=lambda pair: (pair[0], -pair[1])):
        if not points or slack > points[-1][1]:
            points.append((cost, slack))
    return points


class Trial(made.Trial):
    """A design, and what the program makes of it."""

    def __init__(self, maker, folder):
        super().__init__(maker, folder)
        self.tree = made.Tree(maker.main, maker.design)
        self.found = list(placements(self.tree, maker.costs)) if len(self.tree.places) <= MOST_PLACES else None
        maker.choose(frontier(self.found or []))

    def runs(self):
        maker, cap = self.maker, []
        if maker.cap is not None:
            cap = ["--cap", str(maker.cap)]
        design = [word for name, file in [("lib", "l.lib"), ("cons", "c.txt")] for word in (f"--{name}", self.file(file))]
        read = [*design, "--spef", self.file("a.spef"), "--verilog", self.file("v.v")]
        net, target = ["--net", maker.main.name], f"--target={made.decimal(maker.target, 9)}"
        out = lambda k: ["--out-spef", self.file(f"o{k}.spef"), "--out-verilog", self.file(f"o{k}.v")]
        yield "repair", ["repair", *read, *net, *cap, target, *out(1)]
        yield "all", ["repair", *read, "--all", *cap, target, *out(2)]
        yield "frontier", ["frontier", *read, *net, *cap]
        for k in [1, 2]:
            yield f"time {k}", ["time", *design, "--spef", self.file(f"o{k}.spef"), "--verilog", self.file(f"o{k}.v"), *net]

    def told(self):
        """What the net comes to: its outcome, its cost, its slack and how many cells it has, where that is settled."""
        maker, within = self.maker, self.found
        if maker.cap is not None:
            within = [one for one in self.found if one[0] <= maker.cap]
        bare = [one for one in within if one[2] == 0]
        if bare and bare[0][1] >= maker.target:
            return ("met", *bare[0])
        enough = [one for one in within if one[1] >= maker.target]
        if enough:
            cost, slack, _ = min(enough, key=lambda one: (one[0], -one[1]))
            return "met", cost, slack, None
        if not within:
            return "none", None, None, None
        cost, slack, _ = min(within, key=lambda one: (-one[1], one[0]))
        return "short", cost, slack, 0 if bare and bare[0][1] == slack else None

    def placed(self, lines):
        """The placement that the lines of a net name."""
        by_name = {rep.name: rep for rep in self.maker.design.reps}
        nodes = {made.printed(node): node for node in self.tree.places}
        rows = [line.split(" ") for line in lines]
        if any(row[0] != "at" or row[1] not in nodes for row in rows):
            raise made.Differs(f"a line that names no place: {lines}\n")
        return {nodes[row[1]]: by_name[row[2]] for row in rows}

    def check_net(self, outcome, cost, slack, cells):
        name, (status, out) = self.maker.main.name, self.answers["repair"]
        *lines, last, end = out.split("\n")
        self.expect("end", end, "")
        counts = " ".join(f"{word} {int(word == outcome)}" for word in ["met", "short", "none"])
        self.expect("last line", last, f"repair nets 1 {counts} refused 0 worst {'none' if slack is None else slack}")
        self.expect("status", status, 0 if outcome == "met" else 1)
        if outcome == "none":
            self.expect("lines", lines, [f"net {name} none"])
            return
        placed = self.placed(lines[1:])
        self.expect("line", lines[0], f"net {name} slack {slack} cost {cost} cells {len(placed)}")
        self.expect("slack of the cells", self.tree.slack(placed), slack)
        self.expect("cost of the cells", sum(self.maker.costs[cell.name] for cell in placed.values()), cost)
        if cells is not None:
            self.expect("cells", len(placed), cells)
        for k in [1, 2]:
            self.expect(f"time {k}", self.answers[f"time {k}"], (0, f"net {name} slack {slack} polarity right\n"))

    def check_all(self):
        """Whether the lines of the net are the same among those of all, and the last line counts all of these."""
        status, out = self.answers["all"]
        *lines, last, _ = out.split("\n")
        own = self.answers["repair"][1].split("\n")[:-2]
        at = lines.index(own[0])
        self.expect("lines among all", lines[at : at + len(own)], own)
        heads = [line for line in lines if line.startswith("net ")]
        self.expect("nets", len(heads), len(self.maker.nets))
        refused = sum(" refused " in line for line in heads)
        counts = collections.Counter(met=0, short=0, none=sum(line.endswith(" none") for line in heads), refused=refused)
        slacks = [int(slack) for slack in re.findall(r"^net \S+ slack (-?\d+)", out, re.M)]
        for slack in slacks:
            counts["met" if slack >= self.maker.target else "short"] += 1
        said = " ".join(f"{word} {counts[word]}" for word in ["met", "short", "none", "refused"])
        self.expect("last line of all", last, f"repair nets {len(heads)} {said} worst {min(slacks) if slacks else 'none'}")
        self.expect("status of all", status, 2 if refused else int(counts["short"] + counts["none"] > 0))

    def check_frontier(self):
        within = [one for one in self.found if self.maker.cap is None or one[0] <= self.maker.cap]
        points = re.findall(r"^point (\d+) (-?\d+) cells", self.answers["frontier"][1], re.M)
        self.expect("frontier", [(int(cost), int(slack)) for cost, slack in points], frontier(within))

    def check(self):
        if self.found is None:
            self.counts["too many places"] += 1
            return
        told = self.told()
        self.counts[told[0] + (" without a cell" if told[3] == 0 else "")] += 1
        self.check_net(*told)
        self.check_all()
        self.check_frontier()


def main():
    words = argparse.ArgumentParser(usage="repair_compare.py PROGRAM|unproved [COUNT] [--seed SEED] [--keep FOLDER]")
    words.add_argument("program")
    words.add_argument("count", type=int, nargs="?", default=1000)
    words.add_argument("--seed", type=int, default=1)
    words.add_argument("--keep")
    given = words.parse_args()
    counts, differ = collections.Counter(), 0
    with tempfile.TemporaryDirectory() as work:
        makers = (Maker(f"{given.seed} {k}", False) for k in range(given.count))
        trials = [Trial(maker, os.path.join(work, str(k))) for k, maker in enumerate(makers)]
        for trial in trials:
            trial.maker.write(trial.folder)
        if given.program == "unproved":
            made.run_unproved(trials, work)
        else:
            made.run_built(os.path.abspath(given.program), trials)
        for k, trial in enumerate(trials):
            try:
                trial.check()
            except (made.Differs, ValueError) as difference:
                differ += 1
                if differ <= 5:
                    print(f"--- design {k}, target {trial.maker.target}, cap {trial.maker.cap}: {difference}")
                if given.keep:
                    shutil.copytree(trial.folder, os.path.join(given.keep, f"{given.seed}_{k}"), dirs_exist_ok=True)
            counts += trial.counts
    told = ", ".join(f"{count} {kind}" for kind, count in sorted(counts.items()))
    print(f"{given.count} designs, of which {differ} differ: {told}")
    sys.exit(1 if differ else 0)


if __name__ == "__main__":
    main()
