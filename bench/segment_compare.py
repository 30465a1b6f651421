#!/usr/bin/env python3
"""Compares `--mode segment` with a plain reading of its definition, on small nets that it makes at random.

    segment_compare.py PROGRAM [COUNT] [--seed SEED] [--keep FOLDER]

PROGRAM is the program, as crates/vginsert/out/vginsert, which `make` builds, or the word `unproved`: then `rt try` compiles it
without a proof, and does all runs, some nine for a design, in more than a second each. COUNT designs are made, 1,000 if it is
not given, from SEED, 1 if it is not given: the same words make the same designs. The first five that differ are shown, those
that differ are copied to FOLDER, and the status of this script is then 1.

A design is one net with a driver, one to four sinks and up to six inner nodes, in a library of two or three repeaters, one of
them an inverter, with a netlist and constraints; the SPEF file has some more nets, and some of these are refused, for each
reason by the parasitics alone. Resistors have remainders or are 0, in any order and direction; nodes have no, one or several
capacitors, coupling ones among them; leaves are taken, written with zeros in front, or those of pins of an instance that is
named like the net; notes, name maps, escapes, units, triples, comments and line ends vary. One design of a hundred has a net
that is near the limit of nodes when it is cut.

One net or all nets are cut into a random number of parts. Compared are the report and the status; of the file that is written
all that does not belong to a cut net, byte for byte, and each section of a cut net, by a small reader of its own: name,
connections, notes, capacitances, and resistors part by part, in their order. The program runs the modes `wire` and `time` on
both files, which have to print the same, and `best`: the slack never falls, and where a net has at most six places it is the
greatest of all placements, which the script tries one by one.
"""
import argparse
import collections
import itertools
import os
import random
import re
import shutil
import subprocess
import sys
import tempfile

HERE = os.path.dirname(os.path.abspath(__file__))
HEADER = """*SPEF "IEEE 1481-1998"
*DESIGN "top"
*DATE "none"
*VENDOR "none"
*PROGRAM "segment_compare.py"
*VERSION "1"
*DESIGN_FLOW "none"
*DIVIDER /
*DELIMITER :
*BUS_DELIMITER [ ]
*T_UNIT 1 PS
*C_UNIT 1 {c_unit}
*R_UNIT 1 {r_unit}
*L_UNIT 1 HENRY
"""
PS, FF, OHM = 10**9, 1000, 1000  # in zs, aF, mΩ
MOST_NODES, MOST_CHARGE, MOST_PLACES = 65536, 10**11, 6


def decimal(number, places):
    """A number as text that is read as `number` at so many decimal places."""
    sign, digits = "-" if number < 0 else "", str(abs(number)).rjust(places + 1, "0")
    fraction = digits[len(digits) - places :].rstrip("0")
    return sign + digits[: len(digits) - places] + ("." + fraction if fraction else "")


# ---- what a net is, and what it is when it is cut


class Net:
    """The parasitics of a net. A node is its owner and its leaf, and a port has no leaf. Nodes stand in the order of the file:
    the connections, and then the others as its lines name them first."""

    def __init__(self, name):
        self.name, self.fault, self.line = name, None, None
        self.conns = []  # node, direction
        self.notes = {}
        self.starred = []  # inner nodes with a line of their own
        self.caps = []  # node, aF, the node of another net
        self.resistors = []  # node, node, mΩ

    def nodes(self):
        named = itertools.chain(self.starred, (cap[0] for cap in self.caps), (end for res in self.resistors for end in res[:2]))
        return list(dict.fromkeys(itertools.chain((node for node, _ in self.conns), named)))

    def charge(self):
        sums = collections.Counter()
        for node, value, _ in self.caps:
            sums[node] += value
        return sums

    def driver(self):
        return next(node for node, way in self.conns if drives(node, way))

    def sinks(self):
        return [node for node, way in self.conns if not drives(node, way)]

    def refusal(self, parts):
        """The first reason against the net, where there is one."""
        ways = [drives(node, way) for node, way in self.conns]
        faults = {"Section": f"2 Section Res line {self.line}", "Reduced": "3 Reduced", "Inductive": "4 Inductive"}
        if self.fault:
            return faults[self.fault]
        if any(way == "B" for _, way in self.conns):
            return "5 Bidirectional"
        if sum(ways) != 1:
            return "7 ManyDrivers" if sum(ways) else "6 NoDriver"
        nodes, reached = self.nodes(), self.reached()
        floating = [node for node in nodes if node not in reached]
        if floating:
            return f"12 Floating {printed(floating[0])}"
        if len(self.resistors) != len(nodes) - 1:
            return "13 Loop"
        if len(ways) == 1:
            return "14 NoSink"
        large = sum(self.charge().values()) > MOST_CHARGE or len(nodes) + len(self.resistors) * (parts - 1) > MOST_NODES
        return "16 TooLarge" if large else None

    def reached(self):
        near = collections.defaultdict(list)
        for one, other, _ in self.resistors:
            near[one].append(other)
            near[other].append(one)
        reached, left = set(), [self.driver()]
        while left:
            node = left.pop()
            if node not in reached:
                reached.add(node)
                left += near[node]
        return reached


class Section:
    """What the section of a cut net says."""

    def __init__(self, name, total, conns, stars, caps, resistors):
        self.said = {"name": name, "total": total, "connections": conns, "inner nodes": stars, "capacitances": caps, "resistors": resistors}

    def difference(self, other):
        """A part in which two sections differ, or nothing."""
        for part, mine in self.said.items():
            if mine != other.said[part]:
                return f"{part}: {mine} and {other.said[part]}"
        return None


def drives(node, way):
    return way == ("O" if node[1] else "I")


def printed(node):
    return f"{node[0]}:{node[1]}" if node[1] else node[0]


def fresh(net):
    """The new nodes of a net, without an end."""
    taken = {leaf for owner, leaf in net.nodes() if owner == net.name}
    return ((net.name, str(k)) for k in itertools.count(1) if str(k) not in taken)


def cut_resistors(net, parts):
    new = fresh(net)
    for one, other, value in net.resistors:
        way = [one, *itertools.islice(new, parts - 1), other]
        for i, (start, end) in enumerate(itertools.pairwise(way)):
            yield start, end, value // parts + (i < value % parts)


def cut(net, parts):
    """The net with each resistor in so many parts."""
    result = Net(net.name)
    result.conns, result.notes, result.caps, result.starred = net.conns, net.notes, net.caps, net.starred
    result.resistors = list(cut_resistors(net, parts))
    return result


def section_of(net, parts):
    """What is to be written of a net."""
    nodes, charge, ends = net.nodes(), net.charge(), {node for node, _ in net.conns}
    conns = [(node, way, net.notes.get(node, "")) for node, way in net.conns]
    stars = [(node, net.notes[node]) for node in nodes if node not in ends and net.notes.get(node)]
    caps = [(node, charge[node]) for node in nodes if charge[node]]
    return Section(net.name, sum(charge.values()), conns, stars, caps, list(cut_resistors(net, parts)))


# ---- a reader of written sections


class Reader:
    """Reads a section that was written: its names are in full, and each number has its line."""

    def __init__(self, c_places, r_places):
        self.c_places, self.r_places = c_places, r_places

    def name(self, text):
        return re.sub(r"\\(.)", r"\1", text)

    def node(self, text):
        owner, _, leaf = re.fullmatch(r"((?:\\.|[^\\:])*)(:((?:\\.|[^\\:])*))?", text).group(1, 2, 3)
        return self.name(owner), self.name(leaf or "")

    def value(self, text, places):
        whole, _, fraction = text.partition(".")
        if not re.fullmatch(r"\d+(\.\d*[1-9])?", text) or len(fraction) > places:
            raise ValueError(f"a value: {text}")
        return int(whole + fraction.ljust(places, "0"))

    def read(self, text):
        lines = text.split("\n")
        tag, name, total = lines[0].split(" ")
        if tag != "*D_NET" or lines[-1] != "*END":
            raise ValueError("no section")
        conns, stars, caps, resistors, part = [], [], [], [], None
        for line in lines[1:-1]:
            if line in ["*CONN", "*CAP", "*RES"]:
                part, number = line, 0
                continue
            words, number = line.split(" "), number + 1
            if part == "*CONN" and words[0] in ["*I", "*P"]:
                conns.append((self.node(words[1]), words[2], " ".join(words[3:])))
            elif part == "*CONN" and words[0] == "*N":
                stars.append((self.node(words[1]), " ".join(words[2:])))
            elif words[0] != str(number):
                raise ValueError(f"a line: {line}")
            elif part == "*CAP":
                caps.append((self.node(words[1]), self.value(words[2], self.c_places)))
            elif part == "*RES":
                resistors.append((self.node(words[1]), self.node(words[2]), self.value(words[3], self.r_places)))
        return Section(self.name(name), self.value(total, self.c_places), conns, stars, caps, resistors)


# ---- all placements of a net


class Rep:
    def __init__(self, name, cin, k, r, limit, inverts):
        self.name, self.cin, self.k, self.r, self.limit, self.inverts = name, cin, k, r, limit, inverts


class Design:
    """What the library, the netlist and the constraints say of the net that repeaters are placed on."""

    def __init__(self):
        self.reps = []
        self.k = self.r = self.limit = self.arrival = None  # of the driver
        self.load, self.required, self.inverted = {}, {}, set()  # of the sinks
        self.blocked, self.allowed = set(), {}


class Tree:
    """A net as a tree below its driver, under a design."""

    def __init__(self, net, design):
        self.design, charge, sinks = design, net.charge(), net.sinks()
        near = collections.defaultdict(list)
        for one, other, value in net.resistors:
            near[one].append((other, value))
            near[other].append((one, value))
        self.order, self.above, self.r = [net.driver()], {}, {}
        for node in self.order:
            for other, value in near[node]:
                if other != self.above.get(node):
                    self.order.append(other)
                    self.above[other], self.r[other] = node, value
        self.c = {node: charge[node] + (design.load[node] if node in sinks else 0) for node in self.order}
        self.sinks, live = sinks, set()
        for sink in sinks:
            while sink in self.above:
                sink = self.above[sink]
                live.add(sink)
        ends = {node for node, _ in net.conns}
        self.places = [node for node in self.order if node in live and node not in ends and node not in design.blocked]

    def choices(self, node):
        allowed = self.design.allowed.get(node)
        return [None] + [rep for rep in self.design.reps if allowed is None or rep.name in allowed]

    def slack(self, cells):
        """The slack of a placement, or nothing where it is not good."""
        load = dict(self.c)
        for node in reversed(self.order[1:]):
            cell = cells.get(node)
            if cell and cell.limit is not None and load[node] > cell.limit:
                return None
            load[self.above[node]] += cell.cin if cell else load[node]
        root, d = self.order[0], self.design
        if d.limit is not None and load[root] > d.limit:
            return None
        delay, odd = {root: d.k + d.r * load[root]}, {root: False}
        for node in self.order[1:]:
            cell, above = cells.get(node), self.above[node]
            delay[node] = delay[above] + self.r[node] * (cell.cin if cell else load[node])
            odd[node] = odd[above]
            if cell:
                delay[node] += cell.k + cell.r * load[node]
                odd[node] ^= cell.inverts
        if any(odd[sink] != (sink in d.inverted) for sink in self.sinks):
            return None
        return min(d.required[sink] - d.arrival - delay[sink] for sink in self.sinks)

    def best(self):
        """The greatest slack of all good placements, or nothing."""
        found = None
        for choice in itertools.product(*map(self.choices, self.places)):
            slack = self.slack({node: cell for node, cell in zip(self.places, choice) if cell})
            if slack is not None and (found is None or slack > found):
                found = slack
        return found


# ---- how files are made


class Maker:
    """Makes the four files of a design, and knows what they say."""

    def __init__(self, seed, long):
        self.random, self.long = random.Random(seed), long
        self.c_unit, self.c_places = self.pick([("FF", 3), ("PF", 6)])
        self.r_unit, self.r_places = self.pick([("OHM", 3), ("KOHM", 6)])
        self.main = self.make_net(self.pick(["n1", "w[3]", "g/n1"]), False)
        self.design = self.make_design()
        others = [self.make_net(name, True) for name in ["m1", "b/m[2]", "m$3"][: self.random.randrange(4)]]
        if long:
            others.append(self.make_long())
        self.nets = [self.main, *others]
        self.random.shuffle(self.nets)
        names = [net.name for net in self.nets]
        self.asked = None if self.chance(0.6) else self.pick([*names, self.main.name, "q"])
        if long:
            self.asked, self.parts = self.pick([None, "long"]), self.random.randint(61, 64)
        else:
            self.parts = self.pick([1, 2, 2, 2, 3, 4, self.random.randint(1, 64)])

    def chance(self, of_one):
        return self.random.random() < of_one

    def pick(self, values):
        return self.random.choice(values)

    def value(self, most):
        return self.pick([0, self.random.randrange(10), self.random.randrange(most), self.random.randrange(most)])

    # what the nets are

    def make_net(self, name, may_be_refused):
        net, sinks = Net(name), self.random.randint(1, 4)
        pins = [("u1", "Z")] + [(f"u{k}", "A") for k in range(2, 2 + sinks)]
        if may_be_refused:
            pins = [(f"{name}_{owner}", leaf) for owner, leaf in pins]
            if self.chance(0.4):
                pins[-1] = (name, str(self.random.randint(1, 4)))  # a pin of an instance that is named like the net
            elif self.chance(0.2):
                pins[-1] = (name, "")
        elif name == "n1" and self.chance(0.3):
            pins[-1] = (name, "")
        net.conns = [(node, "O" if node == pins[0] or not node[1] else "I") for node in pins]
        self.random.shuffle(net.conns)
        leaves = self.random.sample([*map(str, range(9)), "02", "007", "31", "18446744073709551617"], self.random.randint(0, 6))
        inner = [(name, leaf) for leaf in leaves if (name, leaf) not in pins]
        self.join(net, pins, inner)
        self.charge(net, pins + inner)
        net.starred = [node for node in inner if self.chance(0.4)]
        for node in pins + net.starred:
            if self.chance(0.5):
                net.notes[node] = self.pick(["*C 1.5 2", "*D CELL  *L 0.1", '*S 1 "a /* b"', "*C 0 0 *S x"])
        if may_be_refused and self.chance(0.5):
            self.spoil(net, inner)
        return net

    def join(self, net, pins, inner):
        """A tree of resistors, in any order and direction."""
        reached, left = [pins[0]], pins[1:] + inner
        self.random.shuffle(left)
        for node in left:
            ends = [self.pick(reached[-3:]), node]
            self.random.shuffle(ends)
            net.resistors.append((*ends, self.value(3000 * OHM)))
            reached.append(node)
        self.random.shuffle(net.resistors)

    def charge(self, net, nodes):
        for node in nodes:
            for _ in range(self.pick([0, 1, 1, 2])):
                net.caps.append((node, self.value(60 * FF), self.pick([None, None, ("other", "1"), ("u7", "A")])))
        self.random.shuffle(net.caps)

    def spoil(self, net, inner):
        """Makes one thing wrong."""
        kind, at = self.random.randrange(10), self.random.randrange(len(net.conns))
        if kind < 3:
            net.fault = ["Section", "Reduced", "Inductive"][kind]
        elif kind == 3:
            net.conns[at] = net.conns[at][0], "B"
        elif kind == 4:
            net.conns = [(node, "O" if not node[1] else "I") for node, _ in net.conns]
        elif kind == 5:
            net.conns = [(node, "O" if node[1] else "I") for node, _ in net.conns]
        elif kind == 6 and net.resistors:
            net.resistors.pop()
        elif kind == 7 and net.resistors:
            net.resistors.append((*self.pick(net.resistors)[:2], OHM))
        elif kind == 8 and inner:
            net.conns = [(node, way) for node, way in net.conns if drives(node, way)]
            self.keep_nodes(net, [node for node, _ in net.conns] + inner)
        else:
            net.caps.append((net.conns[0][0], MOST_CHARGE + 1, None))

    def keep_nodes(self, net, nodes):
        """A net of these nodes alone, in a row."""
        net.resistors = [(one, other, OHM) for one, other in itertools.pairwise(nodes)]
        net.caps = [cap for cap in net.caps if cap[0] in nodes]

    def make_long(self):
        net, count = Net("long"), self.random.randint(1020, 1075)
        net.conns = [(("u90", "Z"), "O"), (("u91", "A"), "I")]
        nodes = [("u90", "Z"), *(("long", str(k)) for k in range(7, 6 + count)), ("u91", "A")]
        net.resistors = [(one, other, 1000 + i) for i, (one, other) in enumerate(itertools.pairwise(nodes))]
        return net

    # what the other files say

    def make_design(self):
        d, random = Design(), self.random
        kinds = ["BUF", "INV", "BIG"] if self.chance(0.6) else ["BUF", "INV"]
        for name in kinds:
            big = 1 + 2 * (name == "BIG")
            cin, k, r = random.randint(1, 4) * big * FF, random.randint(1, 30) * PS, random.randint(200, 2000) * OHM // big
            limit = self.pick([None, None, random.randrange(20 * FF, 200 * FF)])
            d.reps.append(Rep(name, cin, k, r, limit, name == "INV"))
        d.k, d.r = random.randint(0, 20) * PS, random.randint(300, 3000) * OHM
        d.limit, d.arrival = self.pick([None, None, None, random.randrange(50 * FF, 300 * FF)]), random.randint(-50, 50) * PS
        for sink in self.main.sinks():
            d.load[sink], d.required[sink] = random.randint(0, 9) * FF, random.randint(0, 900) * PS
            if self.chance(0.15):
                d.inverted.add(sink)
        inner = [node for node in self.main.nodes() if node not in dict(self.main.conns)]
        d.blocked = {node for node in inner if self.chance(0.15)} | {(self.main.name, str(k)) for k in range(1, 30) if self.chance(0.05)}
        d.allowed = {node: random.sample(kinds, 1) for node in inner if self.chance(0.15)}
        return d

    def library(self):
        yield "library (made) {\n  delay_model : generic_cmos;\n  time_unit : \"1ps\";\n  capacitive_load_unit (1, ff);\n"
        d = self.design
        yield from self.cell("DRV", [], d.k, d.r, d.limit)
        for rep in d.reps:
            yield from self.cell(rep.name, [("A", rep.cin)], rep.k, rep.r, rep.limit, "!A" if rep.inverts else "A")
        for load in sorted(set(d.load.values())):
            yield f"  cell (LD{load}) {{ area : 1; pin (A) {{ direction : input; capacitance : {decimal(load, 3)}; }} }}\n"
        yield "}\n"

    def cell(self, name, inputs, k, r, limit, function=None):
        yield f"  cell ({name}) {{ area : 1;\n"
        for pin, cap in inputs:
            yield f"    pin ({pin}) {{ direction : input; capacitance : {decimal(cap, 3)}; }}\n"
        most = f"max_capacitance : {decimal(limit, 3)}; " if limit is not None else ""
        says = f'function : "{function}"; ' if function else ""
        yield f"    pin (Z) {{ direction : output; {most}{says}\n"
        yield f'      timing () {{ related_pin : "A"; intrinsic_rise : {decimal(k, 9)}; intrinsic_fall : 0;'
        yield f" rise_resistance : {decimal(r, 6)}; fall_resistance : 0; }}\n    }}\n  }}\n"

    def netlist(self):
        name = self.main.name
        ident = {"n1": "n1", "w[3]": "w[3]", "g/n1": "\\g/n1 "}[name]
        port = (name, "") in self.design.load
        yield f"module top ({ident if port else ''});\n" + (f"output {ident};\n" if port else "") + "wire [9:0] w;\n"
        for node, way in self.main.conns:
            if drives(node, way):
                yield f"DRV {node[0]} (.Z({ident}));\n"
            elif node[1]:
                yield f"LD{self.design.load[node]} {node[0]} (.A({ident}));\n"
        yield "endmodule\n"

    def constraints(self):
        d = self.design
        yield "vgcons 2\n"
        yield f"arrival {printed(self.main.driver())} {decimal(d.arrival, 9)}\n"
        for sink, time in d.required.items():
            yield f"required {printed(sink)} {decimal(time, 9)}\n"
            if not sink[1]:
                yield f"load {printed(sink)} {decimal(d.load[sink], 3)}\n"
        yield from (f"want {printed(sink)} inverted\n" for sink in d.inverted)
        yield from (f"block {printed(node)}\n" for node in sorted(d.blocked))
        yield from (f"allow {printed(node)} {' '.join(cells)}\n" for node, cells in d.allowed.items())

    # the text of the parasitics

    def spell(self, name):
        """A name as SPEF text: a bracket or a divider with an escape or without one, other marks with one."""
        if name in self.indices and self.chance(0.5):
            return self.indices[name]
        return self.full(name)

    def full(self, name):
        marks = {mark: self.pick([mark, "\\" + mark]) for mark in "[]/"}
        return "".join(mark if re.match(r"\w", mark) else marks.get(mark, "\\" + mark) for mark in name)

    def node(self, node):
        return self.spell(node[0]) + (f":{node[1]}" if node[1] else "")

    def number(self, value, places):
        text = decimal(value, places)
        return self.pick([text, text, text, f"{decimal(value // 2, places)}:{text}:{decimal(value + 1, places)}"])

    def line(self, *words):
        space = self.pick([" ", " ", "  ", "\t"])
        comment = " // said" if self.chance(0.05) else " /* said */" if self.chance(0.05) else ""
        return self.pick(["", "", " "]) + space.join(words) + comment + self.eol

    def parts_of(self, net):
        """The lines of a section, in the order in which nodes are to be named."""
        note = lambda node: [net.notes[node]] if node in net.notes else []
        conns = [self.line("*I" if node[1] else "*P", self.node(node), way, *note(node)) for node, way in net.conns]
        conns += [self.line("*N", self.node(node), *note(node)) for node in net.starred]
        yield "*CONN" + self.eol + "".join(conns)
        caps = []
        for k, (node, value, other) in enumerate(net.caps):
            nodes = [self.node(node)] + ([printed(other)] if other else [])
            self.random.shuffle(nodes)
            caps.append(self.line(str(k + 5), *nodes, self.number(value, self.c_places)))
        half = self.random.randint(0, len(caps))
        yield "*CAP" + self.eol + "".join(caps[:half])
        if half < len(caps):
            yield "*CAP" + self.eol + "".join(caps[half:])
        yield "*RES" + self.eol
        for k, (one, other, value) in enumerate(net.resistors):
            yield self.line(f"r{k}", self.node(one), self.node(other), self.number(value, self.r_places))
        if net.fault == "Section":
            yield "9 bad" + self.eol
        if net.fault == "Inductive":
            yield "*INDUC" + self.eol

    def section(self, net):
        """The text from the head up to *END, and at which of its lines the fault is."""
        head = f"*{'R' if net.fault == 'Reduced' else 'D'}_NET {self.spell(net.name)} {self.pick(['0', '1.5', '7 *V 1'])}{self.eol}"
        pieces = [head, *self.parts_of(net)]
        return "".join(pieces) + "*END", "".join(pieces[:-1]).count("\n")

    def spef(self):
        """The pieces of the text: each is kept, or is the section of a net."""
        self.eol = self.pick(["\n", "\n", "\n", "\r\n"])
        owners = sorted({node[0] for net in self.nodes_by_net() for node in net} | {net.name for net in self.nets})
        mapped = [name for name in owners if self.chance(0.3)]
        self.indices = {}
        rows = [f"*{k} {self.full(name)}\n" for k, name in enumerate(mapped, 1)]
        self.indices = {name: f"*{k}" for k, name in enumerate(mapped, 1)}
        yield HEADER.format(c_unit=self.c_unit, r_unit=self.r_unit) + "*NAME_MAP\n" + "".join(rows), None
        for net in self.nets:
            yield self.pick(["", "\n", "// *D_NET\n", "/* two\n *END\n lines */ ", " \t"]), None
            text, at = self.section(net)
            yield text, (net, at)
            yield self.pick(["\n", "\n", "\r\n", " // end\n", " and more\n"]), None
        yield self.pick(["", "// last", "\n\n"]), None

    def nodes_by_net(self):
        return [net.nodes() for net in self.nets]

    def write(self, folder):
        os.makedirs(folder, exist_ok=True)
        self.pieces, line = [], 1
        for text, of in self.spef():
            if of:
                of[0].line = line + of[1]
            self.pieces.append((text, of and of[0]))
            line += text.count("\n")
        texts = {"a.spef": [text for text, _ in self.pieces], "l.lib": self.library(), "v.v": self.netlist(), "c.txt": self.constraints()}
        for name, pieces in texts.items():
            with open(os.path.join(folder, name), "w", encoding="ascii", newline="") as out:
                out.writelines(pieces)


# ---- what the program says


class Differs(Exception):
    pass


class Trial:
    """A design, and what the program makes of it."""

    def __init__(self, maker, folder):
        self.maker, self.folder, self.counts = maker, folder, collections.Counter()
        self.answers = {}  # of each run: its status, and what it printed

    def file(self, name):
        return os.path.join(self.folder, name)

    def runs(self):
        """The words of all runs, in their order."""
        maker = self.maker
        which = ["--net", maker.asked] if maker.asked else ["--all"]
        cut = [*which, "--parts", str(maker.parts), "--out-spef", self.file("o.spef")]
        yield "segment", ["segment", "--spef", self.file("a.spef"), *cut]
        others = ["--lib", self.file("l.lib"), "--verilog", self.file("v.v"), "--cons", self.file("c.txt"), "--net", maker.main.name]
        for name in ["a.spef", "o.spef"]:
            spef = ["--spef", self.file(name)]
            for net in self.asked_nets():
                yield f"wire {net} {name}", ["wire", *spef, "--net", net]
            yield f"time {name}", ["time", *spef, *others]
            yield f"best {name}", ["best", *spef, *others, "--out-spef", self.file("x.spef"), "--out-verilog", self.file("x.v")]

    def expect(self, what, found, told):
        if found != told:
            raise Differs(f"{what}\n--- the program\n{found}\n--- the definition\n{told}\n")

    def asked_nets(self):
        maker = self.maker
        return [maker.asked] if maker.asked else [net.name for net in maker.nets]

    def check_report(self):
        maker, by_name, lines, self.cut = self.maker, {net.name: net for net in self.maker.nets}, "", set()
        for name in self.asked_nets():
            refusal = by_name[name].refusal(maker.parts) if name in by_name else "1 UnknownNet"
            if refusal:
                lines += f"net {name} refused {refusal}\n"
                self.counts[refusal.split(" ")[1]] += 1
            else:
                net = by_name[name]
                lines += f"net {name} parts {maker.parts} nodes {len(net.nodes()) + len(net.resistors) * (maker.parts - 1)}\n"
                self.cut.add(name)
                self.counts["cut"] += 1
        self.expect("report", self.answers["segment"], (2 if "refused" in lines else 0, lines))

    def check_text(self):
        """Whether all that is kept is there, and what the other sections say."""
        with open(self.file("o.spef"), encoding="ascii", newline="") as file:
            text = file.read()
        reader, at = Reader(self.maker.c_places, self.maker.r_places), 0
        for piece, net in self.maker.pieces:
            if net is None or net.name not in self.cut:
                self.expect("kept text", text[at : at + len(piece)], piece)
                at += len(piece)
                continue
            end = text.index("\n*END", at) + len("\n*END")
            try:
                found = reader.read(text[at:end])
            except (ValueError, AttributeError) as fault:
                raise Differs(f"a section that is not read: {fault}\n{text[at:end]}\n") from fault
            difference = found.difference(section_of(net, self.maker.parts))
            if difference:
                raise Differs(f"net {net.name}, {difference}\n")
            at = end
        self.expect("text at the end", text[at:], "")

    def check_delays(self):
        for what in ["time", *(f"wire {net}" for net in self.asked_nets())]:
            was, now = (self.answers[f"{what} {name}"] for name in ["a.spef", "o.spef"])
            if "Section" not in was[1]:  # the number of the line may be another one
                self.expect(what, now, was)
            if what == "time" and was[0]:
                raise Differs(f"time: {was}\n")

    def best(self, spef):
        """The best slack that the program finds, or nothing."""
        status, out = self.answers[f"best {spef}"]
        words = out.split()
        if status > 1 or words[2] not in ["slack", "none"]:
            raise Differs(f"best: {status} {out}")
        return int(words[3]) if words[2] == "slack" else None

    def check_best(self):
        main, maker = self.maker.main, self.maker
        was, now = self.best("a.spef"), self.best("o.spef")
        if was is not None and (now is None or now < was):
            raise Differs(f"best: the slack falls from {was} to {now}\n")
        self.counts["better"] += now != was
        after = cut(main, maker.parts) if main.name in self.cut else main
        for what, found, net in [("before", was, main), ("after", now, after)]:
            tree = Tree(net, maker.design)
            if len(tree.places) <= MOST_PLACES:
                self.expect(f"best {what}", found, tree.best())
                self.counts[f"tried {what}"] += 1

    def check(self):
        self.check_report()
        self.check_text()
        self.check_delays()
        self.check_best()


def run_built(program, trials):
    for trial in trials:
        for name, words in trial.runs():
            done = subprocess.run([program, "--mode", *words], capture_output=True, text=True, timeout=120)
            trial.answers[name] = done.returncode, done.stdout


def run_unproved(trials, work):
    """The same of the program as `rt try` compiles it, all runs of all designs one after another."""
    runs = [(trial, name, words) for trial in trials for name, words in trial.runs()]
    cases = os.path.join(work, "cases")
    os.mkdir(cases)
    for k, (_, _, words) in enumerate(runs):
        for end, text in [("", ""), (".args", "\n".join(["--mode", *words]) + "\n")]:
            with open(os.path.join(cases, f"{k:07}{end}"), "w", encoding="ascii") as out:
                out.write(text)
    words = ["rt", "try", "--seconds", "3600", "--cases", cases]
    done = subprocess.run(words, cwd=os.path.join(HERE, "..", "crates", "vginsert"), capture_output=True, text=True)
    printed = dict(re.findall(r"^== (\d{7})\n((?:(?!== \d{7}$).*\n)*)", done.stdout, re.M))
    statuses = dict(re.findall(r"^case=(\d{7}) run=ended status=(\d+)", done.stderr, re.M))
    if len(statuses) != len(runs):
        sys.exit(f"segment_compare.py: not all runs were done\n{done.stdout[-2000:]}{done.stderr[-2000:]}")
    for k, (trial, name, _) in enumerate(runs):
        trial.answers[name] = int(statuses[f"{k:07}"]), printed.get(f"{k:07}", "")


def main():
    words = argparse.ArgumentParser(usage="segment_compare.py PROGRAM|unproved [COUNT] [--seed SEED] [--keep FOLDER]")
    words.add_argument("program")
    words.add_argument("count", type=int, nargs="?", default=1000)
    words.add_argument("--seed", type=int, default=1)
    words.add_argument("--keep")
    given = words.parse_args()
    counts, differ = collections.Counter(), 0
    with tempfile.TemporaryDirectory() as work:
        trials = [Trial(Maker(f"{given.seed} {k}", k % 100 == 99), os.path.join(work, str(k))) for k in range(given.count)]
        for trial in trials:
            trial.maker.write(trial.folder)
        if given.program == "unproved":
            run_unproved(trials, work)
        else:
            run_built(os.path.abspath(given.program), trials)
        for k, trial in enumerate(trials):
            try:
                trial.check()
            except Differs as difference:
                differ += 1
                if differ <= 5:
                    print(f"--- design {k}, {trial.maker.parts} parts, net {trial.maker.asked or 'all'}: {difference}")
                if given.keep:
                    shutil.copytree(trial.folder, os.path.join(given.keep, f"{given.seed}_{k}"), dirs_exist_ok=True)
            counts += trial.counts
    told = ", ".join(f"{count} {kind}" for kind, count in sorted(counts.items()))
    print(f"{given.count} designs, of which {differ} differ: {told}")
    sys.exit(1 if differ else 0)


if __name__ == "__main__":
    main()
