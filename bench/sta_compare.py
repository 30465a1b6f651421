#!/usr/bin/env python3
"""Compares `--mode sta` with a plain enumeration of all paths, on small designs that it makes at random.

    sta_compare.py PROGRAM [COUNT] [--seed SEED] [--keep FOLDER]

PROGRAM is the program, as crates/vginsert/out/vginsert, which `make` builds, or the word `unproved`: then `rt try` compiles
it without a proof, as a part of `tests_runs`, and runs it. COUNT designs are made, 2,000 if it is not given, from SEED, 1 if
it is not given: the same words make the same designs. Of each the whole report, the status and standard error are compared.
The first five that differ are shown, those that differ are copied to FOLDER, and the status of this script is then 1.

A design has up to ten nets with parasitics, some without, and up to a dozen instances of cells with one to three inputs
and one or two outputs, whose timing groups name some of the inputs, once or twice, or pins that are not there. Outputs are
open or of several nets, ports drive nets or end paths, nets lead to themselves and to each other; half of the designs have
few different values, so that slacks tie. Some nets are refused, for each reason of a net but a few faults of their lines;
some endpoints have no required time. Names are plain, bits, escaped, or indices of a name map.

The enumeration shares nothing with the program: it knows the design as it was made, before it is text, and its numbers are
whole. It walks along each path from each start to each endpoint, sums its delays and takes the least slack: of all paths,
and of the paths through each net. A net is behind a cycle where a walk from some net comes back to that net and on to it.
"""
import argparse
import collections
import os
import random
import re
import shutil
import subprocess
import sys
import tempfile

HERE = os.path.dirname(os.path.abspath(__file__))
OPTIONS = {"spef": "a.spef", "lib": "l.lib", "verilog": "v.v", "cons": "c.txt"}
HEADER = """*SPEF "IEEE 1481-1998"
*DESIGN "top"
*DATE "none"
*VENDOR "none"
*PROGRAM "sta_compare.py"
*VERSION "1"
*DESIGN_FLOW "none"
*DIVIDER /
*DELIMITER :
*BUS_DELIMITER [ ]
*T_UNIT 1 PS
*C_UNIT 1 {c_unit}
*R_UNIT 1 {r_unit}
*L_UNIT 1 HENRY
"""
PS, FF, OHM, KOHM = 10**9, 1000, 1000, 10**6  # in zs, aF, mΩ
TOO_LARGE = 10**11 + FF  # aF


def decimal(number, places):
    """A number as text that is read as `number` at so many decimal places."""
    sign, digits = "-" if number < 0 else "", str(abs(number)).rjust(places + 1, "0")
    fraction = digits[len(digits) - places :].rstrip("0") if places else ""
    return sign + digits[: len(digits) - places] + ("." + fraction if fraction else "")


# ---- what a design is


class Arc:
    """A timing group: the text of its related pins, if it has one, and its times and resistances."""

    def __init__(self, related, intrinsic, resistance):
        self.related, self.intrinsic, self.resistance = related, intrinsic, resistance


class CellPin:
    def __init__(self, name, direction, cap, arcs):
        self.name, self.direction, self.cap, self.arcs = name, direction, cap, arcs

    def drive(self):
        """The greatest intrinsic time and the greatest resistance of an output, where it has both."""
        times = [time for arc in self.arcs for time in arc.intrinsic]
        resistances = [value for arc in self.arcs for value in arc.resistance]
        return (max(times), max(resistances)) if self.direction == "output" and times and resistances else None

    def related(self):
        return {name for arc in self.arcs for name in (arc.related or "").split()} if self.direction == "output" else set()


class Instance:
    """An instance and the links of its pins: a net, or a list of nets, or nothing."""

    def __init__(self, name, cell):
        self.name, self.cell, self.links = name, cell, {}


class Section:
    """The parasitics of a net: its connections as (node, direction), capacitors, and resistors in the order of the file."""

    def __init__(self, net):
        self.net, self.conns, self.caps, self.resistors = net, [], [], []
        self.reduced = self.inductive = self.foreign = False


class Design:
    def __init__(self):
        self.cells, self.instances, self.ports, self.tied, self.sections = {}, [], {}, set(), []
        self.nets = []  # those of the netlist
        self.required, self.arrival, self.drive, self.load = {}, {}, {}, {}
        self.default, self.noise = None, []

    def cell_pin(self, cell, name):
        """The first pin of this name of a cell."""
        return next((pin for pin in self.cells.get(cell, []) if pin.name == name), None)

    def pins_on(self, net):
        """The pins that are linked to this net alone, by their nodes, with their instances."""
        return {f"{i.name}:{pin}": (i, pin) for i in self.instances for pin, link in i.links.items() if link == net}

    def ends_of(self, net):
        return set(self.pins_on(net)) | ({net} if net in self.ports else set())


# ---- how one is made


class Maker:
    """Makes a design. `coarse` ones have few different values, and a `wild` one may have any cycle."""

    def __init__(self, seed):
        self.random = random.Random(seed)
        self.design = Design()
        self.coarse, self.wild = self.chance(0.5), self.chance(0.2)
        self.spoilt = 0.03 if self.chance(0.35) else 0  # how often something is wrong
        self.make_cells()
        self.make_netlist()
        self.make_sections()
        self.make_constraints()

    def chance(self, of_one):
        return self.random.random() < of_one

    def pick(self, values):
        return self.random.choice(values)

    def value(self, unit, most):
        """A value of up to so many units: in coarse designs none or all of it."""
        return self.pick([0, 0, most * unit]) if self.coarse else self.random.randrange(most * unit + 1)

    def make_arc(self, inputs):
        names = [name for name in inputs if self.chance(0.85)]
        if self.chance(0.15):
            names += [self.pick(inputs), self.pick(["ZZ", *inputs])]
        self.random.shuffle(names)
        related = self.pick([" ", "  ", " \t"]).join(names)
        times, resistances = self.value(PS, 20), self.value(KOHM, 2)
        few = self.value(PS, 5), self.value(KOHM, 1)
        return Arc(related, [times, few[0]], [resistances, few[1]])

    def make_output(self, name, inputs):
        if self.chance(self.spoilt):
            return CellPin(name, "output", None, [Arc(" ".join(inputs), [PS], [])])
        arcs = [self.make_arc(inputs) for _ in range(1 + self.chance(0.3))]
        if self.chance(0.1):
            arcs.append(Arc(None, [self.value(PS, 30)], [self.value(KOHM, 1)]))
        return CellPin(name, "inout" if self.chance(self.spoilt) else "output", None, arcs)

    def make_cell(self, inputs, outputs):
        pins = []
        for name in inputs:
            cap = None if self.chance(self.spoilt) else self.value(FF, 10)
            pins.append(CellPin(name, "inout" if self.chance(0.1) else "input", cap, []))
        pins += [self.make_output(name, inputs) for name in outputs]
        if self.chance(0.1):
            pins.append(CellPin(outputs[0], "output", None, [Arc("A", [PS], [KOHM])]))  # its name is taken
        return pins

    def make_cells(self):
        cells = self.design.cells
        cells["BUF"] = self.make_cell(["A"], ["Z"])
        cells["AND"] = self.make_cell(["A", "B"], ["Z"])
        cells["MUX"] = self.make_cell(["A", "B", "S"], ["Z"])
        cells["ADD"] = self.make_cell(["A", "B"], ["S", "CO"])
        setup = [Arc("CK", [PS], [])]
        cells["DFF"] = [
            CellPin("CK", "input", self.value(FF, 10), []),
            CellPin("D", "input", self.value(FF, 10), setup),
            CellPin("Q", "output", None, [Arc("CK", [self.value(PS, 20)], [self.value(KOHM, 2)])]),
        ]

    def make_netlist(self):
        """Puts cells between nets, which are numbers here and get their names at the end."""
        d, count = self.design, self.random.randint(1, 10)
        undriven, drivers = list(range(count)), {}
        names = iter([self.pick([f"u{k}", f"b/u{k}", f"b/u[{k}]"]) for k in range(40)])
        for k in range(self.random.randint(1, count + 2)):
            cell = "NONE" if self.chance(self.spoilt / 3) else self.pick(["BUF", "AND", "AND", "MUX", "ADD", "DFF"])
            instance = Instance(next(names), cell)
            d.instances.append(instance)
            for pin in self.pins_of(cell, True):
                if undriven and self.chance(0.9):
                    net = undriven.pop(self.random.randrange(len(undriven)))
                    instance.links[pin], drivers[net] = net, (k, pin)
                elif self.chance(0.7):
                    instance.links[pin] = self.pick([None, ["x1", "x2"], [], "x3"])
        for k, instance in enumerate(d.instances):
            for pin in self.pins_of(instance.cell, False):
                nets = [net for net in range(count) if self.wild or drivers.get(net, (-1,))[0] < k]
                instance.links[pin] = self.pick(nets) if nets and self.chance(0.93) else self.pick([None, "y", [], ["x1", "x2"]])
        ports = {net: "input" for net in undriven if not self.chance(self.spoilt / 2)}
        inputs = [i.links[pin] for i in d.instances for pin in self.pins_of(i.cell, False)]
        taken = {link for link in inputs if isinstance(link, int)}
        for net in range(count):
            if net in drivers and self.chance(0.1 if net in taken else 0.7):
                ports[net] = "inout" if self.chance(self.spoilt / 2) else "output"
            elif net not in taken and not self.chance(self.spoilt / 2):
                d.instances.append(Instance(next(names), "BUF"))
                d.instances[-1].links = {"A": net, "Z": None}
        self.name_nets(count, ports, drivers)

    def pins_of(self, cell, drives):
        """The names of the pins of a cell that drive nets, or of the others. A cell that is not in the library has some, too."""
        pins = self.design.cells.get(cell, [CellPin("A", "input", 0, []), CellPin("Z", "output", 0, [Arc("A", [], [])])])
        return list(dict.fromkeys(pin.name for pin in pins if (bool(pin.arcs) and pin.name != "D") == drives))

    def name_nets(self, count, ports, drivers):
        d = self.design
        d.nets = [self.pick([f"n{k}", f"g/n{k}"] if k in ports else [f"n{k}", f"w[{k}]", f"g/n{k}"]) for k in range(count)]
        d.ports = {d.nets[k]: way for k, way in ports.items()}
        for instance in d.instances:
            instance.links = {pin: d.nets[link] if isinstance(link, int) else link for pin, link in instance.links.items()}
        self.drivers = {d.nets[k]: f"{d.instances[at].name}:{pin}" for k, (at, pin) in drivers.items()}
        if self.chance(self.spoilt):
            d.tied.add(self.pick(d.nets))

    def is_driver(self, net, node):
        return self.design.ports[net] == "input" if node == net else self.drivers.get(net) == node

    def make_section(self, net):
        d, section = self.design, Section(net)
        ends = sorted(d.ends_of(net))
        self.random.shuffle(ends)
        for node in ends:
            drives = self.is_driver(net, node)
            section.conns.append((node, "IO"[drives != (node == net)]))
        inner = [f"{net}:{k}" for k in self.random.sample(range(1, 9), self.random.randint(0, 3))]
        roots = [node for node in ends if self.is_driver(net, node)]
        others = [node for node in ends if node not in roots] + inner
        self.random.shuffle(others)
        reached = roots[:1] or others[:1]
        for node in roots[1:] + others:
            if node not in reached:
                pair = [self.pick(reached), node]
                self.random.shuffle(pair)
                section.resistors.append((*pair, self.value(OHM, 2000)))
                reached.append(node)
        self.random.shuffle(section.resistors)
        for node in self.random.sample(reached, self.random.randint(0, len(reached))):
            section.caps.append((node, self.value(FF, 20), self.pick([None, None, "other:1"])))
            if self.chance(0.2):
                section.caps.append((node, self.value(FF, 5), None))
        if section.resistors and self.chance(self.spoilt):
            self.spoil(section, reached)
        return section

    def spoil(self, section, nodes):
        """Makes one thing wrong."""
        at = self.random.randrange(len(section.conns)) if section.conns else 0
        kind = self.random.randrange(9)
        if kind == 0:
            section.reduced = True
        elif kind == 1:
            section.inductive = True
        elif kind == 2 and section.conns:
            section.conns[at] = section.conns[at][0], "B"
        elif kind == 3 and section.conns:
            section.conns[at] = section.conns[at][0], "OI"[section.conns[at][1] == "O"]
        elif kind == 4:
            section.resistors.append((*section.resistors[0][:2], self.value(OHM, 500)))
        elif kind == 5:
            section.caps.append((f"{section.net}:77", FF, None))
        elif kind == 6:
            section.foreign = True
        elif kind == 7:
            section.caps.append((nodes[0], TOO_LARGE, None))
        else:
            section.conns.append(("u99:A", "I"))
            section.resistors.append(("u99:A", nodes[0], OHM))

    def make_sections(self):
        d = self.design
        kept = [net for net in d.nets if self.chance(0.93) and (d.ends_of(net) or self.chance(0.5))]
        if self.chance(0.02):
            kept = []
        d.sections = [self.make_section(net) for net in kept]
        if self.chance(self.spoilt):
            section = Section("n55")
            section.conns, section.resistors = [("u1:Z", "O"), ("u2:A", "I")], [("u1:Z", "u2:A", OHM)]
            d.sections.append(section)
        self.random.shuffle(d.sections)

    def make_constraints(self):
        d, rows = self.design, self.pick([0.3, 0.7, 1])
        time = lambda most: self.pick([most, most, 2 * most]) * PS if self.coarse else self.value(PS, most)
        if self.chance(0.75):
            d.default = time(100)
        for section in d.sections:
            for node, _ in section.conns:
                if self.chance(rows):
                    d.required[node] = time(100)
                if self.chance(0.4):
                    d.arrival[node] = time(30)
                if self.chance(0.2):
                    d.noise.append(f"want {node} inverted")
        for port in d.ports:
            if self.chance(0.7):
                d.drive[port] = self.value(KOHM, 2), time(10)
            if self.chance(0.7):
                d.load[port] = self.value(FF, 10)
        d.noise += [f"block {net}:{k}" for net in d.nets for k in range(1, 4) if self.chance(0.2)]


# ---- the text of one


class Writer:
    """Writes the four files of a design, in units and with names that vary from design to design."""

    def __init__(self, design, seed):
        self.design, self.random = design, random.Random(f"{seed} text")
        self.time, self.load = self.random.randrange(4), self.random.randrange(7)
        self.c_unit, self.c_places = self.random.choice([("FF", 3), ("PF", 6)])
        self.r_unit, self.r_places = self.random.choice([("OHM", 3), ("KOHM", 6)])
        self.lines = {}  # the line of a section's foreign capacitor

    def library(self):
        times = ["1ps", "10ps", "100ps", "1ns"][self.time]
        unit = "ff" if self.load < 4 and (self.load < 3 or self.random.random() < 0.5) else "pf"
        count = 10 ** (self.load - (3 if unit == "pf" else 0))
        yield f'library (random) {{\n  time_unit : "{times}";\n  capacitive_load_unit ({count}, {unit});\n'
        for name, pins in self.design.cells.items():
            yield f"  cell ({name}) {{ area : 1;\n"
            for pin in pins:
                yield f"    pin ({pin.name}) {{ direction : {pin.direction};"
                if pin.cap is not None:
                    yield f" capacitance : {decimal(pin.cap, 3 + self.load)};"
                yield from map(self.arc, pin.arcs)
                yield " }\n"
            yield "  }\n"
        yield "}\n"

    def arc(self, arc):
        text = f'\n      timing () {{ related_pin : "{arc.related}";' if arc.related is not None else "\n      timing () {"
        for edge, time in zip(["rise", "fall"], arc.intrinsic):
            text += f" intrinsic_{edge} : {decimal(time, 9 + self.time)};"
        for edge, value in zip(["rise", "fall"], arc.resistance):
            text += f" {edge}_resistance : {decimal(value, 6 + self.time - self.load)};"
        return text + " }"

    def ident(self, name):
        return f"\\{name} " if "/" in name else name

    def link(self, link):
        if isinstance(link, list):
            return "{" + ", ".join(map(self.ident, link)) + "}" if link else "1'b0"
        return self.ident(link) if link else ""

    def netlist(self):
        d = self.design
        yield f"module top ({', '.join(map(self.ident, d.ports))});\nwire [9:0] w;\n"
        yield from (f"{direction} {self.ident(port)};\n" for port, direction in d.ports.items())
        yield from (f"assign other = {self.ident(net)};\n" for net in d.tied)
        for instance in d.instances:
            pins = ", ".join(f".{pin}({self.link(link)})" for pin, link in instance.links.items())
            yield f"{instance.cell} {self.ident(instance.name)} ({pins});\n"
        yield "endmodule\n"

    def owner(self, name):
        return self.indices.get(name, name)

    def node(self, node):
        owner, colon, leaf = node.rpartition(":")
        return self.owner(owner) + colon + leaf if colon else self.owner(node)

    def spef(self):
        d, rows = self.design, []
        owners = sorted({section.net for section in d.sections} | {i.name for i in d.instances})
        mapped = [name for name in owners if self.random.random() < 0.3]
        self.indices = {name: f"*{k}" for k, name in enumerate(mapped, 1)}
        rows += HEADER.format(c_unit=self.c_unit, r_unit=self.r_unit).splitlines()
        rows += ["*NAME_MAP"] + [f"{index} {name}" for name, index in self.indices.items()]
        for section in d.sections:
            rows.append(f"*{'R' if section.reduced else 'D'}_NET {self.owner(section.net)} 0")
            rows.append("*CONN")
            rows += [f"*{'I' if ':' in node else 'P'} {self.node(node)} {way}" for node, way in section.conns]
            rows.append("*CAP")
            for k, (node, value, other) in enumerate(section.caps, 1):
                nodes = [self.node(node)] + ([other] if other else [])
                self.random.shuffle(nodes)
                rows.append(f"{k} {' '.join(nodes)} {decimal(value, self.c_places)}")
            if section.foreign:
                rows.append("99 elsewhere:1 1")
                self.lines[section.net] = len(rows)
            rows.append("*RES")
            for k, (a, b, value) in enumerate(section.resistors, 1):
                rows.append(f"{k} {self.node(a)} {self.node(b)} {decimal(value, self.r_places)}")
            rows += ["*INDUC"] * section.inductive + ["*END"]
        yield from (row + "\n" for row in rows)

    def constraints(self):
        d = self.design
        rows = [f"required {node} {decimal(time, 9)}\n" for node, time in d.required.items()]
        rows += [f"arrival {node} {decimal(time, 9)}\n" for node, time in d.arrival.items()]
        rows += [f"drive {port} {decimal(r, 3)} {decimal(k, 9)}\n" for port, (r, k) in d.drive.items()]
        rows += [f"load {port} {decimal(c, 3)}\n" for port, c in d.load.items()]
        rows += [row + "\n" for row in dict.fromkeys(d.noise)]
        if d.default is not None:
            rows.append(f"default required {decimal(d.default, 9)}\n")
        self.random.shuffle(rows)
        yield from ["vgcons 1\n", *rows]

    def write(self, folder):
        os.makedirs(folder, exist_ok=True)
        for option, pieces in [("spef", self.spef()), ("lib", self.library()), ("verilog", self.netlist()), ("cons", self.constraints())]:
            with open(os.path.join(folder, OPTIONS[option]), "w", encoding="ascii", newline="\n") as out:
                out.writelines(pieces)
        return self.lines


# ---- what is said of one


class Net:
    """A net by itself: its refusal, if there is one, or the delay from its driver to each sink, in the order of its tree."""

    def __init__(self, design, section, line):
        self.design, self.section, self.name = design, section, section.net
        self.pins = design.pins_on(self.name)
        self.nodes = list(dict.fromkeys([node for node, _ in section.conns] + self.inner_nodes()))
        self.drivers = [node for node, way in section.conns if way == "IO"[":" in node]]
        self.sinks = [node for node, _ in section.conns if node not in self.drivers]
        self.delays = {}
        self.refusal = self.first_refusal(line)

    def inner_nodes(self):
        named = [node for node, _, _ in self.section.caps] + [node for a, b, _ in self.section.resistors for node in (a, b)]
        return [node for node in named if node.startswith(self.name + ":")]

    def first_refusal(self, line):
        d, section = self.design, self.section
        if self.name not in d.nets:
            return "1 UnknownNet"
        if section.foreign and not section.reduced:
            return f"2 Section Foreign line {line}"
        if section.reduced:
            return "3 Reduced"
        if section.inductive:
            return "4 Inductive"
        if any(way == "B" for _, way in section.conns) or d.ports.get(self.name) == "inout":
            return "5 Bidirectional"
        if len(self.drivers) != 1:
            return "7 ManyDrivers" if self.drivers else "6 NoDriver"
        if not self.is_connected():
            return "8 Mismatch"
        if self.is_tied():
            return "9 Tied"
        return self.drive_or_load() or self.tree()

    def is_connected(self):
        ways = {"input": "I", "output": "O"}
        conns = {node for node, _ in self.section.conns}
        port = [way for node, way in self.section.conns if node == self.name]
        return conns == self.design.ends_of(self.name) and all(ways.get(self.design.ports[self.name]) == way for way in port)

    def is_tied(self):
        links = [link for i in self.design.instances for link in i.links.values()]
        return self.name in self.design.tied or any(isinstance(link, list) and self.name in link for link in links)

    def library_pin(self, node):
        instance, pin = self.pins[node]
        return self.design.cell_pin(instance.cell, pin)

    def drive_or_load(self):
        """Whether the library has no drive or no load. Keeps the drive and the loads."""
        driver, d = self.drivers[0], self.design
        if ":" in driver:
            pin = self.library_pin(driver)
            drive = pin and pin.drive()
            if drive is None:
                return "10 NoDrive"
            self.k, self.r = drive
        else:
            self.r, self.k = d.drive.get(driver, (0, 0))
        self.loads = {}
        for node in self.sinks:
            pin = self.library_pin(node) if ":" in node else CellPin(node, "input", d.load.get(node, 0), [])
            if pin is None or pin.cap is None:
                return f"11 NoLoad {node}"
            self.loads[node] = pin.cap
        return None

    def tree(self):
        """Whether the net is no tree, has no sink or is too large. Keeps the tree and the delays."""
        near = {node: [] for node in self.nodes}
        for a, b, r in self.section.resistors:
            near[a].append((b, r))
            near[b].append((a, r))
        above, order = {self.drivers[0]: None}, [self.drivers[0]]
        for node in order:
            for other, r in near[node]:
                if other not in above:
                    above[other] = node, r
                    order.append(other)
        floating = [node for node in self.nodes if node not in above]
        if floating:
            return f"12 Floating {floating[0]}"
        if len(self.section.resistors) != len(self.nodes) - 1:
            return "13 Loop"
        if not self.sinks:
            return "14 NoSink"
        below = {node: self.loads.get(node, 0) for node in order}
        for node, value, _ in self.section.caps:
            below[node] += value
        if sum(below.values()) > 10**11:
            return "16 TooLarge"
        for node in reversed(order[1:]):
            below[above[node][0]] += below[node]
        self.delays[order[0]] = self.k + self.r * below[order[0]]
        for node in order[1:]:
            self.delays[node] = self.delays[above[node][0]] + above[node][1] * below[node]
        self.ends = [node for node in order if node in self.sinks]
        return None


class Answer:
    """What is said of a design, by enumeration."""

    def __init__(self, design, lines):
        self.design = design
        self.nets = [Net(design, section, lines.get(section.net)) for section in design.sections]
        self.number = {net.name: v for v, net in enumerate(self.nets)}
        self.leads = {(v, node): self.led_from(net, node) for v, net in enumerate(self.nets) if not net.refusal for node in net.ends}
        self.status, self.text, self.kind = self.say()

    def led_from(self, net, node):
        """The nets to which a sink leads."""
        if node not in net.pins:
            return []
        instance, pin = net.pins[node]
        led = []
        for other, link in instance.links.items():
            output = self.design.cell_pin(instance.cell, other)
            if output and pin in output.related() and isinstance(link, str) and link in self.number:
                led.append(self.number[link])
        return led

    def required_at(self, node):
        return self.design.required.get(node, self.design.default)

    def refusal(self, v, net):
        """Why a net is refused, by itself or for an endpoint."""
        if net.refusal:
            return net.refusal
        free = [node for node in net.ends if not self.leads[v, node] and self.required_at(node) is None]
        return f"15 Unconstrained {free[0]}" if free else None

    def reached_from(self, v):
        """The nets to which sinks lead from net v, one after the other, in at least one step."""
        reached, ahead = set(), [v]
        while ahead:
            u = ahead.pop()
            for node in self.nets[u].ends:
                new = set(self.leads[u, node]) - reached
                reached |= new
                ahead += new
        return reached

    def paths(self, v, nets, delay):
        """All ways on from net v: the nets on the path, its endpoint with its net, and its delay."""
        for node in self.nets[v].ends:
            total = delay + self.nets[v].delays[node]
            if not self.leads[v, node]:
                yield [*nets, v], (v, self.nets[v].ends.index(node)), node, total
            for w in self.leads[v, node]:
                yield from self.paths(w, [*nets, v], total)

    def say(self):
        for v, net in enumerate(self.nets):
            refusal = self.refusal(v, net)
            if refusal:
                return 2, f"net {net.name} refused {refusal}\n", "refused " + refusal.split()[1]
        reached = [self.reached_from(v) for v in range(len(self.nets))]
        around = [v for v in range(len(self.nets)) if v in reached[v]]
        behind = sorted(w for v in around for w in reached[v])
        if behind:
            return 2, f"design refused Cycle {self.nets[behind[0]].name}\n", "cycles"
        if not self.nets:
            return 2, "design refused NoPath\n", "no net"
        led = {w for nets in self.leads.values() for w in nets}
        found, through = [], collections.defaultdict(list)
        for start in set(range(len(self.nets))) - led:
            arrival = self.design.arrival.get(self.nets[start].drivers[0], 0)
            for nets, place, node, delay in self.paths(start, [], 0):
                slack = self.required_at(node) - arrival - delay
                found.append((slack, place, node))
                for v in nets:
                    through[v].append(slack)
        worst, _, end = min(found)
        lines = [f"design worst {worst} end {end}\n"]
        lines += [f"net {net.name} slack {min(through[v])}\n" for v, net in enumerate(self.nets)]
        return 0, "".join(lines), "timed"


# ---- the program


def run_built(program, folders, answers):
    """What the program says of each design of which it says something else than the enumeration."""
    for k, (folder, answer) in enumerate(zip(folders, answers)):
        files = [word for option, name in OPTIONS.items() for word in (f"--{option}", os.path.join(folder, name))]
        done = subprocess.run([program, "--mode", "sta", *files], capture_output=True, text=True, timeout=60)
        if (done.returncode, done.stdout, done.stderr) != (answer.status, answer.text, ""):
            yield k, f"{done.stdout}{done.stderr}status {done.returncode}\n"


def case_text(k, folder, answer):
    """A design as a case of the program `tests_runs`."""
    yield f"== {k}\n"
    for name in OPTIONS.values():
        with open(os.path.join(folder, name), encoding="ascii") as file:
            yield f"@ {name} =\n{file.read()}.\n"
    yield f"$ sta\n{answer.text}" + (f"? {answer.status}\n\n" if answer.status else "\n")


def run_unproved(folders, answers):
    """The same of the program as `rt try` compiles it: `tests_runs` compares, all designs in one run."""
    with tempfile.TemporaryDirectory() as work:
        with open(os.path.join(work, "INDEX"), "w") as out:
            out.write("made/all.case\n")
        with open(os.path.join(work, "all.case"), "w") as out:
            out.writelines(piece for k, pair in enumerate(zip(folders, answers)) for piece in case_text(k, *pair))
        data = ["--data", f"INDEX={work}/INDEX", "--data", f"cases/made/all.case={work}/all.case"]
        words = ["rt", "try", "--seconds", "3600", *data]
        done = subprocess.run(words, cwd=os.path.join(HERE, "..", "crates", "tests_runs"), capture_output=True, text=True)
    if f"1 case files, {len(folders)} cases" not in done.stdout:
        sys.exit(f"sta_compare.py: not all designs were run\n{done.stdout[-2000:]}{done.stderr[-2000:]}")
    for k, found in re.findall(r"^  line \d+: not as said: (\d+)\n((?:    .*\n)*)", done.stdout, re.M):
        yield int(k), found


def main():
    words = argparse.ArgumentParser(usage="sta_compare.py PROGRAM|unproved [COUNT] [--seed SEED] [--keep FOLDER]")
    words.add_argument("program")
    words.add_argument("count", type=int, nargs="?", default=2000)
    words.add_argument("--seed", type=int, default=1)
    words.add_argument("--keep")
    given = words.parse_args()
    with tempfile.TemporaryDirectory() as work:
        folders, answers = [os.path.join(work, str(k)) for k in range(given.count)], []
        for k, folder in enumerate(folders):
            seed = f"{given.seed} {k}"
            design = Maker(seed).design
            answers.append(Answer(design, Writer(design, seed).write(folder)))
        if given.program == "unproved":
            differ = dict(run_unproved(folders, answers))
        else:
            differ = dict(run_built(os.path.abspath(given.program), folders, answers))
        for k in list(differ)[:5]:
            print(f"--- design {k}: the program\n{differ[k]}--- the enumeration\n{answers[k].text}status {answers[k].status}")
        for k in differ if given.keep else []:
            shutil.copytree(folders[k], os.path.join(given.keep, f"{given.seed}_{k}"), dirs_exist_ok=True)
    kinds = collections.Counter(answer.kind for answer in answers)
    told = ", ".join(f"{count} {kind}" for kind, count in sorted(kinds.items()))
    print(f"{given.count} designs, of which {len(differ)} differ: {told}")
    sys.exit(1 if differ else 0)


if __name__ == "__main__":
    main()
