#!/usr/bin/env python3
"""Makes the constraints of vginsert from the slacks of a timing analyzer, so that vginsert begins with the analyzer's
own slacks.

    constraints.py SLACKS --spef FILE --lib LINEAR.lib [--leave GLOB].. [--def FILE]
                   [--port-drive OHM PS] [--port-load FF] [-o FILE]
    constraints.py SLACKS --lib LINEAR.lib --summary [-o FILE]

SLACKS is the text that flow/opensta.tcl writes; its head describes it. LINEAR.lib is the linear library that vginsert
reads.

A sink is required at its slack plus the delay of its net in the linear model: the driver's intrinsic delay, its
resistance times the load of the net, and Elmore's delay of the wires. Each driver's arrival is 0. So `vginsert --mode
time --all` reports the worst slack of each net as SLACKS has it, to the last digit, however well the model fits: it
decides only what cells change.

- A load without a constrained path has the default required time, 10^9 ps (1 ms), and is never the worst of its net.
- Clock nets, nets that match --leave (`*` and `?` stand for any bytes, brackets for themselves; may be given several
  times) and nets of which no load has a constrained path are left as they are: their inner nodes get `block` rows.
  Clock nets get no `required` rows either: where clocks are ideal, OpenSTA's slacks at clock pins are not those of the
  paths.
- --def takes the rectangles of the placement blockages of a DEF file, as boxes in µm: the coordinates of the SPEF file.
- Ports: set_load, set_drive and set_driving_cell are in SLACKS. --port-load and --port-drive count for the ports
  without these; without the options they are 0. The linear library has the drive of a driving cell.

Names in SLACKS become canonical: a backslash is dropped and the byte after it is kept, and a pin is split at its last
slash without a backslash. So `core/u1/Z` is the pin `core/u1:Z`, and `a[3]` and `a\\[3\\]` are one net.

What is a fault, with file and line, and what is a note on standard error:

- A net whose driver or loads differ between SLACKS and the SPEF file is a fault: the two are not of one design. For
  nets that match --leave it is a note.
- Two nets or two pins with one canonical name, a driving cell that the library lacks, a time over 10^8 ps: faults.
- A net that the SPEF file lacks, that it alone has, that vginsert refuses for its tree, or with a cell or pin that the
  linear library lacks: a note. vginsert does not see the first kind, and refuses the others with status 2. No row names
  their pins.
- A name with a `#`, which no row can write: a note. The pin has the default required time.
"""
from __future__ import annotations

import re
import sys
from dataclasses import dataclass, field
from fractions import Fraction

import common
import linear
import spef
from common import AF_PLACES, AREA_PLACES, MOHM_PLACES, ZS_PER_PS, ZS_PLACES, Fault

DEFAULT_REQUIRED = 10**9 * ZS_PER_PS
LARGEST = 10**8 * ZS_PER_PS  # of a slack and of a net's delay, so the default is never the worst
NOTED = 5  # so many names are listed in a note
BOX_PLACES = 3  # of a coordinate in µm
ESCAPED = re.compile(r'[\\":]|\A\*')  # what has a backslash before it in a row


# ---- the slacks text


@dataclass
class Pin:
    """A pin or a port on a net: owner and leaf (None for a port), CELL/PIN of a pin, and the slack of a load in zs."""

    owner: str
    leaf: str | None
    cell: str | None
    line: int
    slack: int | None = None

    @property
    def node(self):
        return spef.node_text(self.owner, self.leaf)


@dataclass
class SlackNet:
    """A net of the slacks text."""

    name: str
    line: int
    clock: bool
    drivers: list[Pin] = field(default_factory=list)
    loads: list[Pin] = field(default_factory=list)


@dataclass
class Slacks:
    """The slacks text. `totals` has its slacks of the whole design as they are written, `cells` the number of each cell
    and `port_cells` the CELL/PIN that drives a port, both with their lines; ports have loads in aF and drives in mΩ."""

    file: str
    nets: dict[str, SlackNet] = field(default_factory=dict)
    totals: dict[str, str] = field(default_factory=dict)
    cells: dict[str, tuple[int, int]] = field(default_factory=dict)
    port_loads: dict[str, int] = field(default_factory=dict)
    port_drives: dict[str, int] = field(default_factory=dict)
    port_cells: dict[str, tuple[str, int]] = field(default_factory=dict)


def pin_name(text):
    """Instance and pin of a text, canonical; None where it is no pin."""
    owner, leaf = spef.split_last(text, "/")
    names = spef.unescaped(owner, {}), spef.unescaped(leaf or "", {})
    return None if None in names else names


class SlackReader:
    """Reads the slacks text line by line."""

    def __init__(self, path):
        self.slacks, self.net, self.line, self.pins = Slacks(path), None, 0, set()

    def fault(self, reason):
        raise Fault(reason, self.slacks.file, self.line)

    def whole(self, text, places):
        return common.whole(text, places, self.slacks.file, self.line)

    def name(self, text):
        """The canonical name of a net, of a cell or of a port."""
        name = spef.unescaped(text, {})
        if name is None:
            self.fault(f"'{text}' is not a name")
        return name

    def read(self):
        lines = common.read_text(self.slacks.file).split("\n")
        self.line = 1
        if lines[0] != "vgslacks 1":
            self.fault("the first line is not `vgslacks 1`")
        if lines[-1]:
            self.line = len(lines)
            self.fault("the last line does not end: the text is cut off")
        for self.line, text in enumerate(lines[1:-1], 2):
            self.row(text.split(" "))
        return self.slacks

    def row(self, words):
        """Takes a line: those of the whole design come first, then those of nets."""
        kind, count = words[0], len(words)
        if kind == "net" and count in (2, 3) and words[2:] in ([], ["clock"]):
            self.begin_net(words)
        elif kind == "driver" and count == 3 and self.net:
            self.net.drivers.append(self.pin(words))
        elif kind == "load" and count == 4 and self.net:
            self.net.loads.append(self.pin(words))
        elif kind in ("wns", "tns", "late") and count == 2 and not self.net:
            self.put(self.slacks.totals, kind, self.total(words[1]), f"a second line {kind}")
        elif kind in ("cells", "port_load", "port_drive", "port_cell") and count == 3 and not self.net:
            table, value = self.head_row(kind, words[2])
            self.put(table, self.name(words[1]), value, f"a second line {kind} {words[1]}")
        else:
            self.fault("not a line of a slacks text")

    def put(self, table, name, value, reason):
        if name in table:
            self.fault(reason)
        table[name] = value

    def total(self, text):
        """A slack of the whole design as it is written, after a check."""
        if text != "none":
            common.signed(text, ZS_PLACES, self.slacks.file, self.line)
        return text

    def head_row(self, kind, text):
        """Where a line of the whole design belongs, and its value."""
        if kind == "cells":
            return self.slacks.cells, (self.whole(text, 0), self.line)
        if kind == "port_load":
            return self.slacks.port_loads, self.whole(text, AF_PLACES)
        if kind == "port_drive":
            return self.slacks.port_drives, self.whole(text, MOHM_PLACES)
        return self.slacks.port_cells, (text, self.line)

    def begin_net(self, words):
        name = self.name(words[1])
        if name in self.slacks.nets:
            self.fault(f"a second net {name}, first at line {self.slacks.nets[name].line}")
        self.net = self.slacks.nets[name] = SlackNet(name, self.line, len(words) == 3)

    def pin(self, words):
        port = words[2] == "port"
        found = (self.name(words[1]), None) if port else pin_name(words[1])
        if found is None:
            self.fault(f"'{words[1]}' is not a pin")
        if not port and "/" not in words[2]:
            self.fault(f"'{words[2]}' is not a pin of a cell")
        pin = Pin(*found, None if port else words[2], self.line)
        if len(words) == 4 and words[3] != "none":
            pin.slack = common.signed(words[3], ZS_PLACES, self.slacks.file, self.line)
            if abs(pin.slack) > LARGEST:
                self.fault(f"the slack {words[3]} is over 10^8 ps")
        if (words[0], pin.node) in self.pins:
            self.fault(f"a second {words[0]} {pin.node}")
        self.pins.add((words[0], pin.node))
        return pin


def read_slacks(path) -> Slacks:
    """Reads a slacks text."""
    return SlackReader(path).read()


# ---- the linear model


class Lacks(Exception):
    """What the linear library lacks for a net."""


@dataclass
class Model:
    """What vginsert knows beside the wires: the linear library, and the loads (aF) and drives (mΩ, zs) of ports."""

    cells: dict[str, linear.Cell]
    loads: dict[str, int]
    drives: dict[str, tuple[int, int]]
    default_load: int = 0
    default_drive: tuple[int, int] = (0, 0)

    def pin(self, cell_pin):
        cell, _, name = cell_pin.rpartition("/")
        found = self.cells[cell].pins.get(name) if cell in self.cells else None
        if found is None:
            raise Lacks(cell_pin)
        return found

    def cell_drive(self, cell_pin):
        """Resistance and intrinsic delay of an output."""
        pin = self.pin(cell_pin)
        if pin.direction != "output" or pin.resistance is None or pin.intrinsic is None:
            raise Lacks(f"{cell_pin} (no drive)")
        return pin.resistance, pin.intrinsic

    def drive(self, driver):
        if driver.cell is None:
            return self.drives.get(driver.owner, self.default_drive)
        return self.cell_drive(driver.cell)

    def load(self, pin):
        if pin.cell is None:
            return self.loads.get(pin.owner, self.default_load)
        capacitance = self.pin(pin.cell).capacitance
        if capacitance is None:
            raise Lacks(f"{pin.cell} (no capacitance)")
        return capacitance

    def required(self, driver, loads, wires):
        """The required time in zs of each load with a slack, by its node: its slack and the delay to it."""
        resistance, intrinsic = self.drive(driver)
        delays, total = spef.wire_delays(wires, {pin.node: self.load(pin) for pin in loads})
        found = {}
        for pin in loads:
            delay = intrinsic + resistance * total + delays[pin.node]
            if delay > LARGEST:
                reason = f"the delay of net {wires.name} in the linear model is over 10^8 ps"
                raise Fault(reason, wires.file, wires.line)
            if pin.slack is not None:
                found[pin.node] = pin.slack + delay
        return found


def make_model(slacks, cells, options):
    """The linear model with the loads and drives of ports that the slacks text and the options give."""
    model = Model(cells, dict(slacks.port_loads), {port: (drive, 0) for port, drive in slacks.port_drives.items()})
    for port, (cell_pin, line) in slacks.port_cells.items():
        try:
            model.drives[port] = model.cell_drive(cell_pin)
        except Lacks as lacks:
            raise Fault(f"the linear library lacks {lacks}, which drives the port {port}", slacks.file, line) from None
    if options.port_load is not None:
        model.default_load = option_number("--port-load", options.port_load, AF_PLACES)
    if options.port_drive is not None:
        ohms, time = options.port_drive
        resistance = option_number("--port-drive", ohms, MOHM_PLACES)
        model.default_drive = resistance, option_number("--port-drive", time, ZS_PLACES)
    return model


def option_number(option, text, places):
    try:
        return common.whole(text, places)
    except common.NumberFault as fault:
        raise Fault(f"{option}: {fault.reason}") from None


# ---- the rows


def row_name(owner, leaf):
    """A node or port as a row writes it; None where it has a `#`, which always begins a comment."""
    if "#" in owner or "#" in (leaf or ""):
        return None
    texts = [ESCAPED.sub(r"\\\g<0>", text) for text in ((owner,) if leaf is None else (owner, leaf))]
    return ":".join(texts)


@dataclass
class Rows:
    """The rows as text, and the names of what the notes count."""

    lines: list[str] = field(default_factory=list)
    notes: dict[str, list[str]] = field(default_factory=dict)

    def add(self, kind, owner, leaf, *values):
        """A row for a node, or for a port, whose leaf is None; a note where it cannot be written."""
        name = row_name(owner, leaf)
        if name is None:
            self.note("names with a `#`, which no row can write", spef.node_text(owner, leaf))
        else:
            self.lines.append(" ".join((kind, name, *values)))

    def note(self, what, name):
        self.notes.setdefault(what, []).append(name)

    def block(self, net):
        for node in net.inner_nodes():
            self.add("block", net.name, node[len(net.name) + 1 :])


def compare(slacks, net, wires):
    """A fault where a net has another driver or other loads in the SPEF file."""
    ours = {("driver", pin.node): pin.line for pin in net.drivers}
    ours.update({("load", pin.node): pin.line for pin in net.loads})
    theirs = {("driver", pin.node) for pin in wires.drivers()} | {("load", pin.node) for pin in wires.sinks()}
    for (kind, node), line in ours.items():
        if (kind, node) not in theirs:
            raise Fault(f"net {net.name}: {wires.file}:{wires.line} has no {kind} {node}", slacks.file, line)
    for kind, node in sorted(theirs - set(ours)):
        raise Fault(f"net {net.name} has no {kind} {node}, which {wires.file}:{wires.line} has", slacks.file, net.line)


def glob(pattern):
    """`*` and `?` stand for any bytes, all else for itself."""
    parts = [{"*": ".*", "?": "."}.get(part, re.escape(part)) for part in re.split(r"([*?])", pattern)]
    return re.compile("".join(parts), re.DOTALL)


def net_rows(rows, slacks, net, wires, model, left):
    """The rows of a net: what its loads are required at, and its inner nodes where it stays as it is."""
    required = {}
    try:
        spef.tree(wires)
        compare(slacks, net, wires)
        required = model.required(net.drivers[0], net.loads, wires)
    except spef.Refused as refused:
        rows.note("nets that vginsert refuses for their parasitics", refused.reason[len("net ") :])
        return
    except Lacks as lacks:
        rows.note("nets with a cell or pin that the linear library lacks", f"{net.name}: {lacks}")
        return
    except Fault:
        if not left:
            raise
        rows.note("nets that are left as they are, and differ from the SPEF file", net.name)
    for pin in [] if net.clock else net.loads:
        if pin.node in required:
            rows.add("required", pin.owner, pin.leaf, common.decimal_text(required[pin.node], ZS_PLACES))
    if left or net.clock or not required:
        rows.block(wires)


def port_rows(rows, slacks, model):
    """The rows `drive` and `load` of ports, where they are not 0."""
    for net in slacks.nets.values():
        for pin in net.drivers:
            resistance, intrinsic = model.drive(pin) if pin.cell is None else (0, 0)
            if resistance or intrinsic:
                numbers = common.decimal_text(resistance, MOHM_PLACES), common.decimal_text(intrinsic, ZS_PLACES)
                rows.add("drive", pin.owner, None, *numbers)
        for pin in net.loads:
            load = model.load(pin) if pin.cell is None else 0
            if load:
                rows.add("load", pin.owner, None, common.decimal_text(load, AF_PLACES))


def make_rows(slacks, wires, model, patterns):
    """All rows but the heading and the boxes."""
    rows = Rows([f"default required {common.decimal_text(DEFAULT_REQUIRED, ZS_PLACES)}"])
    patterns = [glob(pattern) for pattern in patterns]
    port_rows(rows, slacks, model)
    for name, net in wires.nets.items():
        if name in slacks.nets:
            left = any(pattern.fullmatch(name) for pattern in patterns)
            net_rows(rows, slacks, slacks.nets[name], net, model, left)
        else:
            rows.note(f"nets of {wires.file} that {slacks.file} lacks", name)
    for name, net in slacks.nets.items():
        if name not in wires.nets and net.drivers and net.loads:
            rows.note(f"nets of {slacks.file} that {wires.file} lacks", name)
    return rows


# ---- blockages


def statements(path):
    """The statements of a DEF file: the line where each begins, and its words up to `;`. `END NAME` has no `;`."""
    words, first = [], 0
    for number, line in enumerate(common.read_text(path).split("\n"), 1):
        for word in re.sub(r"(^|\s)#.*", "", line).split():
            first = first if words else number
            words.append(word)
            if word == ";" or (words[0] == "END" and len(words) == 2):
                yield first, words
                words = []
    if words:
        yield first, words


def read_blockages(path):
    """The boxes of the placement blockages of a DEF file, in nm, rounded outward.

    Blockages of routing layers are passed over.
    """
    units, boxes, begin = None, [], None
    for line, words in statements(path):
        if words[:3] == ["UNITS", "DISTANCE", "MICRONS"]:
            units = int(words[3]) if len(words) == 5 and re.fullmatch("[1-9][0-9]{0,8}", words[3]) else None
            if units is None:
                raise Fault("UNITS DISTANCE MICRONS without a number", path, line)
        elif words[0] == "BLOCKAGES":
            begin = line
            if units is None:
                raise Fault("BLOCKAGES without UNITS DISTANCE MICRONS before", path, line)
        elif words == ["END", "BLOCKAGES"]:
            begin = None
        elif begin and words[:2] == ["-", "PLACEMENT"] and words[-1] == ";":
            boxes.extend(read_boxes(path, line, words[2:-1], units))
        elif begin and (words[:2] != ["-", "LAYER"] or words[-1] != ";"):
            raise Fault(f"not a blockage: {' '.join(words)}", path, line)
    if begin:
        raise Fault("BLOCKAGES without END BLOCKAGES", path, begin)
    return boxes


def read_boxes(path, line, texts, units):
    """The boxes of `RECT ( x y ) ( x y )`, one or more."""
    form = ["RECT", "(", None, None, ")", "(", None, None, ")"]
    boxes = []
    for at in range(0, max(len(texts), 1), len(form)):
        part = texts[at : at + len(form)]
        good = len(part) == len(form) and all(
            re.fullmatch("-?[0-9]{1,18}", text) if want is None else text == want for text, want in zip(part, form)
        )
        if not good:
            form_text = "RECT ( x y ) ( x y )"
            raise Fault(f"a placement blockage of another form than {form_text}: {' '.join(texts)}", path, line)
        x1, y1, x2, y2 = (Fraction(int(part[index]) * 1000, units) for index in (2, 3, 6, 7))
        low, high = (min(x1, x2), min(y1, y2)), (max(x1, x2), max(y1, y2))
        boxes.append(tuple(value.__floor__() for value in low) + tuple(value.__ceil__() for value in high))
    return boxes


# ---- the program


def summary(slacks, cells):
    """One line: `wns S tns S late N cells N area A`, times in ps."""
    count, area = 0, 0
    for cell, (number, line) in slacks.cells.items():
        if cell not in cells:
            raise Fault(f"the linear library lacks the cell {cell}", slacks.file, line)
        count, area = count + number, area + number * cells[cell].area
    totals = " ".join(f"{word} {slacks.totals.get(word, 'none')}" for word in ("wns", "tns", "late"))
    return f"{totals} cells {count} area {common.decimal_text(area, AREA_PLACES)}"


def print_notes(notes):
    """Prints what the notes count, each with its first names."""
    for what, names in notes.items():
        more = ", .." if len(names) > NOTED else ""
        print(f"constraints.py: note: {what}: {len(names)} ({', '.join(names[:NOTED])}{more})", file=sys.stderr)


def arguments():
    parser = common.parser(__doc__)
    add = parser.add_argument
    add("slacks", metavar="SLACKS", help="the slacks text that flow/opensta.tcl wrote")
    add("--spef", metavar="FILE", help="the SPEF file")
    add("--lib", metavar="LINEAR.lib", required=True, help="the linear library")
    add("--leave", action="append", default=[], metavar="GLOB", help="leave these nets as they are; repeatable")
    add("--def", dest="blockages", metavar="FILE", help="a DEF file: nothing is placed in its blockages")
    add("--port-drive", nargs=2, metavar=("OHM", "PS"), help="drives input ports of which SLACKS knows no drive")
    add("--port-load", metavar="FF", help="loads output ports of which SLACKS knows no load")
    add("--summary", action="store_true", help="print slacks, cells and area alone")
    add("-o", "--output", metavar="FILE", help="write to this file instead of standard output")
    options = parser.parse_args()
    if not options.spef and not options.summary:
        parser.error("--spef is missing")
    return options


def constraints_text(slacks, cells, options):
    """The constraints, after the notes are printed."""
    boxes = read_blockages(options.blockages) if options.blockages else []
    model = make_model(slacks, cells, options)
    rows = make_rows(slacks, spef.read(options.spef), model, options.leave)
    print_notes(rows.notes)
    lines = [f"vgcons {2 if boxes else 1}"]
    lines += [f"block_box {' '.join(common.decimal_text(value, BOX_PLACES) for value in box)}" for box in boxes]
    return "\n".join(lines + rows.lines) + "\n"


def main():
    options = arguments()
    slacks, cells = read_slacks(options.slacks), linear.read(options.lib)
    text = summary(slacks, cells) + "\n" if options.summary else constraints_text(slacks, cells, options)
    common.put_text(text, options.output)


if __name__ == "__main__":
    common.run(main)
