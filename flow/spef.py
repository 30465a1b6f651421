#!/usr/bin/env python3
"""A reader of SPEF, in the profile that docs/FORMATS.md ("SPEF files") describes: names, numbers and trees as vginsert
reads them.

    import spef
    nets = spef.read("design.spef").nets          # by canonical names, in the order of the file
    delays, total = spef.wire_delays(nets["n1"], {"u2:A": 1200})

Capacitances are whole aF, resistances whole mΩ, times whole zs. A node is its canonical text: OWNER:LEAF, and a port
its name. A coupling capacitor counts in full at the net's own node.

A fault of the file is raised as `common.Fault`. A fault in the lines of a net is the fault of this net alone, as it is
for vginsert: it is kept in `Net.fault`, and `tree` and `wire_delays` raise it. They also raise `Refused` for a net
without a tree that one connection drives.

As a program the script prints each net with its total capacitance in aF, or copies a file with other escapes:

    spef.py FILE
    spef.py FILE --escape NETLIST.v --out FILE

A bit of a bus, `a[3]`, and the escaped Verilog identifier `\\a[3] ` have one canonical name. OpenSTA tells them apart:
it finds the second only as `a\\[3\\]`. vginsert writes `a[3]` for both, so --escape puts backslashes before the
brackets of each name that is an escaped identifier of the netlist, or a bit of a bus with such an identifier. No
canonical name changes. The bus delimiters of the file have to be `[` and `]`; with others the file is copied.
"""
from __future__ import annotations

import io
import math
import re
from dataclasses import dataclass, field
from typing import NamedTuple

import common
from common import Fault

HEADER = "*SPEF *DESIGN *DATE *VENDOR *PROGRAM *VERSION *DESIGN_FLOW *DIVIDER *DELIMITER *BUS_DELIMITER".split()
HEADER += "*T_UNIT *C_UNIT *R_UNIT *L_UNIT".split()
PARTS = ("*CONN", "*CAP", "*RES", "*INDUC")
SKIPPED = ("*PORTS", "*PHYSICAL_PORTS", "*POWER_NETS", "*GROUND_NETS")
UNSUPPORTED = ("*DEFINE", "*PDEFINE", "*D_PNET", "*R_PNET")
SCALES = {10 ** (power + 3): power for power in range(-3, 4)}  # of a unit, by its number in thousandths
PLACES = {"FF": 3, "PF": 6, "OHM": 3, "KOHM": 6}  # of a value that is read as aF or mΩ
COMMENT = re.compile(r'\\.|"[^"\n]*"?|//[^\n]*|/\*.*?(?:\*/|\Z)', re.DOTALL)
ODD_BLANK = re.compile(r"[^\S \t\n\r]|\r(?!\n)")


class Refused(Fault):
    """A net that vginsert refuses, with its own words as the reason: `13 Loop`, `2 Section Foreign`."""


class Connection(NamedTuple):
    """A pin (`I`) or a port (`P`) on a net, with its direction `I`, `O` or `B`, and its cell where a `*D` names it."""

    node: str
    kind: str
    direction: str
    cell: str | None


@dataclass
class Net:
    """A net of a SPEF file. `nodes` has its connections, then its other nodes in the order in which lines name them."""

    name: str
    line: int
    file: str
    reduced: bool = False
    inductive: bool = False
    fault: Refused | None = None
    connections: list[Connection] = field(default_factory=list)
    nodes: list[str] = field(default_factory=list)
    capacitors: dict[str, int] = field(default_factory=dict)
    resistors: list[tuple[str, str, int]] = field(default_factory=list)
    positions: dict[str, tuple[float, float]] = field(default_factory=dict)

    def drivers(self):
        """The connections that drive the net: output pins, and input ports of the design."""
        return [pin for pin in self.connections if pin.direction == ("O" if pin.kind == "I" else "I")]

    def sinks(self):
        """All other connections."""
        return [pin for pin in self.connections if pin.direction == ("I" if pin.kind == "I" else "O")]

    def inner_nodes(self):
        """The nodes that are no connections: where a cell may stand."""
        return self.nodes[len(self.connections) :]


@dataclass
class Spef:
    """The nets of a file, by canonical names in the order of the file."""

    file: str
    nets: dict[str, Net] = field(default_factory=dict)


class TreeNode(NamedTuple):
    """A node of a net's tree, the node above it (None for the driver's), and the resistor in mΩ between them."""

    node: str
    parent: str | None
    resistance: int


# ---- names


def unescaped(text, translation):
    """A text without its escapes; None where it is empty, or ends with a backslash that escapes nothing.

    The bytes without a backslash before them are translated; one that becomes None makes the text no name.
    """
    name, at = [], 0
    while at < len(text):
        escaped = text[at] == "\\"
        byte = text[at + escaped : at + escaped + 1]
        byte = byte if escaped else translation.get(byte, byte)
        if not byte:
            return None
        name.append(byte)
        at += 1 + escaped
    return "".join(name) or None


def split_last(text, mark):
    """What is before and after the last mark without a backslash; (text, None) where there is none."""
    if "\\" not in text:
        before, found, after = text.rpartition(mark)
        return (before, after) if found else (text, None)
    at, last = 0, None
    while at < len(text):
        if text[at] == "\\":
            at += 1
        elif text[at] == mark:
            last = at
        at += 1
    return (text, None) if last is None else (text[:last], text[last + 1 :])


class Names:
    """How a file writes names: its divider, delimiter and bus delimiters, and its name map."""

    def __init__(self, divider="/", delimiter=":", bus="[]"):
        self.delimiter, self.map = delimiter, {}
        self.translation = {divider: "/", bus[0]: "[", bus[1]: "]", '"': None}
        self.plain = divider == "/" and bus == "[]"

    def canonical(self, text):
        """The canonical name of a text, or None where it is no name."""
        if "\\" not in text and '"' not in text and self.plain:
            return text or None
        return unescaped(text, self.translation)

    def owner(self, text):
        """The canonical name of an owner, a port or a net, which may be an index of the name map; else None."""
        return self.map.get(text) if text.startswith("*") else self.canonical(text)

    def node(self, text):
        """Owner and leaf of a node, canonical; the owner is None where the text is no node."""
        owner, leaf = split_last(text, self.delimiter)
        owner = self.owner(owner)
        if leaf is None:
            return owner, None
        leaf = self.canonical(leaf)
        return (None, None) if leaf is None else (owner, leaf)


def node_text(owner, leaf):
    """The canonical text of a node."""
    return owner if leaf is None else f"{owner}:{leaf}"


# ---- the file


class Reader:
    """Reads one file. `lines` gives the words of each line that has any, with its number, one line after another."""

    def __init__(self, path):
        self.file = path
        text = common.read_text(path)
        self.lines = word_lines(blank_comments(text))
        self.last_line = text.count("\n") + (not text.endswith("\n"))
        self.back = []
        self.names = Names()
        self.capacitor_places = self.resistor_places = 3
        self.values = {}

    def fault(self, reason, line):
        raise Fault(reason, self.file, line)

    def next(self):
        """The next line and its words; None at the end."""
        return self.back.pop() if self.back else next(self.lines, None)

    def header_line(self):
        """The next line that continues no text."""
        row = self.next()
        while row is not None and row[1][0].startswith('"'):
            row = self.next()
        return row

    def header(self):
        """Reads the fourteen lines of the header."""
        values = {}
        for word in HEADER:
            row = self.next() if word == "*SPEF" else self.header_line()
            if row is None:
                self.fault(f"the header has no line {word}", self.last_line)
            line, words = row
            if words[0] != word or len(words) < 2:
                self.fault(f"{word} with a value expected, as a line of the header", line)
            values[word] = (line, words[1:])
        self.names = Names(self.mark(values, "*DIVIDER"), self.mark(values, "*DELIMITER"), self.bus(values))
        self.capacitor_places = self.unit(values, "*C_UNIT", ("FF", "PF"))
        self.resistor_places = self.unit(values, "*R_UNIT", ("OHM", "KOHM"))
        row = self.header_line()
        self.back = [] if row is None else [row]

    def mark(self, values, word):
        line, words = values[word]
        if len(words) != 1 or words[0] not in ("/", ".", ":", "|"):
            self.fault(f"{word} is not one of / . : |", line)
        return words[0]

    def bus(self, values):
        line, words = values["*BUS_DELIMITER"]
        bus = "".join(words)
        if len(words) > 2 or bus not in ("[]", "{}", "()", "<>"):
            self.fault("*BUS_DELIMITER is not one of [ ] { } ( ) < >", line)
        return bus

    def unit(self, values, word, units):
        """At how many places a value is read that has this unit."""
        line, words = values[word]
        try:
            number = common.whole(words[0], 3)
        except common.NumberFault:
            number = None
        if len(words) != 2 or number not in SCALES or words[1].upper() not in units:
            self.fault(f"{word} is not a power of ten from 0.001 to 1000 and one of {' '.join(units)}", line)
        return PLACES[words[1].upper()] + SCALES[number]

    def body(self):
        """Reads what follows the header."""
        spef, part = Spef(self.file), None
        for line, words in iter(self.next, None):
            first = words[0]
            if first in ("*D_NET", "*R_NET"):
                part = None
                net = self.net(line, words)
                if net.name in spef.nets:
                    self.fault(f"a second net {net.name}", line)
                spef.nets[net.name] = net
            elif first in UNSUPPORTED:
                self.fault(f"{first} is not supported", line)
            elif first == "*NAME_MAP" or first in SKIPPED:
                part = first
            elif part == "*NAME_MAP":
                self.map_row(line, words)
            elif part is None:
                self.fault("a line that belongs to no part", line)
        return spef

    def map_row(self, line, words):
        index = words[0]
        if not (index[0] == "*" and index[1:].isascii() and index[1:].isdigit()):
            self.fault("not a row of the name map", line)
        if index in self.names.map:
            self.fault(f"the index {index} was mapped before", line)
        name = self.names.canonical(words[1]) if len(words) == 2 else None
        if name is None:
            self.fault("not a row of the name map", line)
        self.names.map[index] = name

    def net(self, line, words):
        """Reads the net whose head is the line before."""
        if len(words) < 2:
            self.fault(f"{words[0]} without a name", line)
        name = self.names.owner(words[1])
        if name is None:
            unknown = words[1].startswith("*")
            self.fault(f"{words[1]} is not in the name map" if unknown else f"{words[1]} is not a name", line)
        net = Net(name, line, self.file, words[0] == "*R_NET")
        rows = []
        while True:
            row = self.next()
            if row is None or row[1][0] in ("*D_NET", "*R_NET"):
                self.fault(f"the net {name} has no *END", line)
            if row[1][0] == "*END":
                break
            rows.append(row)
        if not net.reduced:
            Section(self, net).read(rows)
        return net

    def value(self, text, places):
        """A value in whole units, the middle one of three; a text with a fault gives the kind of the fault."""
        known = self.values.get((text, places))
        if known is None:
            known = self.values[(text, places)] = read_value(text, places)
        return known


def read(path) -> Spef:
    """Reads a SPEF file."""
    reader = Reader(path)
    reader.header()
    return reader.body()


def blank_comments(text):
    """The text with blanks in the place of comments."""
    if "//" not in text and "/*" not in text:
        return text

    def blank(match):
        found = match.group()
        return re.sub(r"[^\n]", " ", found) if found.startswith(("//", "/*")) else found

    return COMMENT.sub(blank, text)


def word_lines(text):
    """The words of each line that has any, with the number of the line. Only space and tab are blanks."""
    split = str.split
    if ODD_BLANK.search(text):

        def split(line):
            return re.findall(r"[^ \t]+", re.sub(r"\r?\n?\Z", "", line))

    for number, line in enumerate(io.StringIO(text, newline="\n"), 1):
        words = split(line)
        if words:
            yield number, words


def read_value(text, places):
    """The whole number of a value, the middle one of three; or the kind of its fault, a text."""
    values = text.split(":")
    if len(values) not in (1, 3):
        return "Number Form"
    numbers = [number_or_fault(value, places) for value in values]
    return next((number for number in numbers if isinstance(number, str)), numbers[len(numbers) // 2])


def number_or_fault(text, places):
    try:
        return common.whole(text, places)
    except common.NumberFault as fault:
        return f"Number {fault.kind}"


# ---- the lines of a net


class Section:
    """Reads the lines of one net. The first line with a fault becomes the fault of the net."""

    def __init__(self, reader, net):
        self.reader, self.net, self.names = reader, net, reader.names
        self.connected, self.listed, self.inner, self.nodes = set(), set(), {}, {}

    def fault(self, kind, line):
        if self.net.fault is None or line < self.net.fault.line:
            self.net.fault = Refused(f"net {self.net.name}: 2 Section {kind}", self.net.file, line)

    def read(self, lines):
        """Connections first, since other parts may precede them."""
        rows, part = {"*CONN": [], "*CAP": [], "*RES": [], "*INDUC": []}, None
        for line, words in lines:
            if len(words) == 1 and words[0] in PARTS:
                part = words[0]
                self.net.inductive = self.net.inductive or part == "*INDUC"
            elif part is None:
                self.fault("Conn", line)
            else:
                rows[part].append((line, words))
        for line, words in rows["*CONN"]:
            self.connection(line, words)
        for line, words, read in merged(rows, self):
            read(line, words)
        self.net.nodes = [pin.node for pin in self.net.connections] + list(self.inner)

    def connection(self, line, words):
        owner, leaf = self.names.node(words[1]) if len(words) > 1 else (None, None)
        if words[0] == "*N":
            self.inner_node(line, words, owner, leaf)
            return
        good = owner is not None and len(words) > 2 and words[2] in ("I", "O", "B")
        good = good and {"*I": leaf is not None, "*P": leaf is None}.get(words[0], False)
        node = node_text(owner, leaf) if good else None
        if not good or (owner, leaf) in self.connected or (owner, leaf) in self.listed:
            self.fault("Conn", line)
            return
        self.connected.add((owner, leaf))
        note = words[3:]
        cell = note[note.index("*D") + 1] if "*D" in note[:-1] else None
        self.net.connections.append(Connection(node, words[0][1], words[2], cell))
        self.position(node, note)

    def inner_node(self, line, words, owner, leaf):
        if owner is None or not self.is_inner(owner, leaf) or (owner, leaf) in self.connected:
            self.fault("Conn", line)
            return
        self.listed.add((owner, leaf))
        node = node_text(owner, leaf)
        self.inner[node] = None
        self.position(node, words[2:])

    def is_inner(self, owner, leaf):
        return owner == self.net.name and leaf is not None and leaf.isascii() and leaf.isdigit()

    def position(self, node, note):
        """Keeps the two words after the first `*C` of a note, where they are numbers."""
        if "*C" in note:
            corner = note[note.index("*C") + 1 :][:2]
            if len(corner) == 2 and all(common.NUMBER.fullmatch(word) for word in corner):
                place = float(corner[0]), float(corner[1])
                if all(map(math.isfinite, place)):
                    self.net.positions[node] = place

    def own(self, text):
        """The canonical text of a node of the net; "" for one of another net, None where the text is no node."""
        known = self.nodes.get(text)
        if known is None:
            owner, leaf = self.names.node(text)
            if owner is None:
                return None
            inner = self.is_inner(owner, leaf)
            known = node_text(owner, leaf) if inner or (owner, leaf) in self.connected else ""
            self.nodes[text] = known
            if inner and (owner, leaf) not in self.connected:
                self.inner.setdefault(known)
        return known

    def capacitor(self, line, words):
        nodes = [self.own(word) for word in words[1:-1]]
        if len(words) not in (3, 4) or None in nodes:
            self.fault("Cap", line)
            return
        own = [node for node in nodes if node]
        value = self.reader.value(words[-1], self.reader.capacitor_places)
        kind = "Foreign" if not own else "SelfCoupled" if len(own) == 2 else value if isinstance(value, str) else None
        if kind:
            self.fault(kind, line)
        else:
            self.net.capacitors[own[0]] = self.net.capacitors.get(own[0], 0) + value

    def resistor(self, line, words):
        if len(words) != 4:
            self.fault("Res", line)
            return
        one, other = self.own(words[1]), self.own(words[2])
        value = self.reader.value(words[3], self.reader.resistor_places)
        kind = None
        if one is None or other is None:
            kind = "Res"
        elif not (one and other):
            kind = "Foreign"
        elif isinstance(value, str):
            kind = value
        if kind:
            self.fault(kind, line)
        else:
            self.net.resistors.append((one, other, value))


def merged(rows, section):
    """The rows of capacitors and resistors, in the order of the file, each with what reads it."""
    found = [(line, words, section.capacitor) for line, words in rows["*CAP"]]
    found += [(line, words, section.resistor) for line, words in rows["*RES"]]
    return sorted(found, key=lambda row: row[0])


# ---- trees and delays


def refuse(net, reason, line=None):
    raise Refused(f"net {net.name}: {reason}", net.file, net.line if line is None else line)


def driver(net):
    """The connection that drives a net. Raises `Refused` for the reasons 2 to 7 of docs/FORMATS.md, in this order."""
    if net.fault is not None:
        raise net.fault
    if net.reduced:
        refuse(net, "3 Reduced")
    if net.inductive:
        refuse(net, "4 Inductive")
    if any(pin.direction == "B" for pin in net.connections):
        refuse(net, "5 Bidirectional")
    drivers = net.drivers()
    if len(drivers) != 1:
        refuse(net, "7 ManyDrivers" if drivers else "6 NoDriver")
    return drivers[0]


def tree(net):
    """The nodes of a net in tree order, breadth first, each with its parent and the resistor above it."""
    root = driver(net).node
    neighbours = {node: [] for node in net.nodes}
    for one, other, resistance in net.resistors:
        neighbours[one].append((other, resistance))
        neighbours[other].append((one, resistance))
    found, seen = [TreeNode(root, None, 0)], {root}
    for branch in found:
        for node, resistance in neighbours[branch.node]:
            if node not in seen:
                seen.add(node)
                found.append(TreeNode(node, branch.node, resistance))
    for node in net.nodes:
        if node not in seen:
            refuse(net, f"12 Floating {node}")
    if len(net.resistors) != len(net.nodes) - 1:
        refuse(net, "13 Loop")
    return found


def wire_delays(net, loads):
    """Elmore's delay in zs from the driver's node to each node, and the total load in aF.

    `loads` has what pins and ports add to the capacitors of their nodes, in aF. The driver's own entry counts nothing.
    """
    branches = tree(net)
    root = branches[0].node
    below = {
        branch.node: net.capacitors.get(branch.node, 0) + (loads.get(branch.node, 0) if branch.node != root else 0)
        for branch in branches
    }
    for branch in reversed(branches[1:]):
        below[branch.parent] += below[branch.node]
    delays = {root: 0}
    for branch in branches[1:]:
        delays[branch.node] = delays[branch.parent] + branch.resistance * below[branch.node]
    return delays, below[root]


# ---- escapes


def bracketed_identifiers(verilog):
    """The escaped identifiers of a netlist that have brackets, without the backslash."""
    token = re.compile(r"//[^\n]*|/\*.*?\*/|\(\*.*?\*\)|\\([^ \t\r\n]+)", re.DOTALL)
    names = (match.group(1) for match in token.finditer(verilog))
    return {name for name in names if name and ("[" in name or "]" in name)}


def escape_word(word, names, identifiers):
    """A word of a SPEF file with backslashes before the brackets of an escaped identifier at its begin."""
    owner, _ = split_last(word, names.delimiter)
    name = names.canonical(owner)
    bit = re.search(r"(?<!\\)\[[0-9]+(?<!\\)\]\Z", owner)
    stem = names.canonical(owner[: bit.start()]) if bit else None
    if name in identifiers:
        end = len(owner)
    elif stem in identifiers:
        end = bit.start()
    else:
        return word
    return re.sub(r"\\.|[\[\]]", lambda match: match.group()[-2:].rjust(2, "\\"), owner[:end]) + word[end:]


def escape_brackets(text, names, identifiers):
    """The text with each word escaped that has a bracket without a backslash."""
    words = {}

    def escape(match):
        word = match.group()
        if word not in words:
            words[word] = escape_word(word, names, identifiers)
        return words[word]

    return re.sub(r"[^ \t\r\n]*(?<!\\)[\[\]][^ \t\r\n]*", escape, text) if identifiers else text


# ---- the program


def copy_escaped(path, verilog, out):
    """Copies a SPEF file with the escapes that OpenSTA needs."""
    text, reader = common.read_text(path), Reader(path)
    reader.header()
    identifiers = bracketed_identifiers(common.read_text(verilog)) if "[" in reader.names.translation else set()
    common.write_text(out, escape_brackets(text, reader.names, identifiers))


def net_line(net):
    fault = "" if net.fault is None else f" (line {net.fault.line}: {net.fault.reason})"
    return f"{net.name} {sum(net.capacitors.values())}{fault}\n"


def main():
    parser = common.parser(__doc__)
    parser.add_argument("file", help="the SPEF file")
    parser.add_argument("--escape", metavar="NETLIST.v", help="escape the brackets of its escaped identifiers")
    parser.add_argument("--out", metavar="FILE", help="the file to write with --escape")
    options = parser.parse_args()
    if (options.escape is None) != (options.out is None):
        parser.error("--escape and --out belong together")
    if options.escape:
        copy_escaped(options.file, options.escape, options.out)
        return
    common.put_text("".join(map(net_line, read(options.file).nets.values())))


if __name__ == "__main__":
    common.run(main)
