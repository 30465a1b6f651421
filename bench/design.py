#!/usr/bin/env python3
"""Writes a design of four files: `design.py MB PATH [KIND]` writes PATH.spef, of nearly so many MB (2^20 bytes) and never
more, as extractors write it, PATH.v, a flat netlist with each net that the SPEF file has, PATH.lib and PATH.cons.

Prints the names of a small net and of the large one. Most nets have 2 to 12 nodes, one in 512 has some hundreds, and
one in the middle has about a tenth of the file, at most 60,000 nodes. Each net is a tree below the pin that drives it,
with its resistors in no order of the tree. A coupling capacitor stands in both of its nets. The library has the cells of
the netlist and, as repeaters, 8 buffers and 8 inverters. The constraints give a required time to all sinks, and to some
their own, and they block a part of the chip and some nodes. The same words write the same files.

Without a KIND the nets lead in circles, from the last to the first. With `clocked` one cell in five is a flip-flop, at which
a path ends, and no path has more than some hundred nets; with `chained` only the first cells are, and paths go on from net
to net up to the last one. No nets form a cycle then, and the files are as `opensta.tcl` reads them, too.
"""
import itertools
import sys

HEADER = """*SPEF "IEEE 1481-1998"
*DESIGN "bench"
*DATE "Thu Jan 1 00:00:00 1970"
*VENDOR "none"
*PROGRAM "design.py"
*VERSION "1.0"
*DESIGN_FLOW "PIN_CAP NONE"
"NAME_SCOPE LOCAL"
*DIVIDER /
*DELIMITER :
*BUS_DELIMITER [ ]
*T_UNIT 1.0 NS
*C_UNIT 1.0 FF
*R_UNIT 1.0 OHM
*L_UNIT 1.0 HENRY

// an index for each net, and then one for each instance

*NAME_MAP

"""
FLOP = "DFFX2"
FIRST = 256  # the first instances are flip-flops where there are any: more than nets at the end have sinks among
CELLS = ["AOI22X1", "AOI22X2", "NAND4X1", "NAND4X2", "NOR4X1", "OAI22X1", "OAI22X4", "AND4X2"]
LAYERS = ["M1", "M2", "M2", "M3", "M3", "M4", "M5"]
STEPS = [1, 1, 1, 1, 1, 2, 2, 3, 5]
SMALL, MEDIUM, LARGE = range(3)
MOST = 60000  # nodes of the large net
TABLE = 1 << 16
GROUP = 4  # nets that are written together
KEPT = 1024  # groups of small nets that are written again and again, with other numbers
APART, NEAR = 37, 4  # instances between two sinks of a small net; in clocked designs
BLOCK = 1 << 22
LIBRARY = """/* the cells of a design that is made for measurements */
library (bench) {
  delay_model : generic_cmos;
  time_unit : "1ps";
  capacitive_load_unit (1, ff);
"""
UNITS = """  voltage_unit : "1V";
  current_unit : "1mA";
  pulling_resistance_unit : "1kohm";
  input_threshold_pct_rise : 50;
  input_threshold_pct_fall : 50;
  output_threshold_pct_rise : 50;
  output_threshold_pct_fall : 50;
  slew_lower_threshold_pct_rise : 20;
  slew_lower_threshold_pct_fall : 20;
  slew_upper_threshold_pct_rise : 80;
  slew_upper_threshold_pct_fall : 80;
"""


def draws():
    """The numbers below 2^31 of a linear congruential generator."""
    x = 1
    while True:
        x = (x * 6364136223846793005 + 1442695040888963407) % 2**64
        yield x >> 33


def decimal(thousandths):
    return f"{thousandths // 1000}.{thousandths % 1000:03}"


def triple(thousandths):
    """The values of three corners; the middle one counts."""
    return ":".join(decimal(thousandths * percent // 100) for percent in (90, 100, 115))


class Tables:
    """The values of nodes. A net takes some that follow one another, from any of the first half on."""

    def __init__(self, draw):
        def table(value):
            return [value(next(draw)) for _ in range(TABLE)] * 2

        texts = [[value(n) for n in range(5000)] for value in (decimal, triple)]
        self.caps = table(lambda x: 20 + x % 2000)
        self.sums = [0, *itertools.accumulate(self.caps)]
        ress = table(lambda x: 150 + x % 4800)
        self.cap_texts = [[values[c] for c in self.caps] for values in texts]
        self.res_texts = [[values[r] for r in ress] for values in texts]
        self.points = table(lambda x: f"{x % 2000}.{x // 2000 % 1000:03} {x // 65536 % 2000}.5")
        self.layers = table(lambda x: LAYERS[x % len(LAYERS)])
        self.steps = table(lambda x: STEPS[x % len(STEPS)])
        self.turned = table(lambda x: x % 4 == 0)


class Net:
    """A net: how large it is, whether its values are triples, where they begin, and what couples it to its group."""

    def __init__(self, draw, size, port, nodes):
        x = next(draw)
        count = [2 + x % 11, 200 + x % 600, nodes][size]
        self.size, self.port, self.triples = size, port, x // 8192 % 5 == 0
        self.sinks = 1 + count // 4 if count > 3 else 1
        self.inner = count - 1 - self.sinks
        self.at = next(draw) % TABLE
        self.to_next, self.from_last = [], []

    def couple(self, draw, other):
        if self.inner and other.inner:
            for _ in range(1 + min(self.inner, other.inner) // 3):
                x = next(draw)
                pair = (1 + x % self.inner, 1 + x // 64 % other.inner, 5 + x // 4096 % 500)
                self.to_next.append(pair)
                other.from_last.append(pair)

    def text(self, tables, i):
        """The net's text, as the i-th one of its group, with the numbers of nets and instances left open."""
        at, inner = self.at, self.inner
        own, driver, port = f"*%(n{i})s:", f"*%(z{i})s:Z", f"*%(n{i})s"
        names = "ABCD" if self.size == SMALL else itertools.repeat("S" if self.size == MEDIUM else "CK")
        pins = [f"*%(i{i}_{s})s:{name}" for s, name in zip(range(self.sinks), names)]
        nodes = [f"{own}{j}" for j in range(1, inner + 1)]
        ends = [nodes[inner - 1 - s * inner // self.sinks] if inner else driver for s in range(self.sinks)]
        points = tables.points[at : at + inner + self.sinks + 1]

        out = [f"*CONN\n*I {driver} O *C {points[-1]} *L 0 *D %(y{i})s"]
        out += [f"*I {pin} I *C {points[s]} *L 0.8 *D %(c{i}_{s})s" for s, pin in enumerate(pins)]
        if self.port:
            out.append(f"*P {port} O *C {points[-1]} *L 2.5")
            pins.append(port)
            ends.append(nodes[0] if inner else driver)
        layers = tables.layers[at : at + inner]
        out += [f"*N {node} *C {point} // {layer}" for node, point, layer in zip(nodes, points[self.sinks :], layers)]

        out.append("*CAP")
        count = inner + len(pins)
        texts = tables.cap_texts[self.triples][at : at + count]
        out += [f"{j} {node} {text}" for j, node, text in zip(range(1, count + 1), nodes + pins, texts)]
        pairs = [(f"{own}{a}", f"*%(n{i + 1})s:{b}", c) for a, b, c in self.to_next]
        pairs += [(f"*%(n{i - 1})s:{a}", f"{own}{b}", c) for a, b, c in self.from_last]
        out += [f"{count + j} {a} {b} {decimal(c)}" for j, (a, b, c) in enumerate(pairs, 1)]
        total = tables.sums[at + count] - tables.sums[at] + sum(c for _, _, c in pairs)

        out.append("*RES")
        # The wires to the sinks come first, and of some wires the lower end stands first.
        steps = tables.steps[at : at + inner]
        uppers = ends + [nodes[max(0, j - step)] if j else driver for j, step in enumerate(steps)]
        texts = tables.res_texts[self.triples][at : at + count]
        wires = zip(range(1, count + 1), uppers, pins + nodes, texts, tables.turned[at : at + count])
        out += [f"{j} {b} {a} {r}" if turned else f"{j} {a} {b} {r}" for j, a, b, r, turned in wires]
        return f"*D_NET {port} {decimal(total)}\n" + "\n".join(out) + "\n*END\n\n"


class Design:
    """A design of so many nets. Instance k drives net k; a net's index is its number, and the instances' come after."""

    def __init__(self, tables, count, large_nodes, kind):
        self.tables, self.count, self.large_nodes, self.kind = tables, count, large_nodes, kind
        self.apart = NEAR if kind == "clocked" else APART
        self.small, self.large = count // 4 // 16 * 16 + 1, count // 2 // 16 * 16 + 1
        self.draw = draws()
        self.kept = {}
        self.sinks = {}  # how many sinks a net has, where it has been written

    def net_name(self, k):
        return f"blk{k % 61}/bus{k}\\[{k % 32}\\]" if k % 16 == 0 else f"blk{k % 61}/n{k}"

    def map_rows(self, k):
        """The rows of a net and its instance."""
        names = self.net_name(k), instance_name(k)
        net, instance = (name.replace("/", "\\/") for name in names) if self.kind else names
        return f"*{k} {net}\n", f"*{self.count + k} {instance}\n"

    def is_port(self, k):
        """Whether a net has an output port, of the same name."""
        return k % 97 == 0

    def cell(self, k):
        """The cell of instance k. A small net of a clocked design ends at most 13 instances behind its own, and a medium one
        begins at a flip-flop: so 14 flip-flops in a row end all paths."""
        clocked = self.kind == "clocked" and k % 64 < 14
        return FLOP if clocked or self.kind and k < FIRST else CELLS[k % 8]

    def head(self):
        """The text before the nets, in pieces."""
        yield HEADER
        for part in range(2):
            for k in range(1, self.count + 1):
                yield self.map_rows(k)[part]
        yield "\n*PORTS\n\n"
        for k in range(1, self.count + 1):
            if self.is_port(k):
                yield f"*{k} O *C {self.tables.points[k % TABLE]}\n"
        yield "\n"

    def net(self, k):
        return Net(self.draw, self.size(k), self.is_port(k), self.large_nodes)

    def open_group(self, nets):
        """Nets that are coupled to one another, with their text."""
        for net, other in itertools.pairwise(nets):
            net.couple(self.draw, other)
        return nets, "".join(net.text(self.tables, i) for i, net in enumerate(nets))

    def kept_group(self):
        which = next(self.draw) % KEPT
        if which not in self.kept:
            nets = [Net(self.draw, SMALL, False, 0) for _ in range(GROUP)]
            self.kept[which] = self.open_group(nets)
        return self.kept[which]

    def groups(self, first, end):
        """The texts of nets, a group at a time."""
        for start in range(first, end, GROUP):
            numbers = range(start, start + GROUP)
            if any(k == self.large or k % 512 == 0 or self.is_port(k) for k in numbers):
                nets, text = self.open_group([self.net(k) for k in numbers])
            else:
                nets, text = self.kept_group()
            for k, net in zip(numbers, nets):
                self.sinks[k] = net.sinks
            yield text % self.numbers(start, nets)

    def numbers(self, start, nets):
        """The numbers that a group's text leaves open. No pin is on two nets."""
        count, values = self.count, {}
        for i, net in enumerate(nets):
            k = start + i
            values[f"n{i}"], values[f"z{i}"], values[f"y{i}"] = k, count + k, self.cell(k)
            apart = self.apart if net.size == SMALL else 1
            for s in range(net.sinks):
                to = 1 + (k + apart * s) % count
                values[f"i{i}_{s}"], values[f"c{i}_{s}"] = count + to, self.cell(to)
        return values

    def size(self, k):
        return LARGE if k == self.large else MEDIUM if k % 512 == 0 else SMALL

    def inputs(self, k):
        """The input pins of instance k that are on nets, each with the number of its net."""
        for s, name in enumerate("ABCD"):
            net = (k - 2 - self.apart * s) % self.count + 1
            if self.size(net) == SMALL and s < self.sinks.get(net, 0):
                yield name, net
        medium = (k - 1) // 512 * 512
        if medium and self.size(medium) == MEDIUM and k - 1 - medium < self.sinks.get(medium, 0):
            yield "S", medium
        if (k - 1 - self.large) % self.count < self.sinks.get(self.large, 0):
            yield "CK", self.large


def escaped(name):
    """A name as an escaped identifier, since the hierarchy is in it."""
    return f"\\{name} "


def netlist(design):
    """The text of the netlist, in pieces: ports, nets, and a line for each connection of an instance."""
    numbers = range(1, design.count + 1)
    nets = [escaped(canonical(design.net_name(k))) for k in range(design.count + 1)]
    ports = [nets[k] for k in numbers if design.is_port(k)]
    yield "// written by design.py\nmodule bench (" + ",\n    ".join(ports) + ");\n"
    yield from (f" output {port};\n" for port in ports)
    yield from (f" wire {nets[k]};\n" for k in numbers if not design.is_port(k))
    for k in numbers:
        links = [f".{name}({nets[net]})" for name, net in design.inputs(k)]
        links.append(f".Z({nets[k]})")
        yield f" {design.cell(k)} {escaped(instance_name(k))} (" + ",\n    ".join(links) + ");\n"
    yield "endmodule\n"


def library(kind):
    """The text of the library: the cells of the netlist, with any pin that a net may end at, and the repeaters."""
    yield LIBRARY + (UNITS if kind else "")
    pins = ["A", "B", "C", "D", "S", "CK"]
    for at, name in enumerate(CELLS):
        yield cell(name, pins, "Z", "(A & B) | (C & D)", at, "", pins)
    if kind:
        text = cell(FLOP, pins, "Z", "IQ", 1, "", ["CK"])
        text = text.replace("{\n", "{\n    ff (IQ, IQN) {\n      clocked_on : \"CK\";\n      next_state : \"A\";\n    }\n", 1)
        yield text.replace("timing () {\n", "timing () {\n        timing_type : rising_edge;\n")
    for at in range(8):
        yield cell(f"BUFX{at + 1}", ["A"], "Z", "A", at, f"      max_capacitance : {40 * (at + 1)};\n", ["A"])
        yield cell(f"INVX{at + 1}", ["A"], "ZN", "!A", at, f"      max_capacitance : {50 * (at + 1)};\n", ["A"])
    yield "}\n"


def cell(name, inputs, output, function, strength, limit, related):
    """The text of a cell of one output, which depends on some of the inputs."""
    text = f"  cell ({name}) {{\n    area : {strength + 1}.2;\n"
    for pin in inputs:
        text += f"    pin ({pin}) {{\n      direction : input;\n      capacitance : {1 + strength * 0.4:.1f};\n    }}\n"
    text += f"    pin ({output}) {{\n      direction : output;\n      function : \"{function}\";\n{limit}"
    for pin in related:
        text += (
            f"      timing () {{\n        related_pin : \"{pin}\";\n"
            f"        intrinsic_rise : {18 + strength};\n        intrinsic_fall : {17 + strength};\n"
            f"        rise_resistance : {2 / (1 + strength):.3f};\n        fall_resistance : {1.9 / (1 + strength):.3f};\n"
            "      }\n"
        )
    return text + "    }\n  }\n"


def constraints(design):
    """The text of the constraints, in pieces."""
    yield "vgcons 2\n\n# in ps, kiloohms and fF\ndefault required 4000\n"
    yield "block_box 200 200 400 900\nblock_box 1000.5 0 1200 150\n"
    for k in range(1, design.count + 1):
        if k % 8 == 0:
            for pin, _ in itertools.islice(design.inputs(k), 1):
                yield f"required {instance_name(k)}:{pin} {1500 + k % 977}.25\n"
        if k % 32 == 1:
            yield f"arrival {instance_name(k)}:Z {k % 200}.5\n"
        if k % 64 == 3:
            yield f"block {canonical(design.net_name(k))}:1\n"


def canonical(name):
    """A net's name without the backslashes that the SPEF file has before brackets."""
    return name.replace("\\", "")


def instance_name(k):
    return f"blk{k % 61}/sub{k % 7}/u{k}"


def nets_in(size, tables, large_nodes, kind):
    """Some more nets than a design of so many bytes has, judged by a part of it."""
    design = Design(tables, size // 700, large_nodes, kind)
    large = sum(map(len, design.groups(design.large, design.large + 1)))
    first, sample = design.count * 3 // 4 // GROUP * GROUP + 1, 4096
    mean = sum(map(len, design.groups(first, first + sample))) / sample + len("".join(design.map_rows(first)))
    return int((size - large) / mean * 1.05) // GROUP * GROUP


def pieces(design, size):
    """The text, in pieces: the head, and the nets that have room."""
    left = size
    for piece in itertools.chain(design.head(), design.groups(1, design.count + 1)):
        left -= len(piece)
        if left < 0:
            return
        yield piece


def write(pieces, path):
    with open(path, "w", encoding="ascii", newline="\n") as out:
        block, length = [], 0
        for piece in pieces:
            block.append(piece)
            length += len(piece)
            if length > BLOCK:
                out.write("".join(block))
                block, length = [], 0
        out.write("".join(block))


def main():
    size, path, kind = int(sys.argv[1]) * 2**20, sys.argv[2], "".join(sys.argv[3:])
    tables = Tables(draws())
    large_nodes = min(MOST, size // 750)
    design = Design(tables, nets_in(size, tables, large_nodes, kind), large_nodes, kind)
    write(pieces(design, size), path + ".spef")
    write(netlist(design), path + ".v")
    write(library(kind), path + ".lib")
    write(constraints(design), path + ".cons")
    print("small", canonical(design.net_name(design.small)))
    print("large", canonical(design.net_name(design.large)))


main()
