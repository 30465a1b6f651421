"""A reader of Liberty libraries of tables (NLDM): the cells with their pins, and the delays of outputs over the load.

    library = nldm.read("tables.lib", nldm.Slews(usual=300 * 10**9))
    for cell in library.cells:
        for pin in cell.pins:
            print(cell.name, pin.name, pin.curves["rise"])

Delays. At an input slew and a load a table is interpolated in both, linearly in each, as timers do; outside of a table
its outermost segment goes on. Here the slew is given for a cell, and each table `cell_rise` or `cell_fall` becomes a
curve over the load. `Slews.share` adds a share of the output's transition to the delay of the same edge.

A timing group of an output counts if its `timing_type` is absent, or one of combinational, rising_edge, falling_edge,
preset, clear, three_state_enable (also with _rise or _fall). The capacitance of a pin is the greatest of `capacitance`,
`rise_capacitance` and `fall_capacitance`, since the load must be enough for either edge; the defaults of the library
count where a pin has none. The bits of buses and bundles are pins of their own, without functions.

What is not read: constraints (setup, hold, and others), limits of transitions and of fanout, power, noise, conditions
(`when`: all states count), and the drive of three-state outputs that turn off.
"""
from __future__ import annotations

import re
from bisect import bisect_right
from dataclasses import dataclass, field
from fractions import Fraction
from functools import lru_cache

import liberty
from common import AF_PER_FF, ZS_PER_PS, Fault

MOST_BITS = 65536  # of a bus
EDGES = ("rise", "fall")
LOAD, SLEW = "load", "slew"
VARIABLES = {
    "total_output_net_capacitance": LOAD,
    "input_net_transition": SLEW,
    "input_transition_time": SLEW,
}
DIRECTIONS = ("input", "output", "inout", "internal")
CARRY = {"rising_edge", "falling_edge", "preset", "clear"}
CARRY |= {name + edge for name in ("combinational", "three_state_enable") for edge in ("", "_rise", "_fall")}
CARRY_NOT = {"three_state_disable", "three_state_disable_rise", "three_state_disable_fall"}
CARRY_NOT |= {
    f"{name}_{edge}"
    for name in ("setup", "hold", "recovery", "removal", "skew", "non_seq_setup", "non_seq_hold")
    for edge in ("rising", "falling")
}
CARRY_NOT |= {f"nochange_{first}_{second}" for first in ("high", "low") for second in ("high", "low")}
CARRY_NOT |= {"min_pulse_width", "minimum_period", "min_clock_tree_path", "max_clock_tree_path"}
NUMBER = r"[+-]?(?:[0-9]{1,30}(?:\.[0-9]{0,30})?|\.[0-9]{1,30})(?:[eE][+-]?[0-9]{1,2})?"
ONE_NUMBER = re.compile(NUMBER, re.ASCII)
NUMBERS = re.compile(rf"\s*{NUMBER}(?:(?:\s*,\s*|\s+){NUMBER})*\s*", re.ASCII)
NAME = re.compile(r"[!#-~]+")  # bytes from 33 to 126, no quote


# ---- what is read


@dataclass
class Slews:
    """The slews (zs) at the inputs of cells: that of most, and those of single ones. `share` is that of the output's
    transition which counts as delay."""

    usual: Fraction
    cells: dict[str, Fraction] = field(default_factory=dict)
    share: Fraction = Fraction(0)

    def of(self, cell):
        return self.cells.get(cell, self.usual)


@dataclass
class Curve:
    """A function of the load, linear between its points: values (zs) at loads (aF). Without loads it is constant."""

    loads: tuple[Fraction, ...]
    values: list[Fraction]

    def at(self, load):
        """The value at a load; beyond the points the outermost segment goes on."""
        if len(self.values) == 1:
            return self.values[0]
        place, part = segment(self.loads, load)
        low = self.values[place]
        return low + part * (self.values[place + 1] - low) if part else low

    def plus(self, other, share):
        """This curve and a share of another one."""
        loads = tuple(sorted({*self.loads, *other.loads}))
        points = loads or (Fraction(0),)
        return Curve(loads, [self.at(load) + share * other.at(load) for load in points])


@dataclass
class Pin:
    """A pin: capacitances in aF, the pins that its timing groups are from, and its delays by edge."""

    name: str
    line: int
    direction: str
    capacitance: int | None
    max_capacitance: int | None
    function: str | None
    three_state: bool
    pad: bool
    related: list[list[str]] = field(default_factory=list)
    curves: dict[str, list[Curve]] = field(default_factory=lambda: {edge: [] for edge in EDGES})


@dataclass
class Cell:
    """A cell with its group in the file and its pins. The area is as the file has it."""

    name: str
    group: liberty.Group
    area: str | None
    pins: list[Pin] = field(default_factory=list)

    @property
    def line(self):
        return self.group.line

    def pins_that_are(self, direction):
        return [pin for pin in self.pins if pin.direction == direction]


@dataclass
class Note:
    """What the reader tells beside faults, and at which line."""

    text: str
    line: int | None = None


@dataclass
class Library:
    """The cells of a file, and notes of what was read in a way to be aware of."""

    file: str
    name: str | None
    cells: list[Cell] = field(default_factory=list)
    notes: list[Note] = field(default_factory=list)


@dataclass
class Source:
    """A library as a group, and what is needed to read its cells. `time` and `load` are its units, in zs and aF;
    `outside` has the cells, and the lines of the tables, that do not reach as far as the slew."""

    group: liberty.Group
    file: str
    time: Fraction
    load: Fraction
    templates: dict[str, liberty.Group]
    slews: Slews
    notes: list[Note] = field(default_factory=list)
    outside: list[tuple[str, int]] = field(default_factory=list)


# ---- numbers


def number(text, file, line):
    """A number, exact."""
    if not ONE_NUMBER.fullmatch(text.strip()):
        raise Fault(f"'{text}' is not a number", file, line)
    return Fraction(text.strip())


def number_of(groups, name, file):
    """The number of the first group that has a simple attribute of this name, or None."""
    found = first(groups, name)
    return None if found is None else number(found.values[0], file, found.line)


def not_negative(groups, name, file):
    """As number_of, where a negative number is a fault."""
    value = number_of(groups, name, file)
    if value is not None and value < 0:
        raise Fault(f"'{name}' is negative", file, first(groups, name).line)
    return value


def first(groups, name):
    """The simple attribute of a name of the first group that has it."""
    return next((found for found in (group.simple(name) for group in groups) if found is not None), None)


def is_true(group, name):
    return group.text(name, "").lower() == "true"


def rounded(value):
    """The nearest whole number, halves upwards."""
    return (2 * value.numerator + value.denominator) // (2 * value.denominator)


def segment(points, place):
    """The segment of a sorted axis of two points or more that a place is in, and the place's part of it, from 0 to 1.

    Outside of the axis it is the outermost segment, with a part below 0 or above 1."""
    low = max(0, min(len(points) - 2, bisect_right(points, place) - 1))
    return low, (place - points[low]) / (points[low + 1] - points[low])


# ---- tables


@lru_cache(maxsize=4096)
def axis_points(text, scale):
    """The points of an index by its text, in units of 1/scale; None where it is no list of numbers that increase."""
    if not NUMBERS.fullmatch(text):
        return None
    points = tuple(Fraction(word) * scale for word in text.replace(",", " ").split())
    return points if all(low < high for low, high in zip(points, points[1:])) else None


def axis(source, table, template, place):
    """The variable and the points of one axis of a table: its own index, else that of the template."""
    word = template.simple(f"variable_{place}")
    variable = VARIABLES.get(word.values[0])
    if variable is None:
        reason = f"a delay over the variable '{word.values[0]}' is not read: {', '.join(sorted(VARIABLES))} are"
        raise Fault(reason, source.file, word.line)
    name = f"index_{place}"
    index = table.attribute(name) or template.attribute(name)
    if index is None:
        raise Fault(f"the table and its template have no '{name}'", source.file, table.line)
    points = axis_points(" ".join(index.values), source.load if variable == LOAD else source.time)
    if points is None:
        raise Fault(f"'{name}' is not a list of numbers that increase", source.file, index.line)
    return variable, points


def axes(source, table):
    """The axes of a table, the outer one first; none of a scalar."""
    name = table.arguments[0] if len(table.arguments) == 1 else ""
    if name == "scalar":
        return []
    template = source.templates.get(name)
    if template is None:
        raise Fault(f"'{table.title()}' has a template that the library does not have", source.file, table.line)
    count = next((k for k in range(3) if template.simple(f"variable_{k + 1}") is None), 3)
    if count not in (1, 2):
        raise Fault(f"the template '{name}' has not one or two variables", source.file, template.line)
    found = [axis(source, table, template, place) for place in range(1, count + 1)]
    if count == 2 and found[0][0] == found[1][0]:
        raise Fault(f"the template '{name}' has one variable twice", source.file, template.line)
    return found


def table_values(source, table, lengths):
    """The values of a table as texts, row by row."""
    values = table.attribute("values")
    if values is None:
        raise Fault(f"'{table.title()}' has no values", source.file, table.line)
    rows = []
    for text in values.values:
        if not NUMBERS.fullmatch(text):
            raise Fault(f"'{text}' is not a list of numbers", source.file, values.line)
        rows.append(text.replace(",", " ").split())
    words = [word for row in rows for word in row]
    wanted = 1
    for length in lengths:
        wanted *= length
    uneven = len(lengths) == 2 and len(rows) == lengths[0] and any(len(row) != lengths[1] for row in rows)
    if len(words) != wanted or uneven:
        size = " x ".join(map(str, lengths)) or "1"
        reason = f"'{table.title()}' has {len(words)} values in {len(rows)} rows, not {size}"
        raise Fault(reason, source.file, values.line)
    return words


def curve_of(source, table, slew, cell):
    """A table of times at an input slew, as a curve over the load."""
    found = axes(source, table)
    words = table_values(source, table, [len(points) for _, points in found])
    strides = {variable: (len(found[1][1]) if len(found) - k == 2 else 1) for k, (variable, _) in enumerate(found)}
    points = dict(found)
    loads, slews = points.get(LOAD, ()), points.get(SLEW, ())
    column, part = segment(slews, slew) if len(slews) > 1 else (0, Fraction(0))
    if not 0 <= part <= 1:
        source.outside.append((cell, table.line))
    values = []
    for row in range(max(1, len(loads))):
        place = row * strides.get(LOAD, 1) + column * strides.get(SLEW, 1)
        value = Fraction(words[place])
        if part:
            value += part * (Fraction(words[place + strides[SLEW]]) - value)
        values.append(value * source.time)
    return Curve(loads, values)


# ---- timing groups


def carries(source, timing):
    """Whether a timing group carries a signal."""
    kind = timing.simple("timing_type")
    if kind is None or kind.values[0] in CARRY:
        return True
    if kind.values[0] not in CARRY_NOT:
        raise Fault(f"the timing_type '{kind.values[0]}' is unknown", source.file, kind.line)
    return False


class ArcReader:
    """Reads the timing groups of a cell. A group that many bits of a bus share is read once.

    `names` has the pins of each name that `related_pin` may have: one of a pin, the bits of a bus."""

    def __init__(self, source, cell, names):
        self.source, self.cell, self.names = source, cell, names
        self.read: dict[int, tuple[list[str], dict[str, Curve]]] = {}

    def put_arcs(self, pin, groups):
        """Gives a pin what its timing groups say."""
        for timing in (timing for group in groups for timing in group.groups_of("timing")):
            if not carries(self.source, timing):
                continue
            if id(timing) not in self.read:
                self.read[id(timing)] = self.related_pins(timing), self.curves(timing)
            related, curves = self.read[id(timing)]
            pin.related.append(related)
            for edge, curve in curves.items():
                pin.curves[edge].append(curve)

    def curves(self, timing):
        """The delay curves of a timing group by edge, with the share of the transition that is wanted."""
        share, found = self.source.slews.share, {}
        for edge in EDGES:
            delay = self.table(timing, f"cell_{edge}")
            if delay is None:
                continue
            found[edge] = delay
            if share:
                transition = self.table(timing, f"{edge}_transition")
                if transition is None:
                    raise Fault(f"the timing group has no '{edge}_transition'", self.source.file, timing.line)
                found[edge] = delay.plus(transition, share)
        if not found:
            raise Fault("the timing group has no table 'cell_rise' or 'cell_fall'", self.source.file, timing.line)
        return found

    def table(self, timing, name):
        """The curve of the one table of a kind in a timing group, or None."""
        found = timing.groups_of(name)
        if len(found) > 1:
            raise Fault(f"the timing group has '{name}' twice", self.source.file, found[1].line)
        return curve_of(self.source, found[0], self.source.slews.of(self.cell), self.cell) if found else None

    def related_pins(self, timing):
        """The pins that a timing group is from."""
        found = first([timing], "related_pin") or first([timing], "related_bus_pins")
        if found is None:
            raise Fault("the timing group has no 'related_pin'", self.source.file, timing.line)
        pins = []
        for word in found.values[0].split():
            bits = self.names.get(word) or bits_of_range(word)
            if any(bit not in self.names for bit in bits):
                raise Fault(f"the related pin '{word}' is no pin of the cell", self.source.file, found.line)
            pins += bits
        if not pins:
            raise Fault("'related_pin' names no pin", self.source.file, found.line)
        return pins


# ---- pins, buses and bundles


def bits_of_range(name):
    """The bits that a name such as `A[3:0]` stands for, in its order; else the name alone."""
    match = re.fullmatch(r"(.+)\[([0-9]{1,5}):([0-9]{1,5})\]", name, re.ASCII)
    if match is None:
        return [name]
    begin, end = int(match[2]), int(match[3])
    step = 1 if begin <= end else -1
    return [f"{match[1]}[{bit}]" for bit in range(begin, end + step, step)]


def bus_members(source, cell, bus):
    """The names of the bits of a bus, by its type."""
    kind = bus.simple("bus_type")
    name = kind.values[0] if kind else None
    types = cell.groups_of("type") + source.group.groups_of("type")
    found = next((group for group in types if group.arguments == [name]), None)
    if found is None:
        raise Fault(f"the type of '{bus.title()}' is not there", source.file, kind.line if kind else bus.line)
    ends = [number_of([found], f"bit_{place}", source.file) for place in ("from", "to")]
    if any(bit is None or bit.denominator != 1 or not 0 <= bit < MOST_BITS for bit in ends):
        reason = f"'{found.title()}' has no 'bit_from' and 'bit_to' that are whole and less than {MOST_BITS}"
        raise Fault(reason, source.file, found.line)
    if source.group.text("bus_naming_style", "%s[%d]") != "%s[%d]":
        raise Fault("a bus_naming_style other than %s[%d] is not read", source.file, bus.line)
    return bits_of_range(f"{bus.arguments[0]}[{ends[0]}:{ends[1]}]")


def members(source, cell, group):
    """The pins of a bus or a bundle."""
    if len(group.arguments) != 1:
        raise Fault(f"'{group.title()}' has not one name", source.file, group.line)
    if group.kind == "bus":
        return bus_members(source, cell, group)
    found = group.attribute("members")
    if found is None:
        raise Fault(f"'{group.title()}' has no members", source.file, group.line)
    return [word for text in found.values for word in text.replace(",", " ").split()]


def sources_of_pins(source, cell):
    """Where each pin has its attributes: its name, and its groups. And the pins of each name, for `related_pin`."""
    groups_of_pin: dict[str, list[liberty.Group]] = {}
    names: dict[str, list[str]] = {}

    def put(name, groups):
        if name in groups_of_pin:
            raise Fault(f"the pin '{name}' of '{cell.title()}' is there twice", source.file, groups[0].line)
        groups_of_pin[name], names[name] = groups, [name]

    for group in cell.groups:
        if group.kind == "pin":
            for name in group.arguments:
                put(name, [group])
        elif group.kind in ("bus", "bundle"):
            pins = [(word, pin) for pin in group.groups_of("pin") for word in pin.arguments]
            inside = {name: pin for word, pin in pins for name in bits_of_range(word)}
            bits = members(source, cell, group)
            odd = sorted(set(inside) - set(bits))
            if odd:
                raise Fault(f"the pin '{odd[0]}' is no bit of '{group.title()}'", source.file, inside[odd[0]].line)
            for name in bits:
                put(name, [inside[name], group] if name in inside else [group])
            names[group.arguments[0]] = bits
    return groups_of_pin, names


def checked_name(name, file, line):
    if not NAME.fullmatch(name):
        raise Fault(f"the name '{name}' has other bytes than those from 33 to 126, or a quote", file, line)
    return name


def capacitance(source, groups, direction):
    """The capacitance of a pin (aF): the greatest that is given, else the library's default; or None."""
    names = ("capacitance", "rise_capacitance", "fall_capacitance")
    values = [not_negative(groups, name, source.file) for name in names]
    values = [value for value in values if value is not None]
    if not values and direction != "internal":
        values = [not_negative([source.group], f"default_{direction}_pin_cap", source.file)]
    return None if not values or values[0] is None else rounded(max(values) * source.load)


def greatest_load(source, groups, direction):
    """The greatest load that a pin may drive (aF), or None."""
    value = not_negative(groups, "max_capacitance", source.file)
    if value is None and direction in ("output", "inout"):
        value = not_negative([source.group], "default_max_capacitance", source.file)
    return None if value is None else value * source.load // 1


# ---- cells


def read_pin(source, cell, name, groups):
    """A pin, without its timing groups."""
    line = groups[0].line
    direction = first(groups, "direction")
    if direction is None:
        raise Fault(f"the pin '{name}' of '{cell.title()}' has no direction", source.file, line)
    if direction.values[0] not in DIRECTIONS:
        raise Fault(f"the direction '{direction.values[0]}' is unknown", source.file, direction.line)
    function = groups[0].simple("function") if groups[0].kind == "pin" and len(groups) == 1 else None
    if function is not None and '"' in function.values[0]:
        raise Fault("a function with a quote in it is not read", source.file, function.line)
    way = direction.values[0]
    return Pin(
        checked_name(name, source.file, line),
        line,
        way,
        capacitance(source, groups, way),
        greatest_load(source, groups, way),
        None if function is None else function.values[0],
        three_state=first(groups, "three_state") is not None,
        pad=any(is_true(group, "is_pad") for group in groups),
    )


def read_cell(source, group):
    """A cell with its pins, and their delays at the cell's input slew."""
    if len(group.arguments) != 1:
        raise Fault("a cell has not one name", source.file, group.line)
    name = checked_name(group.arguments[0], source.file, group.line)
    not_negative([group], "area", source.file)
    groups_of_pin, names = sources_of_pins(source, group)
    cell = Cell(name, group, group.text("area"))
    reader = ArcReader(source, name, names)
    for pin_name, groups in groups_of_pin.items():
        pin = read_pin(source, group, pin_name, groups)
        if pin.direction != "input":
            reader.put_arcs(pin, groups)
        cell.pins.append(pin)
        if pin.direction == "input" and pin.capacitance is None:
            source.notes.append(Note(f"the input {name}/{pin_name} has no capacitance", pin.line))
    return cell


def read_cells(source):
    """The cells of a library, each with its own name."""
    cells: dict[str, Cell] = {}
    for group in source.group.groups_of("cell"):
        cell = read_cell(source, group)
        if cell.name in cells:
            raise Fault(f"the cell {cell.name} is there twice", source.file, cell.line)
        cells[cell.name] = cell
    if source.outside:
        name, line = source.outside[0]
        count = len({cell for cell, _ in source.outside})
        text = f"the slew is outside of tables of {count} cells, which are extrapolated, first of {name}"
        source.notes.append(Note(text, line))
    return list(cells.values())


def source_of(group, slews):
    """A library, which has to be one of tables."""
    model = group.simple("delay_model")
    if model is not None and model.values[0] != "table_lookup":
        raise Fault(f"the delay_model '{model.values[0]}' is not table_lookup", group.file, model.line)
    include = group.attribute("include_file")
    if include is not None:
        raise Fault("'include_file' is not followed: put the text in its place", group.file, include.line)
    templates: dict[str, liberty.Group] = {}
    for template in group.groups_of("lu_table_template"):
        for name in template.arguments:
            templates.setdefault(name, template)
    time = liberty.time_unit_ps(group) * ZS_PER_PS
    load = liberty.load_unit_ff(group) * AF_PER_FF
    return Source(group, group.file, time, load, templates, slews)


def read(path, slews) -> Library:
    """The cells of a library of tables, with delays at these slews."""
    source = source_of(liberty.read(path), slews)
    cells = read_cells(source)
    name = source.group.arguments[0] if len(source.group.arguments) == 1 else None
    return Library(path, name, cells, source.notes)
