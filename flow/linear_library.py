#!/usr/bin/env python3
"""Turns a Liberty library of tables (NLDM) into a linear one (`generic_cmos`), which vginsert reads.

    linear_library.py TABLES.lib OUT.lib {--slew PS | --slews FILE | both} [--slew-share S] [--loads LOW HIGH]
                      [--fit cover|least] [--edges worst|rise|fall|apart] [--repeaters GLOB].. [--all-cells]

The delay of an output becomes a line over its load: an intrinsic time plus a resistance times the load. Both are
fitted to the tables `cell_rise` and `cell_fall` at one input slew, over a range of loads. Every cell of the library
is written, with area, pins, directions, capacitances, `max_capacitance`, functions and the pins that its outputs
depend on. Each cell that is no repeater has `dont_use : true`. Standard output has a table of the repeaters (with
`--all-cells` one of the others too) and of how far the lines are from the tables: the worst misfits in ps and in per
cent of the delay, positive where the line is above. Notes of what is not carried over are on standard error.

Delay over load. At each load the worst delay counts: that of all timing groups of an output, and of both edges
(`--edges worst`). `rise` and `fall` count one edge alone. `apart` fits each edge by itself; vginsert then takes the
greater intrinsic time and the greater resistance, which together may be more than either edge has. The head of
flow/nldm.py says how a table is read.

Slews. `--slew` is the slew (ps) at the inputs of cells, in the definition of the library's own tables (its thresholds
and its derating). `--slews FILE` takes it from a design: flow/opensta.tcl writes such a file. A line `* PS` is of all
cells, and --slew goes before it; a line `CELL PS` is of one cell, and the greatest counts where a cell has several.
Other lines are empty, or comments from `#`. A linear library has no slews: the delay of the next cell grows with the
slew at its input, which grows with the load of this one. `--slew-share S`, from 0 to 1, adds that share of the output's
transition to the delay of the same edge, to stand for this; it is 0 if it is not given.

Loads. `--loads LOW HIGH` (fF) is the range in which the line is fitted, up to `max_capacitance` where an output has
less than HIGH. Without it the range is from the least input capacitance of a repeater to `max_capacitance` or the end
of the tables, whichever is less. Fitted are the loads of the tables in the range and its two ends. A narrow range, of
the loads that repeaters are to drive, gives the better line.

Lines. `--fit cover`, the default, is a line that is never below the tables at these loads, and so nowhere in the
range; of these the one whose greatest distance is least. It is the default because no new cell then counts as faster
than the tables have it at this slew and in this range. (What an old driver gains by a smaller load follows the slope
of its line, and may be less by the tables.) `--fit least` is the line of least squares, which has the better mean and
is below the tables at some loads. Neither number is negative. A resistance that would be is 0; an intrinsic time that
would be is 0, and the resistance is then fitted again. A cover stays one. A note says where this happened.

Repeaters. `--repeaters GLOB` chooses cells by name; a cell is one where it matches any of them and can be a repeater.
Without it each cell that can be one is chosen. A cell can be one where it has one input with a capacitance and one
output, the output's function is the input or its complement, each timing group is from the input, and it is not
marked `dont_use`, a pad, a level shifter or three-state. A pattern that no such cell matches is a fault, and so are
more than 256 repeaters.

Not carried over: slews, transitions and their limits, fanout limits, constraints (setup, hold, and others), power,
noise, conditions (`when`: all states count) and the drive of three-state outputs that turn off. Buses and bundles are
written as single bits, without functions. The drive of an `inout` pin is written, but vginsert uses those of outputs
alone.
"""
from __future__ import annotations

import argparse
import fnmatch
import os
import re
import sys
from dataclasses import dataclass, field
from fractions import Fraction

import common
import liberty
import nldm
from common import AF_PER_FF, AF_PLACES, GREATEST, MOHM_PER_OHM, ZS_PER_PS, ZS_PLACES, Fault
from nldm import EDGES

MOST_REPEATERS = 256
STEP = 10**6  # zs: intrinsic times are written in fs
KILOHM_PLACES = 6  # a resistance in mΩ as text in kilohms, which are ps per fF
PLAIN_NAME = re.compile(r"[A-Za-z0-9_\[\]]+", re.ASCII)


@dataclass
class Line:
    """A delay: an intrinsic time (zs) and a resistance (mΩ), what of them would be negative and is 0 instead, and the
    worst misfits: of the line less the tables in zs, and as a share of the delay."""

    intrinsic: int
    resistance: int
    clamped: str = ""
    misfit: Fraction = Fraction(0)
    share: Fraction = Fraction(0)


@dataclass
class Cell:
    """A cell and what becomes of it. `inverts` is None unless its one output is its one input (False) or the complement
    (True); `hindrance` is what keeps it from being a repeater; `lines` are those of its pins by edge."""

    tables: nldm.Cell
    inverts: bool | None
    hindrance: str | None
    repeater: bool = False
    lines: dict[str, dict[str, Line]] = field(default_factory=dict)

    @property
    def name(self):
        return self.tables.name


@dataclass
class Job:
    """The library that was read, and what is to become of it."""

    options: argparse.Namespace
    library: nldm.Library
    cells: list[Cell] = field(default_factory=list)

    @property
    def file(self):
        return self.library.file

    def note(self, text, line=None):
        self.library.notes.append(nldm.Note(text, line))


# ---- repeaters


def inversion_of(cell):
    """Whether a cell of one input and one output inverts; None of any other cell."""
    inputs, outputs = cell.pins_that_are("input"), cell.pins_that_are("output")
    if (len(inputs), len(outputs), len(cell.pins)) != (1, 1, 2) or outputs[0].function is None:
        return None
    return liberty.inversion(outputs[0].function, inputs[0].name)


def hindrance(cell, inverts, edges):
    """What keeps a cell from being a repeater, or None."""
    if inverts is None:
        return "it is no buffer and no inverter"
    for name in ("dont_use", "pad_cell", "is_level_shifter"):
        if nldm.is_true(cell.group, name):
            return f"it has '{name} : true'"
    if cell.group.groups_of("bus") or cell.group.groups_of("bundle"):
        return "it has a bus or a bundle"
    (source,), (output,) = cell.pins_that_are("input"), cell.pins_that_are("output")
    if source.capacitance is None:
        return "its input has no capacitance"
    if source.pad or output.pad or output.three_state:
        return "it is a pad or three-state"
    if not output.related or any(set(names) != {source.name} for names in output.related):
        return "its output has no timing group, or one that is not from its input"
    if not all(curves_of_edge(output, edge, edges) for edge in EDGES):
        return "its output has no tables of an edge"
    return None


def make_cell(cell, edges):
    inverts = inversion_of(cell)
    return Cell(cell, inverts, hindrance(cell, inverts, edges))


def check_pattern(job, pattern):
    """Some cell that can be a repeater has to match a pattern."""
    found = [cell for cell in job.cells if fnmatch.fnmatchcase(cell.name, pattern)]
    if not found:
        raise Fault(f"no cell matches --repeaters {pattern}", job.file)
    if all(cell.hindrance for cell in found):
        reason = f"no cell that matches --repeaters {pattern} can be a repeater; {found[0].name}: {found[0].hindrance}"
        raise Fault(reason, job.file, found[0].tables.line)


def choose_repeaters(job):
    """Marks the cells that are to be repeaters."""
    patterns = job.options.repeaters or []
    for pattern in patterns:
        check_pattern(job, pattern)
    hindered: dict[str, list[Cell]] = {}
    for cell in job.cells:
        chosen = not patterns or any(fnmatch.fnmatchcase(cell.name, pattern) for pattern in patterns)
        cell.repeater = chosen and cell.hindrance is None
        if patterns and chosen and cell.hindrance:
            hindered.setdefault(cell.hindrance, []).append(cell)
    for reason, some in hindered.items():
        names = " ".join(cell.name for cell in some)
        job.note(f"not repeaters though --repeaters matches them, as {reason}: {names}", some[0].tables.line)
    repeaters = [cell for cell in job.cells if cell.repeater]
    if not repeaters:
        job.note("the library has no cell that can be a repeater")
    if len(repeaters) > MOST_REPEATERS:
        reason = f"{len(repeaters)} cells are repeaters, more than {MOST_REPEATERS}: choose some by --repeaters"
        raise Fault(reason, job.file, repeaters[MOST_REPEATERS].tables.line)


# ---- lines


def curves_of_edge(pin, edge, edges):
    """The curves to which the line of an edge is fitted, by the option --edges."""
    if edges == "worst":
        return pin.curves["rise"] + pin.curves["fall"]
    return pin.curves[edge if edges == "apart" else edges]


def range_of_loads(job, pin, curves, least):
    """The loads (aF) between which a line is fitted."""
    ends = [curve.loads[-1] for curve in curves if curve.loads]
    most = [] if pin.max_capacitance is None else [Fraction(pin.max_capacitance)]
    if job.options.loads:
        low, high = job.options.loads
        return low, (most[0] if most and low < most[0] < high else high)
    high = min([max(ends)] + most) if ends else least
    if least < high:
        return least, high
    begin = min((curve.loads[0] for curve in curves if curve.loads), default=high)
    return (begin if begin < high else Fraction(0)), high


def points_of(curves, low, high):
    """The worst delay at the loads of the tables in a range and at its ends: pairs of aF and zs."""
    loads = {low, high}
    for curve in curves:
        loads.update(load for load in curve.loads if low < load < high)
    return [(load, max(curve.at(load) for curve in curves)) for load in sorted(loads)]


def rounded_up(value, step=1):
    """The least multiple of a step that is not less than a value."""
    return -(-value // step) * step


def hull_slopes(points, sign):
    """The slopes of the edges of the convex hull above the points (sign 1) or below them (sign -1)."""
    hull = []
    for x, y in points:
        while len(hull) > 1:
            (ax, ay), (bx, by) = hull[-2:]
            if sign * ((by - ay) * (x - ax) - (y - ay) * (bx - ax)) > 0:
                break
            hull.pop()
        hull.append((x, y))
    return [(by - ay) / (bx - ax) for (ax, ay), (bx, by) in zip(hull, hull[1:])]


def cover(points):
    """The line above all points whose greatest distance from them is least; its numbers are not negative."""

    def spread(slope):
        rests = [delay - slope * load for load, delay in points]
        return max(rests) - min(rests), slope

    slopes = hull_slopes(points, 1) + hull_slopes(points, -1) or [Fraction(0)]
    resistance = nldm.rounded(min(slopes, key=spread))
    clamped = "resistance" if resistance < 0 else ""
    resistance = max(0, resistance)
    intrinsic = rounded_up(max(delay - resistance * load for load, delay in points), STEP)
    if intrinsic >= 0:
        return Line(intrinsic, resistance, clamped)
    return Line(0, max([0] + [rounded_up(delay / load) for load, delay in points if load]), "intrinsic time")


def least_squares(points):
    """The line of least squares; its numbers are not negative."""
    mean_load = sum(load for load, _ in points) / len(points)
    mean_delay = sum(delay for _, delay in points) / len(points)
    square = sum((load - mean_load) ** 2 for load, _ in points)
    product = sum((load - mean_load) * (delay - mean_delay) for load, delay in points)
    resistance = nldm.rounded(product / square) if square else 0
    clamped = "resistance" if resistance < 0 else ""
    resistance = max(0, resistance)
    intrinsic = nldm.rounded((mean_delay - resistance * mean_load) / STEP) * STEP
    if intrinsic >= 0:
        return Line(intrinsic, resistance, clamped)
    square = sum(load**2 for load, _ in points)
    product = sum(load * delay for load, delay in points)
    return Line(0, max(0, nldm.rounded(product / square)) if square else 0, "intrinsic time")


def measure(line, points):
    """Sets the worst misfits of a line: those of the greatest size, with their signs."""
    for load, delay in points:
        misfit = line.intrinsic + line.resistance * load - delay
        line.misfit = max(line.misfit, misfit, key=abs)
        if delay > 0:
            line.share = max(line.share, misfit / delay, key=abs)
    return line


def fit(job, cell, pin, curves, least):
    """The line of some curves."""
    points = points_of(curves, *range_of_loads(job, pin, curves, least))
    line = measure((cover if job.options.fit == "cover" else least_squares)(points), points)
    if max(line.intrinsic, line.resistance) > GREATEST:
        raise Fault(f"the delay of {cell.name}/{pin.name} is too large", job.file, pin.line)
    if line.clamped:
        job.note(f"{cell.name}/{pin.name}: the {line.clamped} would be negative, and is 0", pin.line)
    return line


def lines_of(job, cell, pin, least):
    """The lines of a pin by edge: one of both edges, or one of each."""
    if job.options.edges == "apart":
        return {edge: fit(job, cell, pin, pin.curves[edge], least) for edge in EDGES if pin.curves[edge]}
    curves = curves_of_edge(pin, EDGES[0], job.options.edges)
    return dict.fromkeys(EDGES, fit(job, cell, pin, curves, least)) if curves else {}


def least_load(cells):
    """The least input capacitance (aF) of the repeaters, or of all cells where none is a repeater."""
    cells = [cell for cell in cells if cell.repeater] or cells
    inputs = [pin.capacitance for cell in cells for pin in cell.tables.pins_that_are("input")]
    return Fraction(min((value for value in inputs if value is not None), default=0))


def fit_all(job, least):
    """Fits the lines of all pins that drive, and notes the outputs that do not."""
    for cell in job.cells:
        for pin in cell.tables.pins:
            cell.lines[pin.name] = lines_of(job, cell, pin, least)
            if pin.direction == "output" and not cell.lines[pin.name]:
                job.note(f"the output {cell.name}/{pin.name} has no drive: no table gives its delay", pin.line)


# ---- what is written and printed


def ff(capacitance):
    return common.decimal_text(capacitance, AF_PLACES)


def written_name(name):
    """A name as an argument of a group."""
    return name if PLAIN_NAME.fullmatch(name) else f'"{name}"'


def timing_text(pin, lines):
    """The timing group of a pin: all pins that it depends on, and its lines."""
    related = dict.fromkeys(name for names in pin.related for name in names)
    yield "      timing () {"
    yield f'        related_pin : "{" ".join(related)}";'
    for edge, line in lines.items():
        intrinsic = common.decimal_text(line.intrinsic, ZS_PLACES)
        resistance = common.decimal_text(line.resistance, KILOHM_PLACES)
        yield f"        intrinsic_{edge} : {intrinsic}; {edge}_resistance : {resistance};"
    yield "      }"


def pin_text(cell, pin):
    yield f"    pin ({written_name(pin.name)}) {{"
    yield f"      direction : {pin.direction};"
    if pin.capacitance is not None:
        yield f"      capacitance : {ff(pin.capacitance)};"
    if pin.max_capacitance is not None:
        yield f"      max_capacitance : {ff(pin.max_capacitance)};"
    if pin.function is not None:
        function = pin.function
        if cell.repeater:
            function = ("!" if cell.inverts else "") + cell.tables.pins_that_are("input")[0].name
        yield f'      function : "{function}";'
    if pin.related:
        yield from timing_text(pin, cell.lines[pin.name])
    yield "    }"


def cell_text(cell):
    yield f"  cell ({written_name(cell.name)}) {{"
    if cell.tables.area is not None:
        yield f"    area : {cell.tables.area};"
    if not cell.repeater:
        yield "    dont_use : true;"
    for pin in cell.tables.pins:
        yield from pin_text(cell, pin)
    yield "  }"


def ps(time):
    """A time in zs as text in ps, with 3 decimals."""
    return f"{float(time) / ZS_PER_PS:.3f}"


def choices(job, least):
    """What the lines depend on, in words, a line each."""
    options = job.options
    yield f"input slew {ps(options.slew)} ps{' or as ' + options.slews if options.slews else ''}, as the tables have it"
    if options.slew_share:
        yield f"share of the output's transition in the delay: {float(options.slew_share):g}"
    if options.loads:
        loads = " to ".join(ff(nldm.rounded(load)) for load in options.loads)
        yield f"loads from {loads} fF, at most to max_capacitance"
    else:
        yield f"loads from {ff(nldm.rounded(least))} fF to max_capacitance or the end of the tables"
    yield f"edges: {options.edges}; fit: {options.fit}; repeaters: {' '.join(options.repeaters or ['all'])}"


def library_text(job, least):
    """The linear library."""
    name = job.library.name or ""
    words = [f"Written by linear_library.py from {job.file}", *choices(job, least)]
    yield "/* " + "\n   ".join(word.replace("*/", "* /") for word in words)
    yield "   A delay is an intrinsic time (ps) plus a resistance (kilohm) times a load (fF). */"
    yield f"library ({name if re.fullmatch('[A-Za-z][A-Za-z0-9_]*', name) else 'linear'}) {{"
    yield "  delay_model : generic_cmos;"
    yield '  time_unit : "1ps";'
    yield "  capacitive_load_unit (1, ff);"
    for cell in job.cells:
        yield from cell_text(cell)
    yield "}"


HEADINGS = ["cell", "kind", "input fF", "ohm", "intrinsic ps", "area", "max load fF", "misfit ps", "misfit %"]


def table_row(cell, pin):
    """A row of the printed table: an output with its line, as vginsert takes it."""
    lines = list(cell.lines[pin.name].values())
    inputs = [one.capacitance for one in cell.tables.pins_that_are("input") if one.capacitance is not None]
    kind = ("inverter" if cell.inverts else "buffer") if cell.repeater else "other"
    worst = max((line.misfit for line in lines), key=abs)
    share = max((line.share for line in lines), key=abs)
    return [
        cell.name if cell.repeater else f"{cell.name}/{pin.name}",
        kind,
        ff(max(inputs)) if inputs else "-",
        f"{max(line.resistance for line in lines) / MOHM_PER_OHM:.1f}",
        ps(max(line.intrinsic for line in lines)),
        cell.tables.area or "0",
        "-" if pin.max_capacitance is None else ff(pin.max_capacitance),
        ("+" if worst > 0 else "") + ps(worst),
        f"{float(share) * 100:+.2f}",
    ]


def print_table(cells, repeaters):
    """Prints the rows of the repeaters, or of all others."""
    pins = [(cell, pin) for cell in cells if cell.repeater == repeaters for pin in cell.tables.pins]
    rows = [table_row(cell, pin) for cell, pin in pins if cell.lines[pin.name]]
    left = [title in ("cell", "kind") for title in HEADINGS]
    print("\n".join(common.aligned([HEADINGS, *rows], left)))


def print_notes(job):
    for note in job.library.notes:
        place = job.file if note.line is None else f"{job.file}:{note.line}"
        print(f"linear_library.py: note: {place}: {note.text}", file=sys.stderr)


# ---- options


def amount(text):
    """A number that is not negative, of an option."""
    if not nldm.ONE_NUMBER.fullmatch(text) or Fraction(text) < 0:
        raise argparse.ArgumentTypeError(f"'{text}' is not a number of 0 or more")
    return Fraction(text)


def time_of_option(text):
    return amount(text) * ZS_PER_PS


def load_of_option(text):
    return amount(text) * AF_PER_FF


def share_of_option(text):
    if amount(text) > 1:
        raise argparse.ArgumentTypeError(f"'{text}' is more than 1")
    return amount(text)


def options_of(words):
    parser = common.parser(__doc__)
    add = parser.add_argument
    add("tables", metavar="TABLES.lib", help="the library with tables (NLDM)")
    add("out", metavar="OUT.lib", help="the linear library to be written")
    add("--slew", type=time_of_option, metavar="PS", help="slew at the inputs of cells in ps")
    add("--slews", metavar="FILE", help="lines 'CELL PS': the slew of single cells, and of '*' that of all others")
    add("--slew-share", type=share_of_option, default=Fraction(0), metavar="S", help="0 to 1, default 0")
    add("--loads", type=load_of_option, nargs=2, metavar=("LOW", "HIGH"), help="the range of loads in fF")
    add("--fit", choices=("cover", "least"), default="cover", help="a cover (the default), or least squares")
    add("--edges", choices=("worst", "rise", "fall", "apart"), default="worst", help="default worst")
    add("--repeaters", action="append", metavar="GLOB", help="names of the cells that are repeaters")
    add("--all-cells", action="store_true", help="print the table of the other cells too")
    options = parser.parse_args(words)
    if options.slew is None and options.slews is None:
        parser.error("--slew or --slews is missing")
    if options.loads and options.loads[0] >= options.loads[1]:
        parser.error("--loads: LOW is not less than HIGH")
    return options


def read_slews(path):
    """The slews (zs) of a file by cell, with their lines: the greatest of each."""
    slews: dict[str, tuple[Fraction, int]] = {}
    for count, text in enumerate(common.read_text(path).split("\n"), 1):
        words = text.split("#")[0].split()
        if not words:
            continue
        if len(words) != 2:
            raise Fault("the line is not a cell and a slew", path, count)
        slew = nldm.number(words[1], path, count) * ZS_PER_PS
        if slew < 0:
            raise Fault("the slew is negative", path, count)
        slews[words[0]] = max((slew, count), slews.get(words[0], (slew, count)))
    return slews


# ---- the run


def make_job(options):
    """Reads the library at the slews that are told."""
    if all(map(os.path.exists, (options.tables, options.out))) and os.path.samefile(options.tables, options.out):
        raise Fault("the library of tables is also the file to be written", options.tables)
    told = read_slews(options.slews) if options.slews else {}
    usual, _ = told.pop("*", (None, 0))
    if options.slew is None:
        options.slew = usual
    if options.slew is None:
        raise Fault("there is no line '* PS', and no --slew", options.slews)
    slews = nldm.Slews(options.slew, {name: slew for name, (slew, _) in told.items()}, options.slew_share)
    library = nldm.read(options.tables, slews)
    names = {cell.name for cell in library.cells}
    unknown = next((name for name in told if name not in names), None)
    if unknown is not None:
        raise Fault(f"the library has no cell {unknown}", options.slews, told[unknown][1])
    return Job(options, library, [make_cell(cell, options.edges) for cell in library.cells])


def main(words=None):
    """Turns the library of tables into a linear one, and prints what became of it."""
    options = options_of(words)
    job = make_job(options)
    choose_repeaters(job)
    least = least_load(job.cells)
    fit_all(job, least)
    common.write_text(options.out, "\n".join(library_text(job, least)) + "\n")
    print_notes(job)
    count = sum(cell.repeater for cell in job.cells)
    print(f"{job.file}: {len(job.cells)} cells, {count} repeaters", *choices(job, least), sep="\n")
    print_table(job.cells, True)
    if options.all_cells:
        print()
        print_table(job.cells, False)


if __name__ == "__main__":
    common.run(main)
