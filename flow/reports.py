"""Reads the reports that vginsert prints: `read(path) -> Report`.

Each line is checked against the forms of docs/FORMATS.md (Reports), and what lines say of each other is checked too:

- as many cells, widths, points and picks as are told; a last line with its line feed;
- a net is there once; the points of a frontier rise in cost and slack;
- mode `sta`: the slack of the design is the least of its nets;
- mode `repair`: the last line counts the lines before it, and its slack is the least of theirs;
- mode `total`: each point has the same nets, what they cost together, and the least of their slacks.

What differs is a `common.Fault` with the file and the line. A report without a line is one too, since a run that failed
leaves such a file. A report of mode `best` that ends early between two nets cannot be told from a whole one; one of
`repair` without its last line looks like one of `best`, unless the caller says which mode it expects. The modes `check`
and `gen` are not read.

Slacks and delays are in zs, costs in thousandths of the cells' area, capacitances in aF.
"""
from __future__ import annotations

import re
from dataclasses import dataclass, field

import common

MODES = frozenset("wire time sta segment best repair frontier total width".split())


@dataclass
class Net:
    """The lines of one net. What its mode does not tell is None or empty."""

    name: str
    line: int
    slack: int | None = None
    polarity: str | None = None  # mode time: `right` or `wrong`
    wrong_at: str | None = None  # the first sink of the wrong polarity
    cost: int | None = None
    cells: list[tuple[str, str]] = field(default_factory=list)  # (node, cell)
    told_cells: int = 0
    widths: list[tuple[str, int]] = field(default_factory=list)  # (the node below the wire, number of the width)
    told_widths: int = 0
    points: list[Point] = field(default_factory=list)
    told_points: int = 0
    capacitance: int | None = None  # mode wire
    sinks: list[tuple[str, int]] = field(default_factory=list)  # mode wire: (node, wire delay)
    parts: int | None = None  # mode segment
    nodes: int | None = None
    refused: str | None = None  # number and kind, as `8 Mismatch`
    none: bool = False


@dataclass
class Point:
    """A point of the frontier of a net."""

    line: int
    cost: int
    slack: int
    told_cells: int
    cells: list[tuple[str, str]] = field(default_factory=list)
    told_widths: int = 0
    widths: tuple = ()


@dataclass
class Pick(Point):
    """What a point of mode total takes of a net."""

    name: str = ""


@dataclass
class TotalPoint:
    line: int
    cost: int
    slack: int
    picks: list[Pick] = field(default_factory=list)


@dataclass
class Design:
    """The first line of mode sta: the slack and the endpoint that has it, or why the design is refused."""

    line: int
    slack: int | None = None
    end: str | None = None
    refused: str | None = None


@dataclass
class Summary:
    """The last line of mode repair."""

    line: int
    nets: int
    met: int
    short: int
    none: int
    refused: int
    worst: int | None


@dataclass
class Report:
    """A report. The mode is None where its lines are those of several modes, as where each net is refused."""

    file: str
    mode: str | None = None
    nets: list[Net] = field(default_factory=list)
    design: Design | None = None
    summary: Summary | None = None
    points: list[TotalPoint] = field(default_factory=list)
    told_points: int | None = None  # mode total: 0 for `total none`

    def net(self, name) -> Net | None:
        return next((net for net in self.outcome() if net.name == name), None)

    def outcome(self) -> list[Net]:
        """The nets with what the run came to: of a frontier the last point, in mode total the picks of the last one."""
        if self.mode == "frontier":
            return [of_point(net, net.points[-1]) if net.points else net for net in self.nets]
        picks = self.points[-1].picks if self.points else []
        return self.nets + [of_point(Net(pick.name, pick.line), pick) for pick in picks]


def of_point(net, point) -> Net:
    """The net with the placement of a point."""
    return Net(net.name, point.line, slack=point.slack, cost=point.cost, cells=point.cells, told_cells=point.told_cells)


def read(path, mode=None) -> Report:
    """The report of a file. Where a mode is given the report must be one of this mode."""
    return parse(common.read_text(path), path, mode)


def parse(text, file, mode=None) -> Report:
    """The report of a text."""
    if not text:
        raise common.Fault("the report has no line: the run failed, or there is no net", file, 1)
    lines = text.split("\n")
    if lines[-1]:
        raise common.Fault("the last line has no line feed: the report is cut off", file, len(lines))
    reader = Reader(file)
    for number, line in enumerate(lines[:-1], 1):
        reader.take(line, number)
    return reader.finish(mode)


# ---- the forms of the lines: the modes that print each, its words, and the method that takes it

NAME, INT, NAT = "([^ ]+)", "(-?[0-9]{1,40})", "([0-9]{1,40})"
FORMS = [
    ("time", f"net {NAME} slack {INT} polarity (?:right|wrong {NAME})", "timed_net"),
    ("sta", f"net {NAME} slack {INT}", "sta_net"),
    ("best repair", f"net {NAME} slack {INT} cost {NAT} cells {NAT}", "placed_net"),
    ("width", f"net {NAME} slack {INT} cost {NAT} cells {NAT} wide {NAT}", "placed_net"),
    ("frontier", f"net {NAME} points {NAT}", "frontier_net"),
    ("wire", f"net {NAME} total {NAT}", "wire_net"),
    ("segment", f"net {NAME} parts {NAT} nodes {NAT}", "segment_net"),
    ("best repair frontier width", f"net {NAME} none", "none_net"),
    (" ".join(MODES), f"net {NAME} refused ({NAT} .+)", "refused_net"),
    ("best repair frontier total width", f"at {NAME} {NAME}", "placed_cell"),
    ("width", f"width {NAME} {NAT}", "wide_wire"),
    ("wire", f"sink {NAME} {NAT}", "sink"),
    ("frontier", f"point {NAT} {INT} cells {NAT}", "point"),
    ("sta", f"design worst {INT} end {NAME}", "design_slack"),
    ("sta", f"design refused (Cycle {NAME}|NoPath)", "design_refused"),
    ("total", f"total points {NAT}", "total_points"),
    ("total", "total none", "total_none"),
    ("total", f"point {NAT} {INT}", "total_point"),
    ("total", f"pick {NAME} {NAT} {INT} cells {NAT}", "pick"),
    (
        "repair",
        f"repair nets {NAT} met {NAT} short {NAT} none {NAT} refused {NAT} worst (?:none|{INT})",
        "counts",
    ),
]


def forms_by_first_word():
    forms = {}
    for modes, words, method in FORMS:
        entry = (frozenset(modes.split()), re.compile(words), method)
        forms.setdefault(words.split(" ")[0], []).append(entry)
    return forms


BY_WORD = forms_by_first_word()


class Reader:
    """Takes the lines of a report one by one."""

    def __init__(self, file):
        self.report = Report(file)
        self.modes, self.names = MODES, set()
        self.holder = None  # what the next lines `at` and `width` belong to
        self.number = 0

    def fault(self, reason, line=None):
        return common.Fault(reason, self.report.file, self.number if line is None else line)

    def take(self, line, number):
        self.number = number
        if self.report.summary:
            raise self.fault("a line after the last one of mode repair")
        for modes, pattern, method in BY_WORD.get(line.split(" ", 1)[0], ()):
            match = pattern.fullmatch(line)
            if match:
                self.narrow(modes)
                getattr(self, method)(*match.groups())
                return
        raise self.fault(f"a line of no known form: '{line[:80]}'")

    def narrow(self, modes):
        """Of the modes that the report may be of, those that print this line remain."""
        if not self.modes & modes:
            raise self.fault(f"a line of mode {listed(modes)} in a report of mode {listed(self.modes)}")
        self.modes &= modes

    def close(self):
        """Nothing more belongs to the placement before this line."""
        holder, self.holder = self.holder, None
        if holder and len(holder.cells) != holder.told_cells:
            raise self.fault(f"{holder.told_cells} cells are told, and there are {len(holder.cells)}", holder.line)
        if holder and len(holder.widths) != holder.told_widths:
            raise self.fault(f"{holder.told_widths} widths are told, and there are {len(holder.widths)}", holder.line)

    def close_net(self):
        self.close()
        if self.report.nets:
            net = self.report.nets[-1]
            if len(net.points) != net.told_points:
                raise self.fault(f"{net.told_points} points are told, and there are {len(net.points)}", net.line)

    # ---- nets

    def add(self, name, **fields):
        self.close_net()
        design = self.report.design
        if self.report.told_points is not None or (design and design.refused):
            raise self.fault("no net is expected here")
        if name in self.names:
            raise self.fault(f"the net '{name}' is there twice")
        self.names.add(name)
        self.report.nets.append(Net(name, self.number, **fields))
        return self.report.nets[-1]

    def timed_net(self, name, slack, wrong_at):
        self.add(name, slack=int(slack), polarity="wrong" if wrong_at else "right", wrong_at=wrong_at)

    def sta_net(self, name, slack):
        if not self.report.design:
            raise self.fault("the first line of mode sta is missing")
        self.add(name, slack=int(slack))

    def placed_net(self, name, slack, cost, cells, wide="0"):
        self.holder = self.add(name, slack=int(slack), cost=int(cost), told_cells=int(cells), told_widths=int(wide))

    def frontier_net(self, name, points):
        self.add(name, told_points=int(points))

    def wire_net(self, name, total):
        self.add(name, capacitance=int(total))

    def segment_net(self, name, parts, nodes):
        self.add(name, parts=int(parts), nodes=int(nodes))

    def none_net(self, name):
        self.add(name, none=True)

    def refused_net(self, name, reason, _number):
        self.add(name, refused=reason)

    # ---- what follows a net

    def placed_cell(self, node, cell):
        if not self.holder or len(self.holder.cells) == self.holder.told_cells or self.holder.widths:
            raise self.fault("no cell is expected here")
        self.holder.cells.append((node, cell))

    def wide_wire(self, node, width):
        if not self.holder or len(self.holder.widths) == self.holder.told_widths:
            raise self.fault("no width is expected here")
        self.holder.widths.append((node, int(width)))

    def sink(self, node, delay):
        if not self.report.nets or self.report.nets[-1].capacitance is None:
            raise self.fault("no sink is expected here")
        self.report.nets[-1].sinks.append((node, int(delay)))

    def point(self, cost, slack, cells):
        self.close()
        net = self.report.nets[-1] if self.report.nets else None
        if net is None or len(net.points) == net.told_points:
            raise self.fault("no point is expected here")
        self.holder = Point(self.number, int(cost), int(slack), int(cells))
        self.rises(net.points, self.holder)
        net.points.append(self.holder)

    def rises(self, points, point):
        if points and not (points[-1].cost < point.cost and points[-1].slack < point.slack):
            raise self.fault("the points do not rise in cost and slack")

    # ---- mode sta

    def set_design(self, **fields):
        if self.number != 1:
            raise self.fault("the line of the design is not the first one")
        self.report.design = Design(self.number, **fields)

    def design_slack(self, slack, end):
        self.set_design(slack=int(slack), end=end)

    def design_refused(self, reason, _name):
        self.set_design(refused=reason)

    # ---- mode total

    def set_total(self, points):
        self.close_net()
        if self.report.told_points is not None:
            raise self.fault("a second line 'total'")
        self.report.told_points = points

    def total_points(self, points):
        self.set_total(int(points))

    def total_none(self):
        self.set_total(0)

    def total_point(self, cost, slack):
        self.close_total()
        if len(self.report.points) == (self.report.told_points or 0):
            raise self.fault("no point is expected here")
        point = TotalPoint(self.number, int(cost), int(slack))
        self.rises(self.report.points, point)
        self.report.points.append(point)

    def pick(self, name, cost, slack, cells):
        self.close()
        if not self.report.points:
            raise self.fault("no pick is expected here")
        self.holder = Pick(self.number, int(cost), int(slack), int(cells), name=name)
        if name in self.names:
            raise self.fault(f"the net '{name}' is refused, and picked")
        self.report.points[-1].picks.append(self.holder)

    def close_total(self):
        """The point before this line is whole: the same nets as the first one, their cost and their least slack."""
        self.close()
        if not self.report.points:
            return
        point, first = self.report.points[-1], self.report.points[0]
        names = [pick.name for pick in point.picks]
        if not names or len(set(names)) != len(names) or names != [pick.name for pick in first.picks]:
            raise self.fault("the picks of this point are not each net once, as at the first point", point.line)
        if sum(pick.cost for pick in point.picks) != point.cost:
            raise self.fault(f"the picks do not cost {point.cost} together", point.line)
        if min(pick.slack for pick in point.picks) != point.slack:
            raise self.fault(f"the least slack of the picks is not {point.slack}", point.line)

    # ---- mode repair

    def counts(self, *words):
        self.close_net()
        numbers = [int(word) for word in words[:5]]
        summary = Summary(self.number, *numbers, None if words[5] is None else int(words[5]))
        nets = self.report.nets
        slacks = [net.slack for net in nets if net.slack is not None]
        refused, none = sum(net.refused is not None for net in nets), sum(net.none for net in nets)
        if numbers[0] != len(nets) or numbers[1] + numbers[2] != len(slacks) or numbers[3:] != [none, refused]:
            raise self.fault("the counts are not those of the lines before")
        if summary.worst != min(slacks, default=None):
            raise self.fault("the slack is not the least one of the lines before")
        self.report.summary = summary

    # ---- the end

    def finish(self, mode):
        report = self.report
        self.close_net()
        if report.told_points is not None:
            self.close_total()
            if len(report.points) != report.told_points:
                raise self.fault(f"{report.told_points} points are told, and there are {len(report.points)}")
        self.finish_design()
        self.expect(mode)
        return report

    def finish_design(self):
        design = self.report.design
        if design and not design.refused:
            if design.slack != min((net.slack for net in self.report.nets if net.slack is not None), default=None):
                raise self.fault("the slack of the design is not the least one of its nets", design.line)

    def expect(self, mode):
        """Sets the mode of the report: the expected one, or the only one that prints these lines."""
        for needs, there in [("repair", self.report.summary), ("total", self.report.told_points is not None)]:
            if mode == needs and needs in self.modes and not there:
                raise self.fault(f"the line '{needs} ..' of mode {needs} is missing: the report is cut off")
            if not there:
                self.modes -= {needs}
        if mode and mode not in self.modes:
            raise self.fault(f"this is no report of mode {mode}, but of {listed(self.modes)}", 1)
        self.report.mode = mode or (min(self.modes) if len(self.modes) == 1 else None)


def listed(modes):
    return " or ".join(sorted(modes))
