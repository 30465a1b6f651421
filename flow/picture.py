#!/usr/bin/env python3
"""Draws one net with its cells as SVG.

    picture.py SPEF --net NAME [--report REPORT] [--point N] [--lib LIB] [--cons CONS] [--layout places|tree]
               [-o OUT.svg]

SPEF is the file that the run has read: the net is there as one, without the new cells. What is given beside it is drawn
too:

- `--report`: the cells that the report places on the net, its slack and their cost (`best`, `repair`, `width`; of
  `frontier` and `total` the last point, or that of number N, from 1). Reports of `time` and `sta` give the slack alone.
  In a report of mode `width` a wire is the thicker, the greater the number of its width.
- `--lib`: the Liberty library, of any delay model. It tells a buffer from an inverter by the function of its output,
  and so where on the net the signal is inverted, which is drawn in another colour. Without it a cell is a box.
- `--cons`: the constraints. A sink has its required time and whether it wants the inverted signal, blocked nodes are
  crossed, and the boxes in which no cell may stand are grey.

Where each node of the net has a place (`*C`), nodes are drawn there, but two nodes of a wire never closer than symbols
need; wires are straight lines, whatever way they take. Else, or with `--layout tree`, the net is a tree from the driver
at the left, and a wire is as long as its resistance, but for short ones. Wires have their resistances and nodes their
numbers, where there are not too many of them. The same files give the same picture, byte for byte. Its background is
white.

A cell at a node that the net does not have, a cell that is no repeater of the library, a net that is no tree, and a
line of the constraints that is of no known form are errors with file and line.
"""
from __future__ import annotations

import html
import math
import re
from dataclasses import dataclass, field

import common
import liberty
import reports
import spef

WIDTH, HEIGHT, MARGIN, HEAD, FOOT = 1080, 560, 90, 84, 46  # px: the drawing, what is around it
NEAREST = 44  # px between the two nodes of a wire
MANY_NODES, MANY_SINKS = 48, 120  # up to so many nodes and wires, and so many sinks, have labels
INK, MUTED, SIGNAL, INVERTED = "#1f2933", "#6b7280", "#2563a8", "#c2410c"
LATE, GOOD, BOX, RULE = "#b91c1c", "#15803d", "#e9ecef", "#d5d9de"


# ---- what is drawn


@dataclass
class Wishes:
    """What the constraints say of a net: times in zs, boxes as corners."""

    required: dict[str, int] = field(default_factory=dict)
    default: int | None = None
    inverted: set[str] = field(default_factory=set)
    blocked: set[str] = field(default_factory=set)
    boxes: list[tuple[float, float, float, float]] = field(default_factory=list)


@dataclass
class Scene:
    """A net with all that is known of it."""

    net: spef.Net
    tree: list[spef.TreeNode]
    cells: dict[str, str]  # by node
    widths: dict[str, int]  # by the node below the wire
    inverts: dict[str, bool] | None  # by cell, where a library is given
    facts: list[tuple[str, str]]  # text and colour
    wishes: Wishes | None

    def __post_init__(self):
        """What follows from the tree: the wires above and below each node, and where the signal arrives inverted."""
        self.parents = {branch.node: branch.parent for branch in self.tree}
        self.resistance = {branch.node: branch.resistance for branch in self.tree}
        self.children = {branch.node: [] for branch in self.tree}
        self.connections = {pin.node: pin for pin in self.net.connections}
        self.root = self.tree[0].node
        self.arrives = {}
        leaves = {self.root: False}
        for branch in self.tree[1:]:
            self.children[branch.parent].append(branch.node)
            self.arrives[branch.node] = leaves[branch.parent]
            cell = self.cells.get(branch.node)
            leaves[branch.node] = leaves[branch.parent] ^ bool(self.inverts and cell and self.inverts[cell])

    def wrong(self, node):
        """Whether a sink is known to get the signal of the other polarity than it wants."""
        return self.wishes and self.inverts is not None and (node in self.wishes.inverted) != self.arrives[node]


def placed(report, net, name, point):
    """The cells and widths of a net and its slack and cost, from the line of a report that tells them."""
    found = chosen_point(report, name, point) if point else report.net(name)
    if found is None:
        raise common.Fault(f"the report has no net '{name}'", report.file)
    known = set(net.inner_nodes())
    for node, cell in found.cells:
        if node not in known:
            raise common.Fault(f"the net has no inner node '{node}' for the cell '{cell}'", report.file, found.line)
    for node, _ in found.widths:
        if node not in net.nodes:
            raise common.Fault(f"the net has no node '{node}'", report.file, found.line)
    return found


def chosen_point(report, name, number):
    """What the point of a number gives the net, in a report of mode frontier or total."""
    net = next((net for net in report.nets if net.name == name), None)
    points = net.points if report.mode == "frontier" and net else report.points
    if not 1 <= number <= len(points):
        raise common.Fault(f"the report has no point {number} for the net '{name}'", report.file)
    point = points[number - 1]
    if report.mode == "total":
        point = next((pick for pick in point.picks if pick.name == name), None)
    return point and reports.of_point(reports.Net(name, point.line), point)


def facts_of(found):
    """What the legend says of the net, with colours."""
    if found.refused or found.none:
        return [(f"refused: {found.refused}" if found.refused else "no placement is good", LATE)]
    facts = []
    if found.slack is not None:
        facts.append((f"slack {picoseconds(found.slack)} ps", LATE if found.slack < 0 else GOOD))
    if found.polarity == "wrong":
        facts.append((f"wrong polarity at {found.wrong_at}", LATE))
    if found.cost is not None:
        cells = "1 cell" if len(found.cells) == 1 else f"{len(found.cells)} cells"
        facts += [(cells, INK), (f"cost {common.decimal_text(found.cost, common.AREA_PLACES)}", INK)]
    return facts


def picoseconds(time):
    """A time in zs as ps with at most 3 decimals, to the nearest, halves away from 0."""
    return common.decimal_text(common.rounded_off(time, common.ZS_PLACES - 3), 3)


def inverting_cells(path, cells, report, line):
    """Whether each of the cells that a line of a report places inverts, by the function of its output."""
    groups = {name: group for group in liberty.read(path).groups_of("cell") for name in group.arguments}
    found = {}
    for cell in cells:
        if cell not in groups:
            raise common.Fault(f"the library {path} has no cell '{cell}'", report, line)
        found[cell] = inverts(groups[cell])
    return found


def inverts(cell):
    """Whether a cell of the library, which has to be a repeater, is an inverter."""
    pins = {name: pin for pin in cell.groups_of("pin") for name in pin.arguments}
    inputs = [name for name, pin in pins.items() if pin.text("direction") == "input"]
    functions = [pin.text("function", "") for pin in pins.values() if pin.text("direction") == "output"]
    inverting = liberty.inversion(functions[0], inputs[0]) if len(inputs) == len(functions) == 1 else None
    if inverting is None:
        raise common.Fault(f"the cell '{cell.arguments[0]}' is no buffer and no inverter", cell.file, cell.line)
    return inverting


def read_wishes(path):
    """Reads constraints. Rows that have no part in a picture are passed over."""
    wishes, names, headed = Wishes(), spef.Names(), False
    for line, text in enumerate(common.read_text(path).split("\n"), 1):
        words = text.split("#", 1)[0].split()
        if not words:
            continue
        if not headed:
            if words not in (["vgcons", "1"], ["vgcons", "2"]):
                raise common.Fault("the first line is neither 'vgcons 1' nor 'vgcons 2'", path, line)
            headed = True
        elif not wish(wishes, words, names, path, line):
            raise common.Fault(f"'{' '.join(words)}' is no row of constraints", path, line)
    return wishes


def wish(wishes, words, names, path, line):
    """Takes a row of the constraints. Whether it has a known form."""
    kind = (words[0], len(words))
    owner, leaf = names.node(words[1]) if len(words) > 1 else (None, None)
    if owner is None:
        return False
    node = spef.node_text(owner, leaf)
    if kind == ("default", 3) and words[1] == "required":
        wishes.default = common.signed(words[2], common.ZS_PLACES, path, line)
    elif kind == ("required", 3):
        wishes.required[node] = common.signed(words[2], common.ZS_PLACES, path, line)
    elif kind == ("want", 3) and words[2] == "inverted":
        wishes.inverted.add(node)
    elif kind == ("block", 2):
        wishes.blocked.add(node)
    elif kind == ("block_box", 5):
        x1, y1, x2, y2 = (common.signed(word, 3, path, line) / 1000 for word in words[1:])
        wishes.boxes.append((min(x1, x2), min(y1, y2), max(x1, x2), max(y1, y2)))
    else:
        return kind in (("arrival", 3), ("load", 3), ("drive", 4)) or (words[0] == "allow" and len(words) > 2)
    return True


# ---- where the nodes are, in px


def layout(scene, kind):
    """The places of the nodes, the lower end of the drawing and the boxes, in px; whether nodes are at their places."""
    missing = next((node for node in scene.net.nodes if node not in scene.net.positions), None)
    if kind == "tree" or (kind is None and missing is not None):
        return (*tree_layout(scene), [], False)
    if missing is not None:
        raise common.Fault(f"the node '{missing}' has no place: draw the net as a tree", scene.net.file, scene.net.line)
    return (*place_layout(scene), True)


def place_layout(scene):
    """Nodes at their places, with y upward as in a layout. Nodes that are too close to their parents are moved away."""
    places = scene.net.positions
    xs, ys = zip(*(places[branch.node] for branch in scene.tree))
    left, top, wide, high = min(xs), max(ys), max(xs) - min(xs), max(ys) - min(ys)
    scale = min((WIDTH - 2 * MARGIN) / wide if wide else math.inf, (HEIGHT - 2 * MARGIN) / high if high else math.inf)
    scale = 1.0 if math.isinf(scale) else scale

    def point(x, y):
        return MARGIN + (x - left) * scale, HEAD + MARGIN + (top - y) * scale

    found = spread({branch.node: point(*places[branch.node]) for branch in scene.tree}, scene)
    low = HEAD + MARGIN + high * scale
    boxes = [(*point(x1, y2), *point(x2, y1)) for x1, y1, x2, y2 in (scene.wishes.boxes if scene.wishes else [])]
    return found, low + MARGIN, boxes


def spread(points, scene):
    """Moves each node that is too close to its parent for symbols to a free side, like its own or straight ahead."""
    for branch in scene.tree[1:] if len(points) <= 400 else []:
        node, parent = branch.node, points[branch.parent]
        if math.dist(points[node], parent) >= NEAREST:
            continue
        above = scene.parents[branch.parent]
        around = [other for other in [*scene.children[branch.parent], above] if other not in (node, None)]
        busy = [unit(points[other], parent) for other in around]
        aim = unit(parent, points[above]) if branch.parent in scene.cells and above else unit(points[node], parent)
        others = [point for other, point in points.items() if other not in (node, branch.parent)]
        points[node] = free_side(parent, aim, busy, others)
    return points


def free_side(origin, aim, busy, others):
    """Of 16 points around another one the best: like the aim, away from the wires there and from other nodes."""

    def cost(point):
        x, y = unit(point, origin)
        wires = sum(max(0.0, x * bx + y * by - 0.2) for bx, by in busy)
        near = sum(math.dist(point, other) < 0.7 * NEAREST for other in others)
        return round(2 * wires + near - 0.5 * (x * aim[0] + y * aim[1]), 6)

    angles = (step * math.pi / 8 for step in range(16))
    points = ((origin[0] + math.cos(angle) * NEAREST, origin[1] + math.sin(angle) * NEAREST) for angle in angles)
    return min(points, key=cost)


def unit(point, origin):
    dx, dy = point[0] - origin[0], point[1] - origin[1]
    length = math.hypot(dx, dy)
    return (dx / length, dy / length) if length else (1.0, 0.0)


def tree_layout(scene):
    """The driver at the left; the longest branch of a node goes straight on, the others are below it."""
    reach, steps = {}, {}
    for branch in reversed(scene.tree):
        below = scene.children[branch.node]
        reach[branch.node] = branch.resistance + max((reach[child] for child in below), default=0)
        steps[branch.node] = 1 + max((steps[child] for child in below), default=0)
    room = WIDTH - 2 * MARGIN - 60
    shortest = min(NEAREST + 8, room / max(1, steps[scene.root] - 1))
    spare = max(0.0, room - shortest * (steps[scene.root] - 1)) / (reach[scene.root] or 1)
    rows, order, count, xs = {}, [scene.root], 0, {scene.root: float(MARGIN)}
    while order:
        node = order.pop()
        for child in scene.children[node]:
            xs[child] = xs[node] + shortest + spare * scene.resistance[child]
        below = sorted(scene.children[node], key=lambda child: -reach[child])  # of equal ones the first in tree order
        order += reversed(below)
        rows[node] = count
        if not below:
            count += 1
    row = max(7.0, min(64.0, 2400 / count))
    return {node: (xs[node], HEAD + MARGIN + rows[node] * row) for node in rows}, HEAD + 2 * MARGIN + (count - 1) * row


# ---- SVG


def xml(text):
    """A text in XML. What XML cannot hold is replaced."""
    return html.escape(re.sub("[^\t\n\r\u0020-\ud7ff\ue000-\ufffd\U00010000-\U0010ffff]", "\ufffd", text), quote=True)


def px(value):
    """A length as text: at most one decimal, and no -0."""
    return f"{round(value, 1) + 0.0:.1f}".rstrip("0").rstrip(".")


class Canvas:
    """Elements of SVG, and where labels and symbols already are."""

    def __init__(self):
        self.elements, self.taken, self.wires = [], [], []

    def add(self, element):
        self.elements.append(element)

    def line(self, one, other, colour, width=2.0):
        ends = f'x1="{px(one[0])}" y1="{px(one[1])}" x2="{px(other[0])}" y2="{px(other[1])}"'
        self.add(f'<line {ends} stroke="{colour}" stroke-width="{px(width)}" stroke-linecap="round"/>')

    def circle(self, at, radius, fill, stroke):
        look = f'fill="{fill}" stroke="{stroke}" stroke-width="1.8"'
        self.add(f'<circle cx="{px(at[0])}" cy="{px(at[1])}" r="{px(radius)}" {look}/>')

    def square(self, at, half, fill, stroke):
        x, y, side = px(at[0] - half), px(at[1] - half), px(2 * half)
        look = f'fill="{fill}" stroke="{stroke}" stroke-width="1.8"'
        self.add(f'<rect x="{x}" y="{y}" width="{side}" height="{side}" {look}/>')

    def repeater(self, at, angle, inverting):
        """A triangle that points along the signal, with a circle at its tip where it inverts."""
        ball = '<circle cx="14.5" cy="0" r="3.6"/>' if inverting else ""
        where = f"translate({px(at[0])} {px(at[1])}) rotate({px(math.degrees(angle))})"
        look = f'fill="#ffffff" stroke="{INK}" stroke-width="1.8" stroke-linejoin="round"'
        self.add(f'<g transform="{where}" {look}><path d="M-9 -10 L11 0 L-9 10 Z"/>{ball}</g>')

    def cross(self, at):
        (x, y), r = at, 6
        self.line((x - r, y - r), (x + r, y + r), LATE, 2)
        self.line((x - r, y + r), (x + r, y - r), LATE, 2)

    def text(self, x, y, text, size=12, colour=INK, anchor="start", bold=False):
        look = f'font-size="{size}" fill="{colour}" text-anchor="{anchor}"' + ' font-weight="bold"' * bold
        self.add(f'<text x="{px(x)}" y="{px(y)}" {look}>{xml(text)}</text>')

    def occupy(self, at, half):
        self.taken.append((at[0] - half, at[1] - half, at[0] + half, at[1] + half))

    def wire(self, one, other):
        """Remembers a wire, as points which labels avoid."""
        steps = max(1, int(math.hypot(other[0] - one[0], other[1] - one[1]) / 8))
        for i in range(steps + 1):
            self.wires.append((one[0] + (other[0] - one[0]) * i / steps, one[1] + (other[1] - one[1]) * i / steps))

    def label(self, at, lines, gap, bounds, aim=(0.0, -1.0)):
        """Writes lines of (text, size, colour, bold) beside a point: where they cover least, then toward the aim."""
        wide = max(len(text) * size * (0.64 if bold else 0.58) for text, size, _, bold in lines)
        high = sum(size + 3 for _, size, _, _ in lines)
        spots = []
        for ux, uy in [(0, -1), (0, 1), (1, 0), (-1, 0), (0.7, -0.7), (0.7, 0.7), (-0.7, -0.7), (-0.7, 0.7)]:
            for reach in (gap, gap + 20):
                x, y = at[0] + ux * reach + (ux > 0) * 2 - (ux < 0) * 2, at[1] + uy * reach
                left = x - wide / 2 if ux == 0 else x if ux > 0 else x - wide
                top = y - high / 2 if uy == 0 else y if uy > 0 else y - high
                away = 4 * (1 - ux * aim[0] - uy * aim[1]) + (reach - gap)
                spots.append((round(self.cover(left, top, wide, high, bounds) + away, 6), left, top))
        _, left, top = min(spots, key=lambda spot: spot[0])
        self.taken.append((left, top, left + wide, top + high))
        for text, size, colour, bold in lines:
            top += size + 3
            self.text(left + wide / 2, top - 3, text, size, colour, "middle", bold)

    def cover(self, left, top, wide, high, bounds):
        """How much a label there would cover: labels and symbols most of all, then wires. It stays in the picture."""
        right, low = left + wide, top + high
        cost = 0.0
        for x1, y1, x2, y2 in self.taken:
            cost += max(0.0, min(right, x2) - max(left, x1)) * max(0.0, min(low, y2) - max(top, y1))
        cost += 40 * sum(left - 2 < x < right + 2 and top - 1 < y < low + 1 for x, y in self.wires)
        if left < 4 or right > bounds[0] - 4 or top < HEAD or low > bounds[1] - 4:
            cost += 10000
        return cost


class Painter:
    """Draws a scene."""

    def __init__(self, scene, kind):
        self.scene, self.canvas = scene, Canvas()
        self.points, self.low, self.boxes, self.straight = layout(scene, kind)
        self.few = len(scene.tree) <= MANY_NODES
        self.angles = {node: self.angle(node) for node in scene.cells}

    def svg(self):
        right = max(x for x, _ in self.points.values()) + MARGIN
        width, height = max(WIDTH, right), self.low + FOOT
        self.bounds = (width, self.low)
        self.draw_boxes()
        self.draw_wires()
        self.draw_nodes()
        self.label_nodes()
        self.label_wires()
        self.head(width)
        self.legend(height)
        size = f'width="{px(width)}" height="{px(height)}" viewBox="0 0 {px(width)} {px(height)}"'
        head = f'<svg xmlns="http://www.w3.org/2000/svg" {size} font-family="Helvetica, Arial, sans-serif">'
        title = f"<title>{xml(f'net {self.scene.net.name}')}</title>"
        white = '<rect width="100%" height="100%" fill="#ffffff"/>'
        return "\n".join([head, title, white, *self.canvas.elements, "</svg>"]) + "\n"

    def draw_boxes(self):
        """The boxes in which no cell may stand, as far as they are in the picture."""
        for x1, y1, x2, y2 in self.boxes:
            x1, y1, x2, y2 = max(x1, 4), max(y1, HEAD), min(x2, self.bounds[0] - 4), min(y2, self.bounds[1])
            if x1 < x2 and y1 < y2:
                corner, size = f'x="{px(x1)}" y="{px(y1)}"', f'width="{px(x2 - x1)}" height="{px(y2 - y1)}"'
                self.canvas.add(f'<rect {corner} {size} fill="{BOX}"/>')
                self.canvas.text(x2 - 6, y2 - 6, "no cells here", 11, MUTED, "end")
                self.canvas.taken.append((x2 - 80, y2 - 18, x2, y2))

    def angle(self, node):
        """The direction in which a cell points: that of the wire at its input."""
        start, end = self.points[self.scene.parents[node]], self.points[node]
        return math.atan2(end[1] - start[1], end[0] - start[0]) if self.straight else 0.0

    def output(self, node):
        """Where the wires below a node begin: at the tip of a repeater, else at the node."""
        x, y = self.points[node]
        if node not in self.scene.cells or self.scene.inverts is None:
            return x, y
        reach = 18 if self.scene.inverts[self.scene.cells[node]] else 11
        return x + reach * math.cos(self.angles[node]), y + reach * math.sin(self.angles[node])

    def bend(self, node):
        """The points of the wire above a node."""
        start, end = self.output(self.scene.parents[node]), self.points[node]
        return [start, end] if self.straight or start[1] == end[1] else [start, (start[0], end[1]), end]

    def draw_wires(self):
        for branch in self.scene.tree[1:]:
            colour = INVERTED if self.scene.arrives[branch.node] else SIGNAL
            points = self.bend(branch.node)
            for one, other in zip(points, points[1:]):
                self.canvas.line(one, other, colour, 2.2 + 2.2 * self.scene.widths.get(branch.node, 0))
                if len(self.scene.tree) <= 400:
                    self.canvas.wire(one, other)

    def draw_nodes(self):
        scene, canvas = self.scene, self.canvas
        for branch in scene.tree:
            node, at = branch.node, self.points[branch.node]
            if node == scene.root:
                canvas.square(at, 7, INK, INK)
                canvas.occupy(at, 8)
            elif node in scene.cells:
                self.draw_cell(node, at)
            elif node in scene.connections:
                canvas.circle(at, 6, "#ffffff", INVERTED if scene.arrives[node] else SIGNAL)
                canvas.occupy(at, 7)
            elif self.few or len(scene.children[node]) > 1:
                canvas.circle(at, 2.6, INK, INK)
                canvas.occupy(at, 3)
            if scene.wishes and node in scene.wishes.blocked:
                canvas.cross(at)
                canvas.occupy(at, 6)

    def draw_cell(self, node, at):
        if self.scene.inverts is None:
            self.canvas.square(at, 9, "#ffffff", INK)
        else:
            self.canvas.repeater(at, self.angles[node], self.scene.inverts[self.scene.cells[node]])
            self.canvas.occupy(self.output(node), 4)
        self.canvas.occupy(at, 10)

    def label_nodes(self):
        """The pins first, then the cells, then the other nodes: what comes first has the better place."""
        canvas, scene = self.canvas, self.scene
        canvas.label(self.points[scene.root], self.pin_lines(scene.root), 10, self.bounds)
        sinks = [branch.node for branch in scene.tree[1:] if branch.node in scene.connections]
        for node in sinks if len(sinks) <= MANY_SINKS else []:
            aim = unit(self.points[node], self.bend(node)[-2])
            canvas.label(self.points[node], self.pin_lines(node), 10, self.bounds, aim)
        for node in scene.cells if len(scene.cells) <= MANY_SINKS else []:
            lines = [(scene.cells[node], 12, INK, True), (f"at :{leaf_of(node)}", 10, MUTED, False)]
            canvas.label(self.points[node], lines, 12, self.bounds)
        for branch in scene.tree if self.few else []:
            if branch.node not in scene.cells and branch.node not in scene.connections:
                canvas.label(self.points[branch.node], [(f":{leaf_of(branch.node)}", 10, MUTED, False)], 7, self.bounds)

    def pin_lines(self, node):
        """The lines of the label of a pin or a port: its name, its cell, and what is wished of a sink."""
        pin, wishes = self.scene.connections[node], self.scene.wishes
        lines = [(node, 12, INK, True), (pin.cell or ("port" if pin.kind == "P" else ""), 10, MUTED, False)]
        if wishes and node != self.scene.root:
            required = wishes.required.get(node, wishes.default)
            lines.append(("" if required is None else f"required {picoseconds(required)} ps", 10, MUTED, False))
            lines.append(("wants the inverted signal" if node in wishes.inverted else "", 10, INVERTED, False))
            lines.append(("wrong polarity" if self.scene.wrong(node) else "", 11, LATE, True))
        return [line for line in lines if line[0]]

    def label_wires(self):
        for branch in self.scene.tree[1:] if self.few else []:
            one, other = self.bend(branch.node)[-2:]
            text = ohms(branch.resistance)
            number = self.scene.widths.get(branch.node)
            text += f", width {number}" if number else ""
            if math.hypot(other[0] - one[0], other[1] - one[1]) > NEAREST + 14 or number:
                middle = ((one[0] + other[0]) / 2, (one[1] + other[1]) / 2)
                self.canvas.label(middle, [(text, 10, MUTED, False)], 4, self.bounds)

    def head(self, width):
        """The name of the net, its slack, cells and cost, and what it has."""
        scene, canvas = self.scene, self.canvas
        canvas.text(24, 34, f"net {scene.net.name}", 20, INK, "start", True)
        total = common.decimal_text(sum(scene.net.capacitors.values()), common.AF_PLACES)
        count = len(scene.net.sinks())
        wire = f"{count} sink{'s' * (count != 1)}, {total} fF and {ohms(sum(scene.resistance.values()))} of wire"
        spans, gap = [], 0
        for text, colour in [*scene.facts, (wire, MUTED)]:
            weight = ' font-weight="bold"' if colour in (LATE, GOOD) else ""
            spans.append(f'<tspan dx="{gap}" fill="{colour}"{weight}>{xml(text)}</tspan>')
            gap = 22
        canvas.add(f'<text x="24" y="60" font-size="14">{"".join(spans)}</text>')
        canvas.line((24, 74), (width - 24, 74), RULE, 1)

    def legend(self, height):
        """What the symbols mean, of those that the picture has."""
        x, y = 36.0, height - 24
        for text, draw in self.legend_entries():
            draw((x, y))
            self.canvas.text(x + 24, y + 4, text, 12, MUTED)
            x += 24 + len(text) * 12 * 0.57 + 32
        how = "nodes at their places" if self.straight else "wires by resistance"
        self.canvas.text(self.bounds[0] - 24, y + 4, f"{how}; short wires are drawn longer", 11, MUTED, "end")

    def legend_entries(self):
        scene, canvas = self.scene, self.canvas
        kinds = {scene.inverts[cell] for cell in scene.cells.values()} if scene.inverts is not None else set()
        yield "driver", lambda at: canvas.square(at, 7, INK, INK)
        yield "sink", lambda at: canvas.circle(at, 6, "#ffffff", SIGNAL)
        if False in kinds:
            yield "buffer", lambda at: canvas.repeater(at, 0, False)
        if True in kinds:
            yield "inverter", lambda at: canvas.repeater(at, 0, True)
        if scene.cells and scene.inverts is None:
            yield "cell", lambda at: canvas.square(at, 9, "#ffffff", INK)
        if scene.wishes and any(node in scene.wishes.blocked for node in self.points):
            yield "blocked", canvas.cross
        yield "signal" if scene.inverts is not None else "wire", lambda at: self.dash(at, SIGNAL)
        if any(scene.arrives.values()):
            yield "inverted signal", lambda at: self.dash(at, INVERTED)

    def dash(self, at, colour):
        self.canvas.line((at[0] - 12, at[1]), (at[0] + 12, at[1]), colour, 2.6)


def leaf_of(node):
    return node.rpartition(":")[2]


def ohms(resistance):
    """A resistance as text, with at most one decimal."""
    kilo = resistance >= 10**6
    tenths = common.rounded_off(resistance, 5 if kilo else 2)
    return f"{common.decimal_text(tenths, 1)} {'kΩ' if kilo else 'Ω'}"


# ---- the command


def scene_of(options):
    """Reads the files and joins what they say of the net."""
    nets = spef.read(options.spef).nets
    if options.net not in nets:
        raise common.Fault(f"there is no net '{options.net}'", options.spef)
    net = nets[options.net]
    tree = spef.tree(net)
    found = reports.Net(options.net, 1)
    if options.report:
        found = placed(reports.read(options.report), net, options.net, options.point)
    cells, inverts = dict(found.cells), None
    if options.lib:
        inverts = inverting_cells(options.lib, sorted(set(cells.values())), options.report, found.line)
    wishes = read_wishes(options.cons) if options.cons else None
    return Scene(net, tree, cells, dict(found.widths), inverts, facts_of(found), wishes)


def arguments(words):
    parser = common.parser(__doc__)
    parser.add_argument("spef", metavar="SPEF", help="the parasitics that vginsert read")
    parser.add_argument("--net", metavar="NAME", required=True, help="the canonical name of the net")
    parser.add_argument("--report", help="what vginsert printed")
    parser.add_argument("--point", metavar="N", type=int, help="the number of a point, from 1 (the last one)")
    parser.add_argument("--lib", help="the Liberty library")
    parser.add_argument("--cons", help="the constraints")
    parser.add_argument("--layout", choices=["places", "tree"], help="how to draw it (places, where known)")
    parser.add_argument("-o", "--output", metavar="OUT.svg", help="write to this file instead of standard output")
    options = parser.parse_args(words)
    if options.point is not None and not options.report:
        parser.error("--point is a point of a --report")
    return options


def main(words=None):
    options = arguments(words)
    text = Painter(scene_of(options), options.layout).svg()
    common.put_text(text, options.output)


if __name__ == "__main__":
    common.run(main)
