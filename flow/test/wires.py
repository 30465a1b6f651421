#!/usr/bin/env python3
"""Makes up the wires of a netlist, for flow/check.sh alone: a rough placement, a tree for each net, and their
parasitics as SPEF.

    wires.py NETLIST.json MODULE OUT.spef

NETLIST.json is what `write_json` of yosys writes for a netlist of mapped cells, with the directions of their pins.
Nothing here is extracted from a layout. The numbers below are plausible for wires of a 0.35 µm process with four
metals, and no more than that.

Placement: instances stand on a square grid, ports around it. Each instance moves to the mean of its nets a number of
times, and after each time all are spread out again by their ranks. So wires are longer than a placer's, as in a design
before optimization.

Wires: the pins of a net are joined by a least spanning tree of Manhattan distances. Each edge of it has one bend, and
nodes at least each 200 µm. Each pin is joined to the wire by a via. Half of a piece's capacitance stands at each of its
ends.
"""
from __future__ import annotations

import json
import os
import random
import re
import sys
from dataclasses import dataclass, field

sys.path.insert(0, os.path.dirname(os.path.dirname(os.path.abspath(__file__))))
import common
from common import Fault

OHMS_PER_UM = 0.12  # a wire of 0.6 µm with 0.07 ohms per square
FF_PER_UM = 0.20
VIA_OHMS = 4.0
GRID_UM = 18.0  # the pitch of instances: 160 µm² each at half of the area
PIECE_UM = 200.0  # the longest piece between two nodes
ROUNDS = 40

HEADER = """*SPEF "IEEE 1481-1998"
*DESIGN "{module}"
*DATE "none"
*VENDOR "none"
*PROGRAM "wires.py: made up, not extracted"
*VERSION "1"
*DESIGN_FLOW "PIN_CAP NONE"
*DIVIDER /
*DELIMITER :
*BUS_DELIMITER [ ]
*T_UNIT 1 PS
*C_UNIT 1 FF
*R_UNIT 1 OHM
*L_UNIT 1 HENRY

"""


@dataclass
class Pin:
    """A pin of an instance, or a port: `instance` is None, and the name is as SPEF writes it."""

    instance: str | None
    name: str
    drives: bool
    cell: str = ""


@dataclass
class Net:
    name: str
    pins: list[Pin] = field(default_factory=list)


# ---- the netlist


def escape(name):
    return re.sub(r"[^A-Za-z0-9_]", r"\\\g<0>", name)


def bit_name(name, bits, index):
    """A scalar or a bit as SPEF writes it: brackets of an identifier are escaped, those of a bit are not."""
    return escape(name) if len(bits) == 1 else f"{escape(name)}[{index}]"


def read_nets(path, module):
    """The nets of a yosys JSON netlist, with names for ports first."""
    try:
        found = json.loads(common.read_text(path))["modules"][module]
    except (ValueError, KeyError) as error:
        raise Fault(f"not a netlist of {module}: {error}", path) from None
    nets: dict[int, Net] = {}
    for name, port in found["ports"].items():
        for index, bit in enumerate(port["bits"]):
            pin = Pin(None, bit_name(name, port["bits"], index), port["direction"] == "input")
            nets.setdefault(check_bit(path, bit), Net(pin.name)).pins.append(pin)
    for name, wire in found["netnames"].items():
        for index, bit in enumerate(wire["bits"]):
            nets.setdefault(check_bit(path, bit), Net(bit_name(name, wire["bits"], index)))
    for name, cell in found["cells"].items():
        for pin, bits in cell["connections"].items():
            drives = cell["port_directions"][pin] == "output"
            for bit in bits:
                nets[check_bit(path, bit)].pins.append(Pin(name, pin, drives, cell["type"]))
    return [net for net in nets.values() if len(net.pins) > 1 and any(pin.drives for pin in net.pins)]


def check_bit(path, bit):
    if not isinstance(bit, int):
        raise Fault(f"a constant {bit} in the netlist", path)
    return bit


# ---- the placement


def place(nets):
    """The positions in µm of instances and ports (by the key of a pin)."""
    names = sorted({pin.instance for net in nets for pin in net.pins if pin.instance})
    ports = [pin.name for net in nets for pin in net.pins if pin.instance is None]
    side = int(len(names) ** 0.5 + 1)
    fixed = {("port", port): border(index / len(ports), side) for index, port in enumerate(sorted(ports))}
    source = random.Random(1)
    spots = {("cell", name): (source.uniform(0, side), source.uniform(0, side)) for name in names}
    groups = [[key_of(pin) for pin in net.pins] for net in nets if len(net.pins) <= 60]
    for _ in range(ROUNDS):
        spots = spread(pulled(spots, fixed, groups), side)
    spots.update(fixed)
    return {key: (round(x * GRID_UM, 1), round(y * GRID_UM, 1)) for key, (x, y) in spots.items()}


def key_of(pin):
    return ("port", pin.name) if pin.instance is None else ("cell", pin.instance)


def border(share, side):
    """A place on the border of the grid, from its lower left corner around."""
    edge, rest = divmod(share * 4, 1)
    along = rest * side
    return [(along, -1.0), (side + 1.0, along), (side - along, side + 1.0), (-1.0, side - along)][int(edge)]


def pulled(spots, fixed, groups):
    """Each instance at the mean of the centres of its nets."""
    sums = {key: [0.0, 0.0, 0] for key in spots}
    for group in groups:
        places = [spots.get(key) or fixed[key] for key in group]
        x, y = sum(place[0] for place in places) / len(places), sum(place[1] for place in places) / len(places)
        for key in group:
            if key in sums:
                sums[key][0] += x
                sums[key][1] += y
                sums[key][2] += 1
    return {key: (x / count, y / count) if count else spots[key] for key, (x, y, count) in sums.items()}


def spread(spots, side):
    """The instances on the grid: columns by x, and in each column by y."""
    by_x = sorted(spots, key=lambda key: (spots[key], key))
    result = {}
    for column in range(0, len(by_x), side):
        ordered = sorted(by_x[column : column + side], key=lambda key: (spots[key][1], key))
        for row, key in enumerate(ordered):
            result[key] = (column // side + 0.5, (row + 0.5) * side / len(ordered))
    return result


# ---- the wires


@dataclass
class Wires:
    """The nodes of a net with their positions and capacitors, and its resistors."""

    name: str
    places: list[tuple[float, float]] = field(default_factory=list)
    capacitors: dict[str, float] = field(default_factory=dict)
    resistors: list[tuple[str, str, float]] = field(default_factory=list)

    def node(self, place):
        self.places.append(place)
        return f"{self.name}:{len(self.places)}"

    def piece(self, one, other, length):
        self.resistors.append((one, other, length * OHMS_PER_UM))
        for node in (one, other):
            self.capacitors[node] = self.capacitors.get(node, 0.0) + length * FF_PER_UM / 2

    def straight(self, one, start, end, last=None):
        """A wire from a node to a place, in pieces. Its last node, `last` or a new one, is given back."""
        length = abs(end[0] - start[0]) + abs(end[1] - start[1])
        count = max(1, int(-(-length // PIECE_UM)))
        for index in range(1, count + 1):
            share = index / count
            place = (round(start[0] + (end[0] - start[0]) * share, 1), round(start[1] + (end[1] - start[1]) * share, 1))
            other = last if last and index == count else self.node(place)
            self.piece(one, other, length / count)
            one = other
        return one


def pin_text(pin):
    return pin.name if pin.instance is None else f"{escape(pin.instance)}:{escape(pin.name)}"


def distance(one, other):
    """The Manhattan distance of two places."""
    return abs(one[0] - other[0]) + abs(one[1] - other[1])


def spanning_tree(places):
    """The edges of a least spanning tree, from the first place outward, by Prim's algorithm."""
    nearest = {index: (distance(places[0], places[index]), 0) for index in range(1, len(places))}
    while nearest:
        index = min(nearest, key=lambda key: (nearest[key][0], key))
        _, parent = nearest.pop(index)
        yield parent, index
        for other, (known, _) in nearest.items():
            if distance(places[index], places[other]) < known:
                nearest[other] = (distance(places[index], places[other]), index)


def route(net, spots):
    """The wires of a net: the driver first."""
    pins = sorted(net.pins, key=lambda pin: not pin.drives)
    wires, places = Wires(net.name), [spots[key_of(pin)] for pin in pins]
    taps = [wires.node(place) for place in places]
    for pin, tap in zip(pins, taps):
        wires.resistors.append((pin_text(pin), tap, VIA_OHMS))
    for one, other in spanning_tree(places):
        start, end = places[one], places[other]
        bend = (end[0], start[1])
        if bend in (start, end):
            wires.straight(taps[one], start, end, taps[other])
        else:
            wires.straight(wires.straight(taps[one], start, bend), bend, end, taps[other])
    return wires


def section(net, wires, spots):
    """The section of a net as text."""
    lines = [f"*D_NET {net.name} {sum(wires.capacitors.values()):.3f}", "*CONN"]
    for pin in net.pins:
        x, y = spots[key_of(pin)]
        if pin.instance is None:
            lines.append(f"*P {pin_text(pin)} {'I' if pin.drives else 'O'} *C {x:.1f} {y:.1f}")
        else:
            lines.append(f"*I {pin_text(pin)} {'O' if pin.drives else 'I'} *C {x:.1f} {y:.1f} *D {pin.cell}")
    lines += [f"*N {net.name}:{index} *C {x:.1f} {y:.1f}" for index, (x, y) in enumerate(wires.places, 1)]
    lines.append("*CAP")
    lines += [f"{index} {node} {value:.3f}" for index, (node, value) in enumerate(wires.capacitors.items(), 1)]
    lines.append("*RES")
    lines += [f"{index} {one} {other} {value:.3f}" for index, (one, other, value) in enumerate(wires.resistors, 1)]
    return "\n".join(lines + ["*END", ""])


def main():
    parser = common.parser(__doc__)
    parser.add_argument("netlist", help="a netlist that write_json of yosys wrote")
    parser.add_argument("module", help="the name of its module")
    parser.add_argument("out", help="the SPEF file to write")
    options = parser.parse_args()
    nets = read_nets(options.netlist, options.module)
    spots = place(nets)
    routes = [route(net, spots) for net in nets]
    sections = [section(net, wires, spots) for net, wires in zip(nets, routes)]
    common.write_text(options.out, HEADER.format(module=options.module) + "\n".join(sections))
    length = sum(sum(wires.capacitors.values()) for wires in routes) / FF_PER_UM
    print(f"{len(nets)} nets, {length / 1000:.1f} mm of wires (made up)")


if __name__ == "__main__":
    common.run(main)
