#!/usr/bin/env python3
"""Writes the change that vginsert made to a netlist as a script for a place-and-route tool or a timing analyzer.

    eco.py --before BEFORE.v --after AFTER.v --format opensta|openroad|innovus
           [--spef AFTER.spef] [--prefix vgi_] [-o FILE]

BEFORE.v is the netlist that a run of `best`, `repair` or `total` has read, AFTER.v the one that it has written. The
change is what the two differ in: new nets, new instances with their cells, pins of old instances that are on another
net, and the pins of the new instances. So a tool that has BEFORE.v in its memory, with all that it knows of it, needs
no other netlist: source the script.

New instances and nets begin with the prefix, and a pin that is moved was on one net and is on one net. All else that
differs is an error with file and line: this script writes no part of a change. With `--spef`, the parasitics of the
same run, a new instance has the place of its node, where the node has a `*C`: in the coordinates of that file, which
are taken as micrometres. Without a place it stays unplaced, and a comment says so.

- `opensta`: `make_net`, `make_instance`, `disconnect_pin`, `connect_pin`, as OpenSTA has them; after a command that
  fails the rest of the script does nothing. Tried with OpenSTA 2.0. It has no places, so `--spef` is refused.
- `openroad`: the same commands, and places by the database's `setLocation`. It was not run on OpenROAD.
- `innovus`: `addNet`, `addInst`, `detachTerm`, `attachTerm`, `placeInstance`. It was not run on Innovus, but written
  after what is public of its commands.

A place is that of a pin and is not legal: legalize the placement afterwards (`detailed_placement`, `refinePlace`), and
route.

Names are in braces for Tcl where they need it. OpenSTA and OpenROAD want a backslash before each / [ ] and \\ of an
escaped identifier, as {ctl\\/sel_n} and {next\\[0\\]}, and none before the brackets of a bit, as {acc[3]}. They look
names up by patterns and in lists, so a name with one of * ? { } " is an error for these two. Innovus has names without
escapes.
"""
from __future__ import annotations

import itertools
import re
from dataclasses import dataclass, field

import common
import netlist
import spef

PREFIX = re.compile("[A-Za-z_][A-Za-z0-9_]{0,31}")
PLAIN = re.compile("[A-Za-z0-9_./:+-]+")
UNSAFE = re.compile('[*?{}"]')
SIMPLE = re.compile("[A-Za-z0-9_]+")


@dataclass
class Move:
    """A pin of an old instance that is on another net."""

    instance: netlist.Instance
    pin: str
    old: netlist.NetName
    new: netlist.NetName


@dataclass
class Change:
    """What two netlists differ in, in the order of the second one. Moves are in the order of the first."""

    file: str
    nets: list[netlist.NetName] = field(default_factory=list)
    instances: list[netlist.Instance] = field(default_factory=list)
    moves: list[Move] = field(default_factory=list)
    places: dict[str, tuple[float, float]] | None = None  # of new instances


# ---- the change


def change_of(before, after, prefix):
    """The change from one module to another. Raises a fault where it is no such change as vginsert makes."""
    change = Change(after.file, nets=new_nets(before, after, prefix))
    for name, instance in after.instances.items():
        old = before.instances.get(name)
        if old is None:
            change.instances.append(checked_new(instance, after.file, prefix))
        elif old.cell != instance.cell:
            raise common.Fault(f"the instance '{name}' was a {old.cell}", after.file, instance.line)
    for name, old in before.instances.items():
        if name not in after.instances:
            raise common.Fault(f"the instance '{name}' is not in {after.file}", before.file, old.line)
        change.moves += moves_of(old, after.instances[name], after.file)
    check_nets(change, before, after)
    return change


def new_nets(before, after, prefix):
    """The nets of the declarations `wire NAME;` that only the second module has. All other items must be equal."""
    had, rest, nets = {item.words for item in before.items}, [], []
    for item in after.items:
        is_wire = len(item.words) == 2 and item.words[0] == "wire" and item.words[1].startswith(prefix)
        if is_wire and item.words not in had:
            nets.append(netlist.NetName(item.words[1]))
        else:
            rest.append(item)
    for old, new in itertools.zip_longest(before.items, rest):
        if new is None or old is None:
            item, file = (old, before.file) if new is None else (new, after.file)
            raise common.Fault(f"'{' '.join(item.words)[:60]}' is not in the other netlist", file, item.line)
        if old.words != new.words:
            reason = f"'{' '.join(new.words)[:60]}' is in the place of '{' '.join(old.words)[:60]}'"
            raise common.Fault(reason, after.file, new.line)
    return nets


def checked_new(instance, file, prefix):
    if not instance.name.startswith(prefix):
        raise common.Fault(f"the new instance '{instance.name}' does not begin with '{prefix}'", file, instance.line)
    for pin, net in instance.pins.items():
        if not isinstance(net, netlist.NetName):
            raise common.Fault(f"the pin '{pin}' of the new instance is not on one net", file, instance.line)
    return instance


def moves_of(old, new, file):
    """The pins of an old instance that are on another net."""
    if old.pins.keys() != new.pins.keys():
        raise common.Fault(f"the instance '{old.name}' has other pins than before", file, new.line)
    for pin, before in old.pins.items():
        after = new.pins[pin]
        if before == after:
            continue
        if not (isinstance(before, netlist.NetName) and isinstance(after, netlist.NetName)):
            raise common.Fault(f"the pin '{pin}' of '{old.name}' is not moved from one net to one net", file, new.line)
        yield Move(new, pin, before, after)


def check_nets(change, before, after):
    """Each net to which a pin is moved is a new one or one of the first netlist."""
    new = set(change.nets)
    known = {net for instance in before.instances.values() for net in instance.pins.values()}
    ends = [(net, item.line) for item in change.instances for net in item.pins.values()]
    for net, line in ends + [(move.new, move.instance.line) for move in change.moves]:
        if net not in new and net not in known:
            raise common.Fault(f"the net '{net}' is neither new nor that of a pin in {before.file}", after.file, line)


def places_of(change, parasitics):
    """The places of the new instances: that of the first of its pins with one, in the order of the file."""
    new, places = {instance.name for instance in change.instances}, {}
    for net in parasitics.nets.values():
        for node, place in net.positions.items():
            owner = node.rpartition(":")[0]
            if owner in new:
                places.setdefault(owner, place)
    return places


# ---- Tcl


def word(text):
    """A text as one word of Tcl: as it is, in braces, or with backslashes."""
    text = str(text)
    if PLAIN.fullmatch(text):
        return text
    if "{" not in text and "}" not in text and not text.endswith("\\"):
        return "{" + text + "}"
    return re.sub(r"[^A-Za-z0-9_]", lambda match: "\\" + match.group(), text)


def number(value):
    """A coordinate as text."""
    return f"{value:.6f}".rstrip("0").rstrip(".")


STA_HEAD = """\
# Runs a command, and nothing more after one that failed: OpenSTA answers 0 where it finds no such name, and goes on.
set vg_failed 0
proc vg_do {args} {
    global vg_failed
    if { $vg_failed } { return }
    if { [catch { uplevel #0 $args } answer] || $answer in {0 NULL} } {
        set vg_failed 1
        error "failed, and the rest of the change is left out: $args ($answer)"
    }
}
"""
OPENROAD_HEAD = """\
# Places an instance, by a point in micrometres. This was not run on OpenROAD.
proc vg_place {name x y} {
    set instance [[ord::get_db_block] findInst $name]
    $instance setLocation [ord::microns_to_dbu $x] [ord::microns_to_dbu $y]
    $instance setPlacementStatus PLACED
    return 1
}
"""


def sta_name(name, file, line):
    """An identifier for OpenSTA: each divider, bracket and backslash in it has a backslash before it."""
    if UNSAFE.search(name):
        raise common.Fault(f"OpenSTA cannot look up the name '{name}'", file, line)
    return re.sub(r"[/\[\]\\]", lambda match: "\\" + match.group(), name)


def sta_net(net, instance, file):
    """A net for OpenSTA, as one word of Tcl. The brackets of a bit have no backslash."""
    name = sta_name(net.identifier, file, instance.line)
    return word(name if net.bit is None else f"{name}[{net.bit}]")


def sta_pin(instance, pin, file):
    """A pin for OpenSTA: its path, or the object where OpenSTA would not split the path."""
    path = f"{sta_name(instance.name, file, instance.line)}/{sta_name(pin, file, instance.line)}"
    return path if SIMPLE.fullmatch(instance.name) and SIMPLE.fullmatch(pin) else f"[get_pins {word(path)}]"


def sta_lines(change, tool):
    file = change.file
    yield STA_HEAD
    if tool == "openroad" and change.places:
        yield OPENROAD_HEAD
    yield from (f"vg_do make_net {net}" for net in change.nets)
    for cell in change.instances:
        yield f"vg_do make_instance {cell.name} {word(sta_name(cell.cell, file, cell.line))}"
    for move in change.moves:
        pin = sta_pin(move.instance, move.pin, file)
        yield f"vg_do disconnect_pin {sta_net(move.old, move.instance, file)} {pin}"
        yield f"vg_do connect_pin {sta_net(move.new, move.instance, file)} {pin}"
    for cell in change.instances:
        for pin, net in cell.pins.items():
            yield f"vg_do connect_pin {sta_net(net, cell, file)} {sta_pin(cell, pin, file)}"
    yield from placement(change, lambda name, x, y: f"vg_do vg_place {name} {x} {y}")


def innovus_lines(change, _tool):
    yield "# This was not run on Innovus. Legalize the placement and route afterwards.\n"
    yield from (f"addNet {net}" for net in change.nets)
    yield from (f"addInst -cell {word(cell.cell)} -inst {cell.name}" for cell in change.instances)
    for move in change.moves:
        name, pin = word(move.instance.name), word(move.pin)
        yield f"detachTerm {name} {pin} {word(move.old)}"
        yield f"attachTerm {name} {pin} {word(move.new)}"
    for cell in change.instances:
        yield from (f"attachTerm {cell.name} {word(pin)} {word(net)}" for pin, net in cell.pins.items())
    yield from placement(change, lambda name, x, y: f"placeInstance {name} {x} {y}")


def placement(change, command):
    """The lines that place the new instances."""
    if change.places is None:
        return
    for cell in change.instances:
        if cell.name in change.places:
            yield command(cell.name, *map(number, change.places[cell.name]))
        else:
            yield f"# {cell.name} has no place"


LINES = {"opensta": sta_lines, "openroad": sta_lines, "innovus": innovus_lines}


def script(change, tool, before, after):
    """The whole script for a tool."""
    head = f"# The change from {before} to {after}, by flow/eco.py, for {tool}."
    counts = f"# {len(change.instances)} new cells, {len(change.nets)} new nets, {len(change.moves)} pins moved."
    return "\n".join([head, counts, *LINES[tool](change, tool)]) + "\n"


def prefix_of(text):
    if not PREFIX.fullmatch(text):
        raise ValueError
    return text


def arguments(words):
    parser = common.parser(__doc__)
    parser.add_argument("--before", metavar="BEFORE.v", required=True, help="the netlist that vginsert read")
    parser.add_argument("--after", metavar="AFTER.v", required=True, help="the netlist that it wrote")
    parser.add_argument("--format", choices=sorted(LINES), required=True, help="the tool")
    parser.add_argument("--spef", metavar="AFTER.spef", help="the parasitics that it wrote, for places")
    parser.add_argument("--prefix", type=prefix_of, default="vgi_", help="what new names begin with (vgi_)")
    parser.add_argument("-o", "--output", metavar="FILE", help="write to this file instead of standard output")
    options = parser.parse_args(words)
    if options.spef and options.format == "opensta":
        parser.error("opensta has no places, so it takes no --spef")
    return options


def main(words=None):
    options = arguments(words)
    change = change_of(netlist.read(options.before), netlist.read(options.after), options.prefix)
    if options.spef:
        change.places = places_of(change, spef.read(options.spef))
    text = script(change, options.format, options.before, options.after)
    common.put_text(text, options.output)


if __name__ == "__main__":
    common.run(main)
