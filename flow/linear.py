"""A reader of linear libraries (`generic_cmos`), as vginsert reads them.

    cells = linear.read("cells.lib")
    drive = cells["BUF_X1"].pins["Y"]
    delay = drive.intrinsic + drive.resistance * load      # zs, mΩ and aF

The delay of a cell is an intrinsic time plus a resistance times the load. Numbers are whole: areas in thousandths,
capacitances in aF, times in zs, resistances in mΩ. They are rounded to the nearest, halves away from 0. Pins in a
`bus` or a `bundle` are not there, as vginsert skips them.
"""
from __future__ import annotations

from dataclasses import dataclass
from fractions import Fraction

import common
import liberty
from common import AF_PLACES, AREA_PLACES, ZS_PLACES, Fault

SLOPE_PLACES = 9
DEFAULT_TIME_PLACES = 12  # 1 ns, where a library has no unit of times


@dataclass
class Pin:
    """A pin. An output drives with `intrinsic` (zs) and `resistance` (mΩ): both are given, or neither."""

    name: str
    direction: str | None
    capacitance: int | None
    max_capacitance: int | None
    intrinsic: int | None
    resistance: int | None


@dataclass
class Cell:
    """A cell of the library. `dont_use` keeps it from being a repeater."""

    name: str
    area: int
    dont_use: bool
    pins: dict[str, Pin]
    line: int


@dataclass
class _Places:
    """At how many decimal places numbers of the library are read."""

    load: int
    time: int
    resistance: int


def read(path) -> dict[str, Cell]:
    """The cells of a library, by name, in the order of the file."""
    library = liberty.read(path)
    _check_model(library)
    places = _places(library)
    cells = {}
    for group in library.groups_of("cell"):
        if len(group.arguments) != 1:
            raise Fault("a cell has not one name", path, group.line)
        cell = _cell(group, places)
        if cell.name in cells:
            raise Fault(f"the cell {cell.name} is there twice", path, cell.line)
        cells[cell.name] = cell
    return cells


def _check_model(library):
    model = library.simple("delay_model")
    if model is not None and model.values[0] != "generic_cmos":
        raise Fault(f"the delay_model '{model.values[0]}' is not generic_cmos", library.file, model.line)


def _power_of_ten(unit: Fraction, library):
    power = len(str(unit.numerator)) - 1
    if unit != 10**power:
        raise Fault(f"a unit of {unit} is no power of ten", library.file, library.line)
    return power


def _places(library):
    time = DEFAULT_TIME_PLACES
    if library.simple("time_unit") is not None:
        time = _power_of_ten(liberty.time_unit_ps(library), library) + ZS_PLACES
    load = _power_of_ten(liberty.load_unit_ff(library), library) + AF_PLACES
    return _Places(load, time, time - load)


def _number(group, name, places):
    """The number of a simple attribute, or None where it is not there."""
    found = group.simple(name)
    return None if found is None else common.whole(found.values[0], places, group.file, found.line)


def _cell(group, places):
    pins = {}
    for pin_group in group.groups_of("pin"):
        shared = _pin(pin_group, places)
        for name in pin_group.arguments:
            pins.setdefault(name, Pin(name, *shared))
    area = _number(group, "area", AREA_PLACES) or 0
    return Cell(group.arguments[0], area, group.text("dont_use") == "true", pins, group.line)


def _pin(group, places):
    """What all pins of a group share: direction, capacitances and drive."""
    capacitance = _number(group, "capacitance", places.load)
    greatest = _number(group, "max_capacitance", places.load)
    times, resistances = [], []
    for timing in group.groups_of("timing"):
        for edge in ("rise", "fall"):
            times.append(_number(timing, f"intrinsic_{edge}", places.time))
            resistances.append(_number(timing, f"{edge}_resistance", places.resistance))
            _check_slope(timing, f"slope_{edge}")
    times = [time for time in times if time is not None]
    resistances = [resistance for resistance in resistances if resistance is not None]
    drives = group.text("direction") == "output" and times and resistances
    drive = (max(times), max(resistances)) if drives else (None, None)
    return (group.text("direction"), capacitance, greatest, *drive)


def _check_slope(timing, name):
    found = timing.simple(name)
    if found is None:
        return
    if common.signed(found.values[0], SLOPE_PLACES, timing.file, found.line):
        raise Fault(f"{name} is not 0", timing.file, found.line)
