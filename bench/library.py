#!/usr/bin/env python3
"""Prints a Liberty library of so many megabytes: `library.py MB [PART]`, 1 MB is 2^20 bytes.

PART is `mixed` (20,000 cells for 64 MB: buffers, inverters, gates and flip-flops with comments, continued lines, buses and,
beside their linear attributes, tables that are passed over), `deep` (cells that are 62 groups deep), `wide` (one cell with a
pin, a timing group and an attribute a line) or `values` (tables alone, in long lists). Each has the cell `BUF_X1` besides.
"""
import sys

HEAD = """/* a library that is made for measurements */
library (made) {
  delay_model : generic_cmos;
  time_unit : "1ps";
  capacitive_load_unit (1, ff);
  nom_voltage : 0.8; /* passed over */
  cell (BUF_X1) {
    pin (A) { direction : input; capacitance : 1; }
    pin (Y) { direction : output; function : "A";
      timing () { related_pin : "A"; intrinsic_rise : 20; intrinsic_fall : 19; rise_resistance : 1; fall_resistance : 0.95; } }
  }
"""

ROWS = [", ".join(f"0.{row}{column}7315" for column in range(8)) for row in range(8)]

TABLE = '          values ("' + '", \\\n            "'.join(ROWS) + '");\n'


def timing(related, rise, fall, resistance):
    return (
        f'      timing () {{\n        related_pin : "{related}";\n'
        f"        intrinsic_rise : {rise}.25;\n        intrinsic_fall : {fall}.5;\n"
        f"        rise_resistance : 0.{resistance:03};\n        fall_resistance : 0.{resistance + 7:03};\n"
        "        slope_rise : 0.0;\n        slope_fall : 0.0;\n"
        + "".join(f"        {name} (delay_template_8x8) {{\n{TABLE}        }}\n" for name in ["cell_rise", "cell_fall"])
        + "      }\n"
    )


def cell(number):
    kind = number % 4
    inverts = "!" if kind == 1 else ""
    inputs = ["A"] if kind < 2 else ["A", "B"] if kind == 2 else ["D", "CK"]
    text = f"  cell (CELL_{number}) {{\n    area : {1 + number % 90}.{number % 10}; /* of the layout */\n    cell_leakage_power : 0.0{number};\n"
    if number % 40 == 0:
        text += "    dont_use : true;\n"
    for name in inputs:
        text += f"    pin ({name}) {{\n      direction : input;\n      capacitance : 1.{number % 1000:03};\n    }}\n"
    function = f"({inverts}A)" if kind < 2 else "A & B" if kind == 2 else "IQ"
    text += f'    pin (Z) {{\n      direction : output; max_capacitance : 90.5;\n      function : "{function}";\n'
    for name in inputs:
        text += timing(name if number < 400 or kind > 1 else "", 10 + number % 50, 12 + number % 40, 100 + number % 800)
    text += "    }\n"
    if kind == 3:
        text += '    ff (IQ, IQN) {\n      next_state : "D";\n      clocked_on : \\\n        "CK";\n    }\n    bus (Q) {\n      bus_type : four;\n      pin (Q[0]) { direction : output; }\n    }\n'
    return text + "  }\n"


def mixed(size):
    number = 0
    while size > 0:
        text = cell(number)
        size -= len(text)
        number += 1
        yield text


def deep(size):
    text = "".join(f"{'  ' * depth}nested_{depth} (a, b) {{\n{'  ' * depth}  note : {depth};\n" for depth in range(2, 62))
    text = "  cell (DEEP_{number}) {{\n" + text.replace("{", "{{") + "  }}" * 61 + "\n"
    number = 0
    while size > 0:
        part = text.format(number=number)
        size -= len(part)
        number += 1
        yield part


def wide(size):
    yield "  cell (WIDE) {\n"
    number = 0
    while size > 0:
        part = f"    pin (P{number}) {{ direction : input; capacitance : 1.5; timing () {{ related_pin : P0; }} }}\n    note_{number} : {number};\n"
        size -= len(part)
        number += 1
        yield part
    yield "  }\n"


def values(size):
    while size > 0:
        part = "  lu_table (t) {\n    values (" + ", ".join('"0.10, 0.25, 0.75, 1.5, 3.25"' for _ in range(20000)) + ");\n  }\n"
        size -= len(part)
        yield part


PARTS = {"mixed": mixed, "deep": deep, "wide": wide, "values": values}


def main():
    size = int(sys.argv[1]) * 2**20
    part = PARTS[sys.argv[2] if len(sys.argv) > 2 else "mixed"]
    sys.stdout.write(HEAD)
    for text in part(size - len(HEAD)):
        sys.stdout.write(text)
    sys.stdout.write("}\n")


main()
