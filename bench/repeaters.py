#!/usr/bin/env python3
"""Writes a library of so many repeaters, every other one an inverter: `repeaters.py COUNT > FILE` (Liberty).

They come in strengths from 1 to 20 and in three flavours: the faster it is, the more its input loads.
"""
import sys

HEAD = """library (repeaters) {
  delay_model : generic_cmos;
  time_unit : "1ps";
  capacitive_load_unit (1, ff);
"""


def cell(at, count):
    inverts = at % 2 == 1
    strength = 1 + 19 * (at // 2) / max(1, (count + 1) // 2 - 1)
    fast = [1.0, 1.15, 0.9][at // 2 % 3]
    name = f"{'INV' if inverts else 'BUF'}_{at // 2}"
    delay = (9 if inverts else 16) / fast
    resistance = 3.2 / strength / fast
    load = (0.8 if inverts else 0.6) * strength * fast
    return f"""  cell ({name}) {{
    area : {strength * (0.7 if inverts else 1):.3f};
    pin (A) {{ direction : input; capacitance : {load:.3f}; }}
    pin (Y) {{
      direction : output;
      function : "{'!A' if inverts else 'A'}";
      timing () {{
        related_pin : "A";
        intrinsic_rise : {delay:.3f}; intrinsic_fall : {delay:.3f};
        rise_resistance : {resistance:.4f}; fall_resistance : {resistance:.4f};
      }}
    }}
  }}
"""


def main():
    count = int(sys.argv[1])
    sys.stdout.write(HEAD + "".join(cell(at, count) for at in range(count)) + "}\n")


main()
