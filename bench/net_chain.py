#!/usr/bin/env python3
"""Writes a design of four files in which each net leads to the next one: `net_chain.py COUNT PATH` writes PATH.spef with COUNT
nets, PATH.v, PATH.lib and PATH.cons. Of each net the driver is a buffer, and the one sink is the next buffer, 100 Ω away.
The last one is the only endpoint, so that one path goes through all nets. `opensta.tcl` reads the files, too.
"""
import sys

HEADER = """*SPEF "IEEE 1481-1998"
*DESIGN "bench"
*DATE "none"
*VENDOR "none"
*PROGRAM "net_chain.py"
*VERSION "1"
*DESIGN_FLOW "none"
*DIVIDER /
*DELIMITER :
*BUS_DELIMITER [ ]
*T_UNIT 1 PS
*C_UNIT 1 FF
*R_UNIT 1 OHM
*L_UNIT 1 HENRY
"""
LIBRARY = """library (bench) {
  delay_model : generic_cmos;
  time_unit : "1ps";
  capacitive_load_unit (1, ff);
  voltage_unit : "1V";
  current_unit : "1mA";
  pulling_resistance_unit : "1kohm";
  input_threshold_pct_rise : 50;
  input_threshold_pct_fall : 50;
  output_threshold_pct_rise : 50;
  output_threshold_pct_fall : 50;
  slew_lower_threshold_pct_rise : 20;
  slew_lower_threshold_pct_fall : 20;
  slew_upper_threshold_pct_rise : 80;
  slew_upper_threshold_pct_fall : 80;
  cell (BUF) {
    area : 1;
    pin (A) { direction : input; capacitance : 2; }
    pin (Z) {
      direction : output;
      function : "A";
      timing () {
        related_pin : "A";
        intrinsic_rise : 20;
        intrinsic_fall : 20;
        rise_resistance : 1;
        fall_resistance : 1;
      }
    }
  }
}
"""


def parasitics(count):
    yield HEADER
    for k in range(1, count + 1):
        yield f"*D_NET n{k} 1\n*CONN\n*I u{k}:Z O\n*I u{k + 1}:A I\n*CAP\n1 u{k + 1}:A 1\n*RES\n1 u{k}:Z u{k + 1}:A 100\n*END\n"


def netlist(count):
    yield "module bench (in);\n input in;\n BUF u1 (.A(in), .Z(n1));\n"
    yield from (f" BUF u{k} (.A(n{k - 1}), .Z(n{k}));\n" for k in range(2, count + 1))
    yield f" BUF u{count + 1} (.A(n{count}), .Z());\nendmodule\n"


CONSTRAINTS = "vgcons 1\ndefault required 1000\n"


def main():
    count, path = int(sys.argv[1]), sys.argv[2]
    for end, pieces in [("spef", parasitics(count)), ("v", netlist(count)), ("lib", [LIBRARY]), ("cons", [CONSTRAINTS])]:
        with open(f"{path}.{end}", "w", encoding="ascii", newline="\n") as out:
            out.writelines(pieces)


main()
