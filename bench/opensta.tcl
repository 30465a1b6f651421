# Reads a design with OpenSTA and times it, for a comparison with `--mode sta`: prints the seconds of each step, and the endpoint that a
# signal reaches last.
#
#     DESIGN=PATH /usr/bin/time -v sta -no_splash -exit bench/opensta.tcl
#
# PATH.lib, PATH.v and PATH.spef are the files of `design.py MB PATH KIND` or of `net_chain.py COUNT PATH`. The constraints are not
# read, since OpenSTA has another format for these: all arrivals are found, from flip-flops and open inputs on, and no required times.
# A rising signal and a falling one are timed apart, and numbers are of 32 bits. Of the calculators of delays this one takes wires
# into account where cells are linear. (Debian has OpenSTA as the package `opensta`.)
set design $::env(DESIGN)

proc step {name script} {
    set micros [lindex [time { uplevel #0 $script }] 0]
    puts [format "%-12s %8.2f s" $name [expr {$micros / 1e6}]]
}

step library { read_liberty $design.lib }
step netlist { read_verilog $design.v; link_design bench }
step parasitics { read_spef $design.spef }
set_delay_calculator dmp_ceff_two_pole
step timing { report_checks -unconstrained -format end -digits 6 }
