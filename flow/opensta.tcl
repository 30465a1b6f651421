# Writes what OpenSTA (2.0 or later) knows of each net, for flow/constraints.py: the driver, the loads and their setup
# slacks. And the slews at the inputs of cells, for flow/linear_library.py.
#
# In a session or a script that has read and constrained a flat design with its parasitics:
#
#     source flow/opensta.tcl
#     vg_write_slacks design.slacks
#     vg_write_slews design.slews
#
# By itself, with the design in environment variables; LIB may name several libraries, on lines of their own, and SLEWS
# may be left out:
#
#     LIB=a.lib VERILOG=a.v TOP=top SPEF=a.spef SDC=a.sdc OUT=a.slacks SLEWS=a.slews \
#         sta -no_splash -exit flow/opensta.tcl
#
# OpenSTA 2.0 ends with status 0 in any case. So the files are deleted first, and are there afterwards only when all
# went well.
#
# The slews are a line `* PS`: the slew that half of all inputs of cells have at most, the greater of rise and fall, in
# the definition of the library's tables. Clocks do not count. The lines `# CELL PS` below it have the same of single
# cells, as comments: repeaters have to be compared at one slew. `vg_write_slews FILE 0.9` takes nine tenths for the
# half.
#
# The slacks begin with the line `vgslacks 1`. Each further line has words with one space between. Times are in ps,
# capacitances in fF, resistances in ohms. Names are written as OpenSTA prints them: a pin is INSTANCE/PIN. OpenSTA 2.0
# prints an escaped Verilog name without its backslash, and writes a backslash within a name twice.
#
#     wns S                     the worst slack (positive where no path is late); `none` where no path is constrained
#     tns S                     the sum of the negative slacks of all endpoints
#     late N                    how many endpoints have a negative slack
#     cells CELL N              how many instances of this cell the design has
#     port_load PORT C          set_load: what an output port charges, pins and wires
#     port_drive PORT R         set_drive: the greatest resistance that drives an input port
#     port_cell PORT CELL/PIN   set_driving_cell: the cell that drives an input port
#     net NAME                  a net, or `net NAME clock` where a clock arrives at it; its pins follow:
#     driver PIN CELL/PIN       an output of an instance
#     driver PORT port          an input port of the design
#     load PIN CELL/PIN S       an input of an instance, and its worst slack of rise and fall; `none` without a path
#     load PORT port S          an output port of the design
#
# Only setup slacks of one corner are written. A design with hierarchy or several corners is an error. The slacks are
# those of floats of 32 bits, which have about 7 digits. An input delay of an SDC file is part of the slacks. A port
# without set_drive and set_driving_cell has no row: OpenSTA takes its drive as ideal.

namespace eval vg {
    # The worst setup slack of a pin in ps, with 6 digits after the point, or `none`.
    proc slack {pin} {
        set worst 1e30
        foreach vertex [$pin vertices] {
            if { $vertex eq "NULL" } { continue }
            foreach edge {rise fall} {
                set slacks [$vertex slacks $edge]
                if { [llength $slacks] != 2 } {
                    error "[llength $slacks] slacks in the place of 2 at [get_full_name $pin]: one corner is expected"
                }
                set worst [expr {min($worst, [lindex $slacks 1])}]
            }
        }
        return [picoseconds $worst]
    }

    proc picoseconds {seconds} {
        return [expr {abs($seconds) > 1e20 ? "none" : [format %.6f [expr {$seconds * 1e12}]]}]
    }

    proc items {iterator} {
        set found {}
        while { [$iterator has_next] } { lappend found [$iterator next] }
        $iterator finish
        return $found
    }

    # How many endpoints are late.
    proc late {} {
        set count 0
        foreach pin [sta::endpoints] {
            set slack [slack $pin]
            if { $slack ne "none" && $slack < 0 } { incr count }
        }
        return $count
    }

    proc is_clock {pins} {
        foreach pin $pins {
            foreach vertex [$pin vertices] {
                if { $vertex ne "NULL" && [$pin is_driver] && [$vertex is_clock] } { return 1 }
            }
        }
        return 0
    }

    proc write_net {out net} {
        if { [$net is_power] || [$net is_ground] } { return }
        set pins [items [$net connected_pin_iterator]]
        if { [llength $pins] == 0 } { return }
        puts $out "net [get_full_name $net][expr {[is_clock $pins] ? " clock" : ""}]"
        set drivers {}
        set loads {}
        foreach pin $pins {
            if { [$pin is_hierarchical] } { error "the netlist has hierarchy, at [get_full_name $pin]: write it flat" }
            if { [$pin is_top_level_port] } {
                set words [list [get_full_name $pin] port]
            } else {
                set instance [$pin instance]
                set name [$pin port_name]
                set words [list "[get_full_name $instance]/$name" "[get_name [$instance cell]]/$name"]
            }
            if { [$pin is_driver] } { lappend drivers "driver [join $words]" }
            if { [$pin is_load] } { lappend loads "load [join $words] [slack $pin]" }
        }
        foreach line [concat [lsort $drivers] [lsort $loads]] { puts $out $line }
    }

    # The slew of an input in ps, the greater of rise and fall; 0 where there is none, or a clock.
    proc slew {pin} {
        set greatest 0
        foreach vertex [$pin vertices] {
            if { $vertex eq "NULL" || ![$pin is_load] || [$vertex is_clock] } { continue }
            foreach edge {rise fall} { set greatest [expr {max($greatest, [lindex [$vertex slews $edge] end])}] }
        }
        return [expr {$greatest * 1e12}]
    }

    # The number that a part of some numbers have at most.
    proc quantile {numbers part} {
        set place [expr {int(ceil($part * [llength $numbers])) - 1}]
        return [format %.6f [lindex [lsort -real $numbers] [expr {max(0, $place)}]]]
    }

    proc write_slews_of {part out} {
        find_timing ;# before it no pin is known as a clock's
        set all {}
        array set slews {}
        foreach instance [sta::network_leaf_instances] {
            foreach pin [items [$instance pin_iterator]] {
                set slew [slew $pin]
                if { $slew <= 0 } { continue }
                lappend slews([get_name [$instance cell]]) $slew
                lappend all $slew
            }
        }
        if { [llength $all] == 0 } { error "no input of a cell has a slew" }
        puts $out "# $part of the [llength $all] inputs of cells have this slew (ps) at most; below, those of each cell"
        puts $out "* [quantile $all $part]"
        foreach cell [lsort [array names slews]] { puts $out "# $cell [quantile $slews($cell) $part]" }
    }

    proc write_cells {out} {
        array set counts {}
        foreach instance [sta::network_leaf_instances] { incr counts([get_name [$instance cell]]) }
        foreach cell [lsort [array names counts]] { puts $out "cells $cell $counts($cell)" }
    }

    proc write_loads {out} {
        foreach port [sta::sort_by_full_name [all_outputs]] {
            set pin_load [expr {max([sta::port_ext_pin_cap $port rise max], [sta::port_ext_pin_cap $port fall max])}]
            set wire_load [expr {max([sta::port_ext_wire_cap $port rise max], [sta::port_ext_wire_cap $port fall max])}]
            set load [expr {($pin_load + $wire_load) * 1e15}]
            if { $load > 0 } { puts $out "port_load [get_full_name $port] [format %.6f $load]" }
        }
    }

    # OpenSTA answers no question about the drives of ports, but writes them as SDC: this is read by an interpreter of
    # its own, which knows nothing but set_drive, set_driving_cell and get_ports.
    proc write_drives {out} {
        variable drives [dict create] driving_cells [dict create]
        set file [file tempfile path]
        close $file
        write_sdc -no_timestamp -digits 9 $path
        set file [open $path]
        set text [read $file]
        close $file
        file delete $path
        set reader [interp create -safe]
        $reader eval { proc unknown {args} {}; proc get_ports {names} { return $names } }
        interp alias $reader set_drive {} vg::keep_drive
        interp alias $reader set_driving_cell {} vg::keep_cell
        $reader eval $text
        interp delete $reader
        set to_ohms [sta::resistance_ui_sta 1.0]
        foreach port [lsort [dict keys $drives]] {
            if { [dict exists $driving_cells $port] } { continue }
            puts $out "port_drive $port [format %.6f [expr {[dict get $drives $port] * $to_ohms}]]"
        }
        foreach port [lsort [dict keys $driving_cells]] { puts $out "port_cell $port [dict get $driving_cells $port]" }
    }

    proc keep_drive {args} {
        variable drives
        if { "-min" in $args && "-max" ni $args } { return }
        lassign [lrange $args end-1 end] drive port
        set before [expr {[dict exists $drives $port] ? [dict get $drives $port] : 0}]
        dict set drives $port [expr {max($before, $drive)}]
    }

    proc keep_cell {args} {
        variable driving_cells
        if { "-min" in $args && "-max" ni $args } { return }
        set cell [lindex $args [expr {[lsearch -exact $args -lib_cell] + 1}]]
        set pin [lindex $args [expr {[lsearch -exact $args -pin] + 1}]]
        dict set driving_cells [lindex $args end] "$cell/$pin"
    }

    proc write_slacks {out} {
        puts $out "vgslacks 1"
        puts $out "wns [picoseconds [sta::worst_slack_cmd max]]"
        puts $out "tns [picoseconds [sta::total_negative_slack_cmd max]]"
        puts $out "late [late]"
        write_cells $out
        write_loads $out
        write_drives $out
        foreach net [items [[sta::top_instance] net_iterator]] { write_net $out $net }
    }

    # Some commands raise no error, but print one and return 0.
    proc must {args} {
        if { ![uplevel #0 $args] } { error "[join $args] failed" }
    }

    proc read_design {} {
        foreach library [split $::env(LIB) \n] { must read_liberty $library }
        must read_verilog $::env(VERILOG)
        must link_design $::env(TOP)
        must read_spef $::env(SPEF)
        uplevel #0 [list read_sdc $::env(SDC)]
    }
}

# Writes a file by a command that gets the channel: a draft first, so the file is whole or as it was.
proc vg::write_file {path command} {
    set out [open $path.draft w]
    fconfigure $out -translation lf
    set failed [catch { {*}$command $out } message]
    close $out
    if { $failed } {
        file delete $path.draft
        error $message
    }
    file rename -force $path.draft $path
}

# Writes the slacks to a file.
proc vg_write_slacks {path} {
    vg::write_file $path vg::write_slacks
}

# Writes the slews to a file: those that a part of the inputs have at most.
proc vg_write_slews {path {part 0.5}} {
    if { ![string is double -strict $part] || $part <= 0 || $part > 1 } { error "$part is no part over 0 and up to 1" }
    vg::write_file $path [list vg::write_slews_of $part]
}

if { [info exists env(LIB)] && [info exists env(VERILOG)] && [info exists env(TOP)] && [info exists env(SPEF)]
     && [info exists env(SDC)] && [info exists env(OUT)] } {
    file delete $env(OUT)
    if { [info exists env(SLEWS)] } { file delete $env(SLEWS) }
    if { [catch {
        vg::read_design
        if { [info exists env(SLEWS)] } { vg_write_slews $env(SLEWS) }
        vg_write_slacks $env(OUT)
    } message] } {
        puts stderr "opensta.tcl: $message"
        exit 1
    }
}
