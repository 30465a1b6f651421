#!/usr/bin/env bash
# Proves with yosys that two netlists of a design have the same function.
#
#     flow/equivalence.sh TOP BEFORE.v AFTER.v TABLES.lib..
#
# TOP is the module, TABLES.lib are the libraries with the functions of its cells. The outputs and the registers of both
# netlists, paired by name, have to be equal. The status is 0 where this is proven of all of them, and else 1, with what
# yosys printed last. That it is not proven need not mean that the function differs.
set -eu -o pipefail

if [ $# -lt 4 ]; then
    printf 'equivalence.sh: TOP BEFORE.v AFTER.v TABLES.lib.. are wanted\n' >&2
    exit 1
fi
top=$1 before=$2 after=$3
shift 3

netlist() { # FILE NAME LIBRARY..
    printf 'read_liberty -ignore_miss_func "%s"\n' "${@:3}"
    printf 'read_verilog "%s"\nhierarchy -top %s\nflatten\nrename %s %s\ndesign -stash %s\n' \
        "$1" "$top" "$top" "$2" "$2"
}

folder=$(mktemp -d)
trap 'rm -rf -- "$folder"' EXIT
{
    netlist "$before" vg_before "$@"
    netlist "$after" vg_after "$@"
    cat <<'END'
design -copy-from vg_before vg_before
design -copy-from vg_after vg_after
equiv_make vg_before vg_after vg_both
hierarchy -top vg_both
opt_clean
equiv_simple
equiv_induct
equiv_status -assert
END
} >"$folder/script.ys"
if ! yosys -q -l "$folder/log" "$folder/script.ys" >"$folder/said" 2>&1; then
    tail -n 20 -- "$folder/log" >&2
    printf 'equivalence.sh: it is not proven that %s is equivalent to %s\n' "$after" "$before" >&2
    exit 1
fi
proven=$(sed -n 's/^ *Of those cells \([0-9]*\) are proven and .*/\1/p' "$folder/log")
printf '%s is equivalent to %s: all %s outputs and registers are proven\n' "$after" "$before" "$proven"
