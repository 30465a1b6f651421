#!/usr/bin/env bash
# Tries the scripts of this folder on a design of 2,600 cells, from its source to closed timing.
#
#     flow/check.sh [FOLDER]
#
# FOLDER (a new one under /tmp without the word) gets all files. It takes about a minute and needs OpenSTA, yosys
# and the osu035 library of qflow, a library of tables for a 0.35 µm process: where they are missing, they are installed
# with apt-get, as root. The program is $VGINSERT, else ./vginsert of the repository, which is built first where it is
# not.
#
# 1. yosys makes a netlist of flow/test/core.v, flow/test/wires.py makes up its placement and its wires, OpenSTA tells
#    the slews, flow/linear_library.py makes the linear library.
# 2. flow/close.sh closes timing: with mode repair in up to three passes, again in up to eight small steps, and with one
#    pass of mode best.
# 3. The slacks with which vginsert began have to be those of OpenSTA, to the last digit.
# 4. What vginsert promised for single nets is compared with what OpenSTA sees when only the cells of this net are
#    placed.
# 5. The change as a script of flow/eco.py, run by OpenSTA on the netlist before, has to give the same slacks.
# 6. yosys proves that the netlists before and after are equivalent.
# 7. A table has what each run came to.
#
# The wires are made up, so the numbers say what the scripts do and nothing about a layout.
set -eu -o pipefail

here=$(cd "$(dirname "${BASH_SOURCE[0]}")" && pwd)
if [ -z "${VGINSERT-}" ]; then
    VGINSERT=$here/../vginsert
    VGINSERT_BUILD=only "$VGINSERT"
fi
VGINSERT=$(realpath -- "$VGINSERT")
export VGINSERT
tables=/usr/share/qflow/tech/osu035/osu035_stdcells.lib
period=2500 # ps, for abc, which sizes cells without wires
single=8    # how many nets are placed each by itself

step() { printf '\n== %s (%s s)\n' "$*" "$SECONDS"; }
stop() { printf 'check.sh: %s\n' "$*" >&2; exit 1; }

install() { # PACKAGE, where it is missing
    printf 'check.sh: installing %s with apt-get\n' "$1"
    apt-get update -qq
    DEBIAN_FRONTEND=noninteractive apt-get install -y -qq "$1" >/dev/null
}
command -v sta >/dev/null || install opensta
command -v yosys >/dev/null || install yosys
[ -e "$tables" ] || install qflow-tech-osu035

if [ $# -gt 0 ]; then mkdir -p -- "$1"; else set -- "$(mktemp -d /tmp/vgcheck.XXXXXX)"; fi
cd -- "$1"
printf 'all files are in %s\n' "$PWD"

step "netlist, wires and linear library"
cp -- "$here/test/core.v" source.v
cp -- "$here/test/core.sdc" core.sdc
printf 'set_driving_cell BUFX4\nset_load 0.05\n' >core.constr
cat >synth.ys <<EOF
read_verilog source.v
synth -flatten -top core
dfflibmap -liberty $tables
abc -liberty $tables -constr core.constr -D $period
opt_clean -purge
write_verilog -noattr -noexpr -nohex -nodec core.v
design -reset
read_liberty -lib -ignore_miss_func $tables
read_verilog core.v
hierarchy -check -top core
check -assert
write_json core.json
EOF
yosys -q -l synth.log synth.ys
if grep -qE "assign|[0-9]'[bdh]" core.v; then stop "core.v has an assignment or a constant"; fi
python3 -B "$here/test/wires.py" core.json core core.spef
LIB=$tables VERILOG=core.v TOP=core SPEF=core.spef SDC=core.sdc OUT=core.slacks SLEWS=core.slews \
    sta -no_splash -exit "$here/opensta.tcl" </dev/null
python3 -B "$here/linear_library.py" "$tables" linear.lib --slews core.slews --repeaters 'BUFX*' --repeaters 'INVX*' |
    tee linear.txt

close() { # FOLDER WORDS..
    local out=$1
    shift
    "$here/close.sh" --lib "$tables" --linear linear.lib --verilog core.v --top core --spef core.spef --sdc core.sdc \
        --out "$out" "$@"
}

step "repair, up to three passes"
close repair --passes 3
step "repair, up to eight passes, each for a tenth of what is lacking"
close steps --passes 8 --step 0.1
step "best, one pass"
close best --mode best --passes 1

step "first slacks"
files=(--spef core.spef --lib linear.lib --verilog core.v --cons repair/pass1.cons)
status=0
"$VGINSERT" --mode time --all "${files[@]}" >time.txt || status=$?
case $status in 0 | 2) ;; *) stop "vginsert --mode time ended with status $status" ;; esac
python3 -B "$here/test/promises.py" first repair/pass0.slacks time.txt

step "promises: $single nets, each by itself"
mkdir -p single
rm -f single/*.slacks single/*.report
count=0
python3 -B "$here/test/promises.py" nets repair/pass1.report $single >single.names
while read -r net; do
    status=0 count=$((count + 1))
    "$VGINSERT" --mode repair --net "$net" "${files[@]}" --out-spef single/n.spef --out-verilog single/n.v \
        >single/$count.report </dev/null || status=$?
    [ $status -le 1 ] || stop "vginsert --net $net ended with status $status"
    LIB=$tables VERILOG=single/n.v TOP=core SPEF=single/n.spef SDC=core.sdc OUT=single/$count.slacks \
        sta -no_splash -exit "$here/opensta.tcl" >single/sta.log 2>&1 </dev/null
done <single.names
python3 -B "$here/test/promises.py" kept repair/pass0.slacks single "$count"

step "promises: all nets of the first pass together"
python3 -B "$here/test/promises.py" together repair/pass0.slacks repair/pass1.report repair/pass1.slacks

step "the change as a script"
for result in repair steps best; do
    python3 -B "$here/eco.py" --before core.v --after $result/final.v --prefix vg --format opensta -o $result/eco.tcl
    cat >$result/eco_check.tcl <<EOF
source {$here/opensta.tcl}
read_liberty $tables
read_verilog core.v
link_design core
source $result/eco.tcl
read_spef $result/final.spef
read_sdc core.sdc
vg_write_slacks $result/eco.slacks
EOF
    rm -f $result/eco.slacks
    sta -no_splash -exit $result/eco_check.tcl >$result/eco.log 2>&1 </dev/null
    if ! cmp -s <(sort $result/eco.slacks) <(sort $result/final.slacks); then
        stop "$result/eco.tcl does not give the slacks of $result/final.v; $result/eco.log has what OpenSTA printed"
    fi
    printf '%s/eco.tcl gives the slacks of %s/final.v: %s\n' $result $result \
        "$(sed -n 's/^# \([0-9].*\)\.$/\1/p' $result/eco.tcl)"
done

step "equivalence"
for result in repair steps best; do "$here/equivalence.sh" core core.v $result/final.v "$tables"; done

row() { # RUN SLACKS
    local wns tns late cells area
    read -r _ wns _ tns _ late _ cells _ area < <(python3 -B "$here/constraints.py" "$2" --lib linear.lib --summary)
    printf '%-26s %6s %8s %12s %14s %5s\n' "$1" "$cells" "$area" "$wns" "$tns" "$late"
}

step "result"
printf '%-26s %6s %8s %12s %14s %5s\n' run cells area 'WNS ps' 'TNS ps' late
row "as it is" core.slacks
row "repair --all, passes" repair/final.slacks
row "repair --all, small steps" steps/final.slacks
row "best --all, one pass" best/final.slacks
step "done"
