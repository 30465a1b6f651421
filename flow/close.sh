#!/usr/bin/env bash
# Closes timing with repeaters: OpenSTA times the design, flow/constraints.py makes constraints of its slacks, vginsert
# places cells, OpenSTA times the written files, and so on, pass after pass.
#
#     flow/close.sh --lib TABLES.lib --linear LINEAR.lib --verilog FILE --top MODULE --spef FILE --sdc FILE --out FOLDER
#                   [--passes N] [--target PS] [--step PART] [--mode repair|best] [--cap K]
#                   [--leave GLOB].. [--def FILE] [--port-drive OHM PS] [--port-load FF]
#
# --lib      a library as OpenSTA reads it; may be given several times
# --linear   the linear library of the same cells, which vginsert reads (flow/linear_library.py makes one)
# --passes   how many passes at most: 3 without the option
# --target   the slack that is enough, in ps: 0 without the option
# --step     mode repair: the part, over 0 and up to 1, of what the worst slack lacks that a pass asks of each late net;
#            1 without the option. All nets of a late path gain together, so 0.1 needs more passes and far fewer cells
# --mode     the mode of vginsert: repair without the option
# --cap      mode repair: the greatest cost of each net's cells, in thousandths of area
# --leave, --def, --port-drive, --port-load: see flow/constraints.py
#
# A pass is kept where the worst slack rises, or stays while the total rises. So the result is never worse than the
# design that was given. A pass that is not kept, or places no cell, ends the loop; with a step below 1 the step is
# doubled instead, and the next pass starts where this one did. The loop also ends when the worst slack is the target or
# more. Pass N has the prefix vgN_ for its cells and nets; a prefix that the netlist has is passed over.
#
# FOLDER/final.v and FOLDER/final.spef are the result, and final.slacks is what OpenSTA says of it. passN.slacks,
# passN.cons, passN.report (what vginsert printed), passN.v and passN.spef belong to pass N, sta.N.log has what OpenSTA
# printed. The program is $VGINSERT, else ./vginsert of the repository; OpenSTA is $STA, else sta.
#
# The status is 0 when the loop ended, also where paths are still late. Nets that vginsert refuses (its status 2) or
# that are short or without a placement (status 1) are counted in the table. Any other failure ends the loop with its
# message and status. Names of wires that OpenSTA does not find are counted in a note; after a pass more of them than
# before are a failure.
set -u -o pipefail

here=$(cd "$(dirname "${BASH_SOURCE[0]}")" && pwd)
program=${VGINSERT:-$here/../vginsert}
sta=${STA:-sta}
libraries='' linear='' verilog='' top='' spef='' sdc='' out='' passes=3 target=0 step=1 mode=repair
extra=() cap=()

fail() { # STATUS MESSAGE..
    local status=$1
    shift
    printf 'close.sh: %s\n' "$*" >&2
    exit "$status"
}

if [ "${1-}" = --help ]; then
    sed -n '2,/^set /{/^set /!s/^# \{0,1\}//p;}' "${BASH_SOURCE[0]}"
    exit
fi
while [ $# -gt 0 ]; do
    [ $# -ge 2 ] || fail 1 "the option $1 has no value"
    case $1 in
        --lib) libraries+=${libraries:+$'\n'}$2 ;;
        --linear) linear=$2 ;;
        --verilog) verilog=$2 ;;
        --top) top=$2 ;;
        --spef) spef=$2 ;;
        --sdc) sdc=$2 ;;
        --out) out=$2 ;;
        --passes) passes=$2 ;;
        --target) target=$2 ;;
        --step) step=$2 ;;
        --mode) mode=$2 ;;
        --cap) cap=("--cap=$2") ;;
        --leave | --def | --port-load) extra+=("$1=$2") ;;
        --port-drive)
            [ $# -ge 3 ] || fail 1 "the option $1 has two values"
            extra+=("$1" "$2" "$3")
            shift
            ;;
        *) fail 1 "there is no option $1" ;;
    esac
    shift 2
done
for name in libraries linear verilog top spef sdc out; do
    [ -n "${!name}" ] || fail 1 "the option --${name/libraries/lib} is missing"
done
[[ $passes =~ ^[0-9]{1,3}$ ]] || fail 1 "--passes $passes is not a number"
[[ $target =~ ^-?[0-9]+(\.[0-9]+)?$ ]] || fail 1 "--target $target is not a number of ps"
[[ $step =~ ^(0?\.[0-9]*[1-9][0-9]*|1)$ ]] || fail 1 "--step $step is not over 0 and up to 1"
case $mode in
    repair) ;;
    best) [ "$step${cap[*]-}" = 1 ] || fail 1 "--step and --cap belong to mode repair" ;;
    *) fail 1 "--mode $mode is neither repair nor best" ;;
esac
command -v "$sta" >/dev/null || fail 1 "OpenSTA is not there: $sta"
mkdir -p -- "$out" && rm -f -- "$out"/pass[0-9]*.slacks || exit
for name in linear verilog spef sdc; do
    [ -r "${!name}" ] || fail 1 "the file ${!name} cannot be read"
done

# Times a design: NUMBER VERILOG SPEF. Sets `summary`, `wns`, `tns` and `missing`.
time_design() {
    local log=$out/sta.$1.log slacks=$out/pass$1.slacks status=0
    LIB=$libraries VERILOG=$2 TOP=$top SPEF=$3 SDC=$sdc OUT=$slacks \
        "$sta" -no_splash -exit "$here/opensta.tcl" >"$log" 2>&1 </dev/null || status=$?
    if [ $status -ne 0 ] || [ ! -e "$slacks" ] || grep -q '^Error' -- "$log"; then
        # the status of OpenSTA is 0 after errors too
        grep Error -- "$log" >&2 || tail -n 5 -- "$log" >&2
        fail $((status ? status : 1)) "OpenSTA failed at pass $1; $log has all that it printed"
    fi
    missing=$(grep -F -e "Warning: $3, line " -- "$log" | grep -c ' not found')
    summary=$(python3 -B "$here/constraints.py" "$slacks" --lib "$linear" --summary) || exit
    read -r _ wns _ tns _ <<<"$summary"
}

# Whether number ONE is at least number OTHER; `none` is more than each number.
at_least() {
    awk -v one="$1" -v other="$2" 'BEGIN { exit !(one == "none" || (other != "none" && one + 0 >= other + 0)) }'
}

row() { # PASS NEW-CELLS SHORT REFUSED
    local late cells area
    read -r _ _ _ _ _ late _ cells _ area <<<"$summary"
    printf '%-6s %12s %14s %6s %9s %8s %14s %6s %8s\n' "$1" "$wns" "$tns" "$late" "$2" "$cells" "$area" "$3" "$4"
}

# The slack that a pass asks for: the step's part of the way to the target, and 10 ps at least.
ask() {
    awk -v wns="$wns" -v target="$target" -v step="$step" 'BEGIN {
        gain = step * (target - wns)
        if (gain < 10) gain = 10
        if (wns + gain >= target || step == 1) print target; else printf "%.6f\n", wns + gain
    }'
}

# Writes constraints for pass NUMBER and runs vginsert: NUMBER PREFIX. Sets `placed`, `short` and `refused`.
place_cells() {
    local status=0 words=(--mode best)
    if [ "$mode" = repair ]; then words=(--mode repair "--target=$(ask)" ${cap[@]+"${cap[@]}"}); fi
    python3 -B "$here/constraints.py" "$out/pass$kept.slacks" --spef "$spef" --lib "$linear" ${extra[@]+"${extra[@]}"} \
        >"$out/pass$1.cons" 2>"$out/notes.$1.log" || status=$?
    if [ $status -ne 0 ] || [ "$1" -eq 1 ]; then cat -- "$out/notes.$1.log" >&2; fi
    [ $status -eq 0 ] || exit $status
    "$program" "${words[@]}" --all --spef "$spef" --lib "$linear" --verilog "$verilog" --cons "$out/pass$1.cons" \
        --out-spef "$out/placed.spef" --out-verilog "$out/pass$1.v" --prefix "$2" >"$out/pass$1.report" || status=$?
    [ $status -le 2 ] || fail $status "vginsert failed at pass $1 with status $status"
    python3 -B "$here/spef.py" "$out/placed.spef" --escape "$out/pass$1.v" --out "$out/pass$1.spef" || exit
    rm -f -- "$out/placed.spef"
    placed=$(awk '$1 == "net" && $3 == "slack" { count += $8 } END { print count + 0 }' "$out/pass$1.report")
    short=$(awk '$1 == "repair" { print $7 + $9; exit }' "$out/pass$1.report")
    refused=$(grep -c '^net [^ ]* refused ' -- "$out/pass$1.report")
}

finish() { # REASON
    [ "$verilog" -ef "$out/final.v" ] || cp -- "$verilog" "$out/final.v" || exit
    [ "$spef" -ef "$out/final.spef" ] || cp -- "$spef" "$out/final.spef" || exit
    cp -- "$out/pass$kept.slacks" "$out/final.slacks" || exit
    printf '%s. The result is that of pass %s: %s and %s\n' "$1" "$kept" "$out/final.v" "$out/final.spef"
    exit 0
}

# Whether the slacks are better than those before the pass.
better() {
    if [ "$wns" = "$old_wns" ]; then ! at_least "$old_tns" "$tns"; else at_least "$wns" "$old_wns"; fi
}

# A pass that is not kept: ends the loop, or doubles the step.
discard() { # REASON
    wns=$old_wns tns=$old_tns missing=$old_missing
    if [ "$step" = 1 ]; then finish "$1"; fi
    step=$(awk -v step="$step" 'BEGIN { print step < 0.5 ? 2 * step : 1 }')
    printf '%s: it is not kept, and the step is now %s\n' "$1" "$step"
}

kept=0 number=0
time_design 0 "$verilog" "$spef"
[ "$missing" -eq 0 ] ||
    printf 'close.sh: note: OpenSTA does not find %s names of %s; sta.0.log has them\n' "$missing" "$spef" >&2
printf '%-6s %12s %14s %6s %9s %8s %14s %6s %8s\n' pass 'WNS ps' 'TNS ps' late placed cells area short refused
row 0 - - -
for ((pass = 1; pass <= passes; pass++)); do
    if at_least "$wns" "$target"; then finish "The worst slack is $target ps or more"; fi
    number=$((number + 1))
    while grep -q "vg${number}_" -- "$verilog"; do number=$((number + 1)); done
    place_cells "$pass" "vg${number}_"
    old_wns=$wns old_tns=$tns old_missing=$missing
    if [ "$placed" -eq 0 ]; then
        discard "Pass $pass places no cell"
        continue
    fi
    time_design "$pass" "$out/pass$pass.v" "$out/pass$pass.spef"
    if [ "$missing" -gt "$old_missing" ]; then
        fail 1 "OpenSTA does not find all names of $out/pass$pass.spef; $out/sta.$pass.log has them"
    fi
    row "$pass" "$placed" "${short:--}" "$refused"
    if better; then
        verilog=$out/pass$pass.v spef=$out/pass$pass.spef kept=$pass
    else
        discard "Pass $pass makes no slack better"
    fi
done
if at_least "$wns" "$target"; then finish "The worst slack is $target ps or more"; fi
finish "All passes are done, and the worst slack is below $target ps"
