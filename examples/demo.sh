#!/bin/sh
# Places repeaters on all nets of the design soc.*, the cheapest with slack enough (mode repair) and beside it the best (mode best),
# and times the whole design and all nets before and after. Writes to out/demo/ at the top. Where the program is not built yet, it is
# compiled once and the eight runs are not proved.
here=$(cd "$(dirname "$0")" && pwd) && top=$(dirname "$here") && out=$top/out/demo || exit 70
rm -rf "$out" && mkdir -p "$out/cases" || exit 70

# Names a run, whose words are those that follow.
plan() {
    run=$out/cases/$1
    shift
    : >"$run" && printf '%s\n' "$@" >"$run.args"
}

# Plans the two runs that time a design: the whole of it, and its nets.
plan_times() {
    plan "$1" --mode sta --spef "$3.spef" --verilog "$3.v" --lib "$here/soc.lib" --cons "$here/soc.cons"
    plan "$2" --mode time --all --spef "$3.spef" --verilog "$3.v" --lib "$here/soc.lib" --cons "$here/soc.cons"
}

plan_times 1 2 "$here/soc"
plan 3 --mode repair --all --spef "$here/soc.spef" --verilog "$here/soc.v" --lib "$here/soc.lib" --cons "$here/soc.cons" \
    --out-spef "$out/soc.spef" --out-verilog "$out/soc.v"
plan_times 4 5 "$out/soc"
plan 6 --mode best --all --spef "$here/soc.spef" --verilog "$here/soc.v" --lib "$here/soc.lib" --cons "$here/soc.cons" \
    --out-spef "$out/best.spef" --out-verilog "$out/best.v"
plan_times 7 8 "$out/best"

echo "placing repeaters on the 28 nets of examples/soc.*, and timing the design before and after"
if "$top/vginsert" --is-built; then
    for run in 1 2 3 4 5 6 7 8; do
        xargs -d '\n' "$top/crates/vginsert/out/vginsert" <"$out/cases/$run.args" >"$out/$run.txt" || exit
    done
else
    command -v rt >/dev/null || { echo "demo: the command rt of the Rattle toolchain is not on the path" >&2; exit 70; }
    echo "the program is compiled first, without a proof: one to two minutes ('make' proves and builds it)"
    (cd "$top/crates/vginsert" && rt try --cases "$out/cases") >"$out/runs.txt" 2>"$out/log.txt"
    awk -v out="$out" '/^== / { file = out "/" $2 ".txt"; next } { print > file }' "$out/runs.txt"
    if [ "$(grep -c '^case=.* run=ended status=0 ' "$out/log.txt")" != 8 ]; then
        cat "$out/log.txt" >&2
        exit 70
    fi
fi

# How many cells a report has placed, in how many nets, and their cost.
placed() {
    awk '$1 == "net" && $8 > 0 { nets++; cells += $8; cost += $6 }
        END { printf "%d cells in %d nets, at a cost of %.1f\n", cells, nets, cost / 1000 }' "$1"
}

# The slack of a design by its report, in ps, with the first endpoint that has it.
design() {
    awk '$1 == "design" { printf "%.5f ps (at %s)\n", $3 / 1e9, $5 }' "$1"
}

# The worst slack of the nets of a report, in ps, with its net.
worst() {
    awk '$1 == "net" && (!line || $4 < least) { least = $4; name = $2; wrong = $6 == "wrong" ? ", and sink " $7 " has the wrong polarity" : ""; line = 1 }
        END { printf "%.5f ps (net %s%s)\n", least / 1e9, name, wrong }' "$1"
}

echo "repair placed $(placed "$out/3.txt")"
echo "best placed $(placed "$out/6.txt")"
echo "the whole design as it is:     $(design "$out/1.txt")"
echo "the whole design after repair: $(design "$out/4.txt")"
echo "the whole design after best:   $(design "$out/7.txt")"
echo "its worst net as it is:     $(worst "$out/2.txt")"
echo "its worst net after repair: $(worst "$out/5.txt")"
echo "its worst net after best:   $(worst "$out/8.txt")"
cat "$out/1.txt" "$out/2.txt" >"$out/before.txt" && cat "$out/4.txt" "$out/5.txt" >"$out/after.txt" && cat "$out/7.txt" "$out/8.txt" >"$out/best_after.txt"
mv "$out/3.txt" "$out/repair.txt" && mv "$out/6.txt" "$out/best.txt" && rm "$out/1.txt" "$out/2.txt" "$out/4.txt" "$out/5.txt" "$out/7.txt" "$out/8.txt"
echo "in out/demo: the repaired design soc.spef and soc.v, its placements repair.txt, the slacks before.txt and after.txt; best.* are those of best"
