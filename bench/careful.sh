#!/bin/bash
# Looks at how vginsert writes its files, and prints a table.
#
#     careful.sh PROGRAM
#
# PROGRAM is the proved program, crates/vginsert/out/vginsert, which `make` builds. Each row is some runs that write the
# changed netlist, the changed parasitics and a certificate of `examples/small`, with faults of the system put in by
# strace(1), with a run that is killed, on a full file system, through links, with standard streams that are closed. A
# run has to end as the row says, and then each output has to hold what it held or its whole new text, and no draft may
# stay but that of a killed run. The status is 1 where one does not.
#
# It needs Linux and strace; the row of the full file system also the right to mount, else it is left out.
set -u
PROGRAM=$(realpath "$1") || exit 2
HERE=$(dirname "$(realpath "$0")")
EXAMPLES=$HERE/../examples
WORK=$(mktemp -d) || exit 2
trap 'umount "$WORK/full" 2>/dev/null; rm -rf "$WORK"' EXIT
command -v strace >/dev/null || { echo "careful.sh: strace is missing" >&2; exit 2; }
DESIGN="--spef $EXAMPLES/small.spef --lib $EXAMPLES/small.lib --verilog $EXAMPLES/small.v --cons $EXAMPLES/small.cons"
OUTPUTS=(o.v o.spef o.cert)
BAD=0

# Runs `best` in a folder, by a command that is given before the program's words.
best() {
    (cd "$1" && shift && "$@" --mode best $DESIGN --net n1 --out-verilog o.v --out-spef o.spef --cert o.cert) \
        >"$WORK/out" 2>"$WORK/err"
}

# A new folder with old outputs.
fresh() {
    rm -rf "$WORK/run"
    mkdir "$WORK/run"
    for file in "${OUTPUTS[@]}"; do echo "old $file" >"$WORK/run/$file"; done
}

# What the outputs hold: o for what they held, n for their new text, x for anything else; and d for a draft that stays.
state() {
    local all=
    for file in "${OUTPUTS[@]}"; do
        if cmp -s "$WORK/run/$file" "$WORK/new/$file"; then
            all=${all}n
        elif [ "$(cat "$WORK/run/$file" 2>/dev/null)" = "old $file" ]; then
            all=${all}o
        else
            all=${all}x
        fi
    done
    for draft in "$WORK"/run/.vginsert-*; do [ -e "$draft" ] && all=${all}d; done
    echo "$all"
}

# A row of the table.
row() {
    printf '| %s | %s | %s |\n' "$1" "$2" "$3"
}

# Notes a run that ended in a way that is not to come.
bad() {
    BAD=1
    echo "careful.sh: $*" >&2
}

# Makes the Nth call of a kind fail, for N from 1 to as many as a run makes. The statuses and the states have to match
# the two patterns that are given, as STATUS:STATE.
inject() { # WHAT CALL ERROR ALLOWED
    local calls allowed=$4 seen=
    fresh
    best "$WORK/run" strace -f -o "$WORK/trace" -e "trace=$2" "$PROGRAM"
    calls=$(grep -c "^[0-9]* *${2%%,*}\|^[0-9]* *${2##*,}" "$WORK/trace")
    for at in $(seq "$calls"); do
        fresh
        { best "$WORK/run" strace -f -o "$WORK/trace" -e "trace=$2" -e "inject=$2:$3:when=$at" "$PROGRAM"; } 2>/dev/null
        local end="$?:$(state)"
        [[ $end =~ ^($allowed)$ ]] || bad "$1: call $at ended with $end"
        seen="$seen $end"
    done
    row "$1" "$calls" "$(echo "$seen" | tr ' ' '\n' | grep . | sort | uniq -c | awk '{printf "%s%s times %s", s, $1, $2; s=", "}')"
}

mkdir "$WORK/new"
best "$WORK/new" "$PROGRAM" || { cat "$WORK/err" >&2; exit 2; }
cp "$WORK/out" "$WORK/printed"
echo "An end is the status and what the three outputs hold: o what they held, n their new text, x anything else; d: a draft stays."
echo
row "what" "runs" "ends"
row "---" "---" "---"

# ---- faults of the system
WHOLE='6:ooo'
PART='6:(ooo|noo|nno)'
inject "a write of a file fails (no space)" write error=ENOSPC "$WHOLE|6:nnn"
inject "a write is interrupted by a signal" write error=EINTR '0:nnn'
inject "a read is interrupted by a signal" read error=EINTR '0:nnn|127:ooo'
inject "a sync fails (I/O error)" fsync error=EIO "$WHOLE|6:nnn"
inject "a sync is not possible there (EINVAL)" fsync error=EINVAL '0:nnn'
inject "a rename fails" rename,renameat2 error=EACCES "$PART"
inject "the permissions cannot be set" fchmod error=EPERM "$WHOLE"
inject "the close of a file fails after its sync" close error=EIO '0:nnn|5:ooo|127:ooo'

# ---- a run that is killed
inject "killed at a write" write signal=KILL '137:ooo(d*)|137:nnn'
inject "killed at a sync" fsync signal=KILL '137:ooo(d*)|137:nnn'
inject "killed at a rename" rename,renameat2 signal=KILL '137:(ooo|noo|nno)d*'

# ---- a full file system
if mkdir "$WORK/full" && mount -t tmpfs -o size=16k tmpfs "$WORK/full" 2>/dev/null; then
    for file in "${OUTPUTS[@]}"; do echo "old $file" >"$WORK/full/$file"; done
    head -c 12k /dev/zero >"$WORK/full/filler" 2>/dev/null
    best "$WORK/full" "$PROGRAM"
    end=$?
    rm -rf "$WORK/run"
    cp -a "$WORK/full" "$WORK/run"
    [ "$end:$(state)" = "6:ooo" ] || bad "full file system: $end:$(state)"
    row "a full file system" 1 "$end:$(state)"
    umount "$WORK/full"
fi

# ---- links and permissions
fresh
mkdir "$WORK/run/sub"
mv "$WORK/run/o.v" "$WORK/run/sub/real.v"
ln -s sub/real.v "$WORK/run/o.v"
best "$WORK/run" "$PROGRAM"
end="$?:$(state)"
[ -L "$WORK/run/o.v" ] && [ "$end" = 0:nnn ] && cmp -s "$WORK/run/sub/real.v" "$WORK/new/o.v" || bad "symbolic link: $end"
row "a symbolic link: it stays, and what it names is replaced" 1 "$end"

fresh
rm "$WORK/run/o.v"
ln -s nothing.v "$WORK/run/o.v"
best "$WORK/run" "$PROGRAM"
end="$?:$(state)"
[ -L "$WORK/run/o.v" ] && [ "$end" = 0:nnn ] && cmp -s "$WORK/run/nothing.v" "$WORK/new/o.v" || bad "dangling link: $end"
row "a symbolic link to nothing: the file is made there" 1 "$end"

fresh
ln "$WORK/run/o.v" "$WORK/run/other.v"
best "$WORK/run" "$PROGRAM"
end="$?:$(state)"
[ "$end" = 0:nnn ] && [ "$(cat "$WORK/run/other.v")" = "old o.v" ] || bad "hard link: $end"
row "a hard link: the other name keeps the old text" 1 "$end"

fresh
chmod 640 "$WORK/run/o.spef"
best "$WORK/run" "$PROGRAM"
end="$?:$(state)"
[ "$end" = 0:nnn ] && [ "$(stat -c %a "$WORK/run/o.spef")" = 640 ] || bad "permissions: $end"
row "the permissions of an old file stay" 1 "$end"

for pair in "o1 ./o1" "o1 sub/../o1" "o1 link" "o1 hard"; do
    fresh
    mkdir "$WORK/run/sub"
    echo old >"$WORK/run/o1"
    ln -s o1 "$WORK/run/link"
    ln "$WORK/run/o1" "$WORK/run/hard"
    set -- $pair
    (cd "$WORK/run" && "$PROGRAM" --mode best $DESIGN --net n1 --out-verilog "$1" --out-spef "$2") >"$WORK/out" 2>"$WORK/err"
    end=$?
    [ "$end" = 6 ] && [ "$(cat "$WORK/run/o1")" = old ] || bad "two outputs that are one file ($pair): $end"
    row "two outputs that are one file: $pair" 1 "$end, nothing written"
done

# ---- what is no regular file
fresh
(cd "$WORK/run" && "$PROGRAM" --mode best $DESIGN --net n1 --out-verilog o.v --out-spef /dev/stdout --cert o.cert) \
    2>"$WORK/err" | cat >"$WORK/both"
cat "$WORK/new/o.spef" "$WORK/printed" | cmp -s - "$WORK/both" || bad "an output to /dev/stdout, a pipe"
row "an output to \`/dev/stdout\`, a pipe" 1 "as it comes, and then the report"
(cd "$WORK/run" && "$PROGRAM" --mode best $DESIGN --net n1 --out-verilog /dev/null --out-spef /dev/../dev/null) \
    >"$WORK/out" 2>"$WORK/err"
end=$?
[ "$end" = 0 ] || bad "both outputs to /dev/null: $end"
row "both outputs to \`/dev/null\`, by two names" 1 "$end"

# ---- standard streams that are closed
for closed in '<&-' '<&- 2>&-' '2>&-' '>&-' '<&- >&- 2>&-'; do
    fresh
    (cd "$WORK/run" && eval "exec \"\$PROGRAM\" --mode best \$DESIGN --net n1 --out-verilog o.v --out-spef o.spef --cert o.cert $closed") \
        >"$WORK/out" 2>"$WORK/err"
    end="$?:$(state)"
    case $closed in
    *'>&- 2'* | '>&-') [[ $end =~ ^[69]:(nnn|ooo)$ ]] || bad "closed $closed: $end" ;;
    *) [ "$end" = 0:nnn ] || bad "closed $closed: $end" ;;
    esac
    row "standard streams closed: \`$closed\`" 1 "$end"
done

# ---- words
"$PROGRAM" "$(printf 'best\377')" >"$WORK/out" 2>"$WORK/err"
end=$?
[ "$end" = 9 ] && [ -s "$WORK/err" ] || bad "a word that is not UTF-8: $end"
row "a word that is not UTF-8" 1 "$end, \`$(cat "$WORK/err")\`"

exit "$BAD"
