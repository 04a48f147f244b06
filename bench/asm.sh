#!/bin/bash
# asm.sh [PMACH]: measures the time of `asm` for texts of one size and of twice that size, and prints the ratio. A ratio of 2
# means that the time is proportional to the size. The time is the least processor time of RUNS runs (3 by default). The most
# memory is printed too if GNU time is installed. Run manually; not part of the gate.
#   nops     one procedure of NOPs; from 60,000 bytes on it is too long
#   listing  the same, its listing
#   labels   one procedure that has only labels
#   tables   NOPs, and XJPs with tables of 2,000 labels; all are the same label, which is at the end
#   jumps    one procedure of short jumps, each to its own label after it
#   cases    one procedure of XJPs with tables of 50 labels, at its first and its last item
#   short    procedures of one item
#   comments lines that have only comments
here=$(dirname "$(readlink -f "$0")")/..
pmach=${1:-$here/pmach}
runs=${RUNS:-3}
scratch=$(mktemp -d)
trap 'rm -rf "$scratch"' EXIT

# procedure ENTRY..: a segment with one procedure, the items of standard input before its exit code, with these jump entries
procedure() {
    printf '.SEG 1 BENCH\n.PROC 1 0 0 0\n'
    cat
    printf '.EXIT\n  RBP 0\n'
    (($# == 0)) || printf '.JUMP %s\n' "$@"
    echo .END
}

nops() { yes NOP | head -n "$1" | procedure; }
labels() { seq "$1" | sed 's/.*/L&:/' | procedure; }
tables() {
    {
        yes NOP | head -n "$1"
        yes "XJP 1, 2000, ^0$(printf ',z%.0s' $(seq 2000))" | head -n $(($1 / 500))
        printf 'z: NOP\nNOP\n'
    } | procedure z
}
# three bytes for each label: a short jump to it, and the NOP at the label
jumps() { seq "$1" | awk '{ printf "  UJP L%d\nL%d: NOP\n", $1, $1 }' | procedure; }
# 110 bytes each: opcode and padding, bounds, a jump over the table of 100 bytes, the table, two NOPs
cases() {
    {
        printf 'FIRST: NOP\n  NOP\n'
        seq "$1" | awk '{
            line = sprintf("  XJP 1, 50, N%d", $1)
            for (k = 0; k < 50; k++) line = line (k % 2 ? ", FIRST" : ", LAST")
            printf "%s\nN%d: NOP\n  NOP\n", line, $1
        }'
        printf 'LAST: NOP\n  NOP\n'
    } | procedure
}
short() {
    echo '.SEG 1 BENCH'
    for number in $(seq "$1"); do printf '.PROC %d 0 0 0\n.EXIT\n  RBP 0\n.END\n' "$number"; done
}
comments() { yes '; a line that says nothing to the assembler' | head -n "$1"; }

# timed OPTIONS..: the least seconds of processor time, of the text in the scratch folder
timed() {
    local k
    for k in $(seq "$runs"); do
        { TIMEFORMAT='%U %S'; time "$pmach" asm "$@" <"$scratch/text" >"$scratch/out" 2>"$scratch/err"; } 2>&1
    done | awk '{ s = $1 + $2; if (NR == 1 || s < least) least = s } END { printf "%.3f", least }'
}

# memory OPTIONS..: the most memory, if GNU time is installed
memory() {
    command time -q -f '%M' "$pmach" asm "$@" <"$scratch/text" 2>&1 >/dev/null | tail -n 1 | awk '/^[0-9]+$/ { printf "%d MB", $1 / 1000 }'
}

# doubled NAME TEXT N OPTIONS..: texts of N and of 2 N parts
doubled() {
    local name=$1 text=$2 n=$3 first second size
    shift 3
    "$text" "$n" >"$scratch/text"
    size=$(wc -c <"$scratch/text")
    first="$(timed "$@") s$(sed 's/^/ /' "$scratch/err")"
    "$text" $((2 * n)) >"$scratch/text"
    second="$(timed "$@") s$(sed 's/^/ /' "$scratch/err")"
    echo "$name: $n, $size bytes, $first; $((2 * n)), $(wc -c <"$scratch/text") bytes, $second, $(memory "$@")," \
        "ratio $(awk "BEGIN { if (${first%% *} > 0) printf \"%.1f\", ${second%% *} / ${first%% *} }")"
}

[ "$pmach" != "$here/pmach" ] || [ -x "$here/crates/pmach/out/pmach" ] || "$pmach" --prove || exit 1 # a proved one is measured
doubled nops nops 29992
doubled listing nops 29992 --list
doubled nops nops 2000000
doubled labels labels 890000
doubled tables tables 15000
doubled tables tables 500000
doubled jumps jumps 9996
doubled cases cases 272
doubled short short 127
doubled comments comments 190000
