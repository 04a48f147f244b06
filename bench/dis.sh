#!/bin/bash
# dis.sh [PMACH]: measures the time of `dis` for code files of one size and of twice that size, and prints the ratio. A ratio of 2
# means that the time is proportional to the size. The time is the least processor time of RUNS runs (3 by default). The most
# memory is printed too if GNU time is installed. The variable WORDS has options for `dis`, such as --statements. Run manually;
# not part of the gate.
#   plain   one procedure of NOPs
#   counts  one procedure whose jump table has 60 entries, the last of which a jump uses
#   jumps   the same, with a jump for each entry, so that 61 counts of entries are tried
#   tables  255 dictionary words that refer to the one table of `counts`, so that its procedure is shown 255 times
#   worst   255 dictionary words that refer to the one table of `jumps`
#   shared  16 slots that share the segment of `tables`
#   distinct 255 tables at different offsets, each with the code of `jumps` from offset 0 on
here=$(dirname "$(readlink -f "$0")")/..
pmach=${1:-$here/pmach}
runs=${RUNS:-3}
scratch=$(mktemp -d)
trap 'rm -rf "$scratch"' EXIT

# word N: two bytes, the low one first
word() {
    printf "\\x$(printf %02x $(($1 % 256)))\\x$(printf %02x $(($1 / 256)))"
}

# times N BYTES..: the bytes so often
times() {
    local k
    for ((k = 0; k < $1; k++)); do printf "$2"; done
}

# nops N: N instructions that do nothing
nops() {
    head -c "$1" /dev/zero | tr '\0' '\327'
}

# jumps: a jump by each of 60 entries
jumps() {
    local k
    for ((k = 0; k < 60; k++)); do printf "\\xa1\\x$(printf %02x $((246 - 2 * k)))"; done
}

# table SIZE PROCEDURES: the bytes after code of a size: a table with exit code at 0, and its dictionary
table() {
    local jtab=$(($1 + 8)) p
    word 0
    word 0
    word $((jtab - 4))
    word $((jtab - 2))
    word 1
    for ((p = $2; p > 0; p--)); do word $((2 + 2 * ($2 - p))); done
    printf "\\x01\\x$(printf %02x "$2")"
}

# file SLOTS: a code file with the segment in this number of slots, from slot 0 on
file() {
    local slot
    for ((slot = 0; slot < 16; slot++)); do
        if ((slot < $1)); then
            word 1
            word "$(wc -c <"$scratch/segment")"
        else
            word 0
            word 0
        fi
    done
    head -c 448 /dev/zero
    cat "$scratch/segment"
}

plain() { nops "$1" && table "$1" 1; }
# a jump by entry 59, NOPs, and 120 bytes that are words of 256
counts() { printf '\xa1\x80' && nops $(($1 - 122)) && times 60 '\x00\x01' && table "$1" "${2:-1}"; }
jumping() { jumps && nops $(($1 - 240)) && times 60 '\x00\x01' && table "$1" "${2:-1}"; }
tables() { counts "$1" 255; }
worst() { jumping "$1" 255; }

# distinct SIZE: words that name themselves, so that each even place from BASE on is a table whose code begins at 0
distinct() {
    local base=$(($1 + 136)) at p
    nops $(($1 - 240)) && times 60 '\xd7\xd7' && jumps
    for ((at = $1; at < base + 510; at += 2)); do word "$at"; done
    for ((p = 255; p > 0; p--)); do word $((base + 510 + 2 * (255 - p) - (base + 2 * (p - 1)))); done
    printf '\x01\xff'
}

# timed: the least seconds of processor time
timed() {
    local k
    for k in $(seq "$runs"); do
        { TIMEFORMAT='%U %S'; time "$pmach" dis $WORDS <"$scratch/code" >/dev/null 2>&1; } 2>&1
    done | awk '{ s = $1 + $2; if (NR == 1 || s < least) least = s } END { printf "%.3f", least }'
}

# memory: the most memory, if GNU time is installed
memory() {
    command time -q -f '%M' "$pmach" dis $WORDS <"$scratch/code" 2>&1 >/dev/null | tail -n 1 | awk '/^[0-9]+$/ { printf "%d MB", $1 / 1000 }'
}

# doubled NAME SEGMENT SIZE SLOTS: code of a size and of twice that
doubled() {
    local first second
    "$2" "$3" >"$scratch/segment"
    file "$4" >"$scratch/code"
    first=$(timed)
    "$2" $((2 * $3)) >"$scratch/segment"
    file "$4" >"$scratch/code"
    second=$(timed)
    echo "$1: code of $3 bytes, $first s; $((2 * $3)), $second s, text of $("$pmach" dis $WORDS <"$scratch/code" | wc -c) bytes, $(memory)" \
        "ratio $(awk "BEGIN { if ($first > 0) printf \"%.1f\", $second / $first }")"
}

[ "$pmach" != "$here/pmach" ] || [ -x "$here/crates/pmach/out/pmach" ] || "$pmach" --prove || exit 1 # a proved one is measured
doubled plain plain 29990 1
doubled counts counts 29990 1
doubled jumps jumping 29930 1
doubled tables tables 29730 1
doubled worst worst 14866 1
doubled shared tables 7434 16
doubled distinct distinct 14866 1
