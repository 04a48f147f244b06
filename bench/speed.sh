#!/bin/bash
# speed.sh [PMACH]: compares `run` and `trace` with a plain interpreter in C (speed.c) that has the same instructions. For each loop
# it prints millions of steps per second of both and their ratio, from the least processor time of RUNS alternating runs; the
# instructions per step if valgrind is installed; and the peak memory of a run with six disks of 1 MiB each. STEPS=20000000 and
# RUNS=5 by default. Run manually; not part of the gate. Requires a C compiler and GNU time.
here=$(dirname "$(readlink -f "$0")")
pmach=${1:-$here/../crates/pmach/out/pmach}
steps=${STEPS:-20000000}
runs=${RUNS:-5}
scratch=$(mktemp -d)
trap 'rm -rf "$scratch"' EXIT
[ -x "$pmach" ] || "$here/../pmach" --prove || exit 1 # a proved one is measured
compiler=${CC:-$(command -v clang || command -v cc)}
"$compiler" -O2 -march=x86-64-v2 -fno-slp-vectorize -o "$scratch/speed" "$here/speed.c" 2>/dev/null ||
    "$compiler" -O2 -march=x86-64-v2 -fno-tree-slp-vectorize -o "$scratch/speed" "$here/speed.c" || exit 1

cp "$here"/loops/*.text "$scratch/"
"$here/nested.sh" 8 1 3 6 >"$scratch/links.text"
"$here/nested.sh" 112 20 60 110 >"$scratch/deep.text"
"$pmach" files --image "$scratch/4.img" new LOOPS 2048 || exit 1
for text in "$scratch"/*.text; do
    name=$(basename "$text" .text)
    "$pmach" asm <"$text" >"$scratch/$name.code" || exit 1
    "$pmach" files --image "$scratch/4.img" put "$name" code <"$scratch/$name.code" || exit 1
done
disks=(--d4 "$scratch/4.img")

# seconds COMMAND..: the processor time of one run
seconds() {
    command time -q -f "%U %S" -o "$scratch/time" "$@" </dev/null >/dev/null 2>&1
    awk '{ print $1 + $2 }' "$scratch/time"
}

# least A B: the lesser of two, of which the first may be empty
least() { awk -v a="$1" -v b="$2" 'BEGIN { print (a == "" || b < a) ? b : a }'; }

# row LABEL STEPS OURS.. -- THEIRS..: a line of the table; each command gets the number of steps in the place of N
row() {
    local label=$1 count=$2 ours=() theirs=() mine= other=
    shift 2
    while [ "$1" != -- ]; do ours+=("${1/#N/$count}"); shift; done
    shift
    for word; do theirs+=("${word/#N/$count}"); done
    for _ in $(seq "$runs"); do
        mine=$(least "$mine" "$(seconds "${ours[@]}")")
        other=$(least "$other" "$(seconds "${theirs[@]}")")
    done
    awk -v l="$label" -v n="$count" -v a="$mine" -v b="$other" \
        'BEGIN { printf "| %s | %.1f | %.1f | %.2f |", l, n / a / 1e6, n / b / 1e6, b / a }'
}

# instructions COMMAND.. with N: how many a step takes, by the difference of 300,000 and 100,000 steps
instructions() {
    local counts=() n word words
    for n in 100000 300000; do
        words=()
        for word; do words+=("${word/#N/$n}"); done
        counts+=("$(valgrind --tool=callgrind --callgrind-out-file=/dev/null "${words[@]}" 2>&1 >/dev/null </dev/null |
            sed -n 's/.*Collected : //p')")
    done
    awk -v a="${counts[0]}" -v b="${counts[1]}" 'BEGIN { printf " %.1f |", (b - a) / 200000 }'
}

measure() {
    local label=$1 count=$2 verb=$3 name=$4
    shift 4
    local ours=("$pmach" "$verb" "${disks[@]}" --limit N "$name") theirs=("$scratch/speed" "$scratch/$name.code" N "$@")
    row "$label" "$count" "${ours[@]}" -- "${theirs[@]}"
    if command -v valgrind >/dev/null; then
        instructions "${ours[@]}"
        instructions "${theirs[@]}"
    fi
    echo
}

echo "| Loop | pmach, million steps a second | C | Ratio | pmach, instructions a step | C |"
echo "|---|---|---|---|---|---|"
for name in stack compute memory links deep calls jumps sets texts output; do
    measure "$name" "$steps" run "$name"
done
for name in stack compute memory links calls; do
    measure "$name, traced" $((steps / 10)) trace "$name" trace
done

echo
for half in 1 2; do
    echo "compute, $((steps / half)) steps: $(seconds "$pmach" run "${disks[@]}" --limit $((steps / half)) compute) s"
done
for unit in 5 9 10 11 12; do
    "$pmach" files --image "$scratch/$unit.img" new "D$unit" 2048 || exit 1
    disks+=("--d$unit" "$scratch/$unit.img")
done
command time -q -f "six disks of 1 MiB, peak: %M KiB" "$pmach" run "${disks[@]}" --limit 1000000 compute </dev/null 2>&1 | grep peak
