#!/bin/bash
# Measures the trace of endless loops to a null device: steps per second of processor time, the peak memory and the size of the
# binary, compared with a plain interpreter in C (trace.c). The best of RUNS runs counts. Run manually; not part of the gate.
# Requires cc and GNU time.
here=$(dirname "$(readlink -f "$0")")/..
steps=${STEPS:-20000000}
runs=${RUNS:-5}
pmach=$here/crates/pmach/out/pmach
plain=$(mktemp)
measured=$(mktemp)
trap 'rm -f "$plain" "$measured"' EXIT
[ -x "$pmach" ] || "$here/pmach" --prove || exit 1 # a proved one is measured
cc -O2 -o "$plain" "$here/bench/trace.c" || exit 1

# best COMMAND..: the seconds of the best run and the greatest peak in KiB; $code is the input of each
best() {
    local user system peak seconds least= most=0
    for _ in $(seq "$runs"); do
        command time -q -f "%U %S %M" -o "$measured" "$@" >/dev/null <<<"$code"
        read -r user system peak <"$measured"
        seconds=$(echo "$user + $system" | bc)
        if [ -z "$least" ] || [ "$(echo "$seconds < $least" | bc)" = 1 ]; then least=$seconds; fi
        if [ "$peak" -gt "$most" ]; then most=$peak; fi
    done
    echo "$least $most"
}

row() {
    local loop=$1 name=$2 seconds=$3 peak=$4 size=$5
    printf '| %s | %s | %d | %d | %d |\n' "$loop" "$name" "$(echo "$steps / $seconds" | bc)" "$peak" "$size"
}

echo "| Loop | Program | Steps a second | Peak KiB | Binary bytes |"
echo "|---|---|---|---|---|"
for code in "B9 FE 02 00" "02 03 82 A1 00 D7 B9 FE 08 00" "C7 F9 FF A1 00 D7 B9 FE 08 00"; do
    cmp -s <(echo "$code" | "$pmach" raw --limit 1000) <("$plain" 1000 $code) || echo "the traces of $code differ" >&2
    row "$code" pmach $(best "$pmach" raw --limit "$steps") "$(stat -Lc %s "$pmach")"
    row "$code" trace.c $(best "$plain" "$steps" $code) "$(stat -Lc %s "$plain")"
done
