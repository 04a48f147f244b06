#!/bin/bash
# beside.sh [PMACH]: tests examples/conformance/beside.py with a small machine that has a seeded mistake in each family of
# instructions. beside.py must name the instruction after which the states differ, and nothing if there is no mistake. Run
# manually; not part of the gate.
here=$(dirname "$(readlink -f "$0")")/../examples/conformance
pmach=${1:-$here/../../crates/pmach/out/pmach}
passed=0 failed=0

# beside BUG DIGITS EXPECTED: the first line that beside.py prints for a program has this text
beside() {
    local words=()
    [ -z "$1" ] || words=(--bug "$1")
    said=$(python3 "$here/beside.py" --state "$pmach" raw -- python3 "$here/small.py" "${words[@]}" <<<"$2" | sed -n 1p)
    case $said in
        *"$3"*) passed=$((passed + 1)) ;;
        *)
            failed=$((failed + 1))
            echo "${1:-no mistake}: $said, and not $3"
            ;;
    esac
}

# a program, the family whose mistake it meets, and the instruction after which the states differ
while IFS='|' read -r family digits instruction; do
    beside '' "$digits" 'no difference'
    beside "$family" "$digits" ", $instruction, from"
done <<'END'
integers|C7 F9 FF 02 86 D6|DVI
variables|07 CC 03 DA D6|SLDL 3
pointers|C7 D0 07 A2 05 D6|INC 5
literals|B3 02 01 00 02 00 D6|LDC 1, 2
jumps|02 A1 01 D7 D6|FJP 1
sets|00 01 01 02 02 85 D6|DIF
strings|C7 D0 07 41 AA 03 C7 D0 07 00 BE D6|LDB
fields|C7 D0 07 C7 FF FF 9A C7 D0 07 04 00 03 BB C7 D0 07 F8 D6|SIND 0
comparisons|A6 02 61 61 A6 01 62 B5 04 D6|LES STR
blocks|C7 D0 07 01 9A C7 D2 07 02 9A C7 D4 07 03 9A C7 D2 07 C7 D0 07 A8 02 C7 D4 07 F8 D6|SIND 0
END
echo "$passed passed, $failed failed"
[ "$failed" = 0 ]
