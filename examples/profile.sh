#!/bin/sh
# Counts the steps of a program by procedure: examples/profile.sh --d4 IMAGE .. NAME, with the arguments of `pmach trace`
#
# It prints a line for each procedure, the one with the most steps first: segment, procedure, how often it was entered, how
# many steps were executed in it (dashes: steps outside any procedure). Then it prints a line for each instruction with
# the number of its executions, and then the last line of the trace. The exit status is that of `trace`. Standard input
# is the console of the program, as for `trace`.
. "$(dirname "$(readlink -f "$0")")/words.sh"
[ $# != 0 ] || {
    echo "usage: profile.sh --d4 IMAGE .. NAME" >&2
    exit 1
}
pmach=${PMACH:-$(dirname "$(readlink -f "$0")")/../pmach}
{ "$pmach" trace --places "$@"; echo "status $?"; } | awk '
    # segment, procedure, offset, count, six columns, the instruction
    NF >= 11 {
        place = ($1 == "---") ? "-       -" : sprintf("%-7d %d", $1, $2)
        if (called || !steps) entered[place]++
        in_place[place]++
        made[$11]++
        steps++
        called = $11 ~ /^(CIP|CBP|CXP|CLP|CGP)$/
        next
    }
    $1 == "status" { status = $2; next }
    { last = $0 }
    END {
        if (steps) {
            print "segment procedure entered steps"
            for (place in in_place) {
                split(place, part, " +")
                printf "%7s %9s %7d %d\n", part[1], part[2], entered[place], in_place[place] | "sort -k4,4nr -k1,1n -k2,2n"
            }
            close("sort -k4,4nr -k1,1n -k2,2n")
            print "instruction steps"
            for (name in made) printf "%-11s %d\n", name, made[name] | "sort -k2,2nr -k1,1"
            close("sort -k2,2nr -k1,1")
            print last
        }
        exit status
    }'
