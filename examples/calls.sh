#!/bin/sh
# Lists which procedure calls which in the code file on standard input: examples/calls.sh <FILE
#
# It prints a line for each pair, in the order of the code: segment and procedure of the caller, segment and procedure
# that it calls, and the number of such calls in the code. Calls of standard procedures are not listed. The exit status
# is that of `pmach dis`.
. "$(dirname "$(readlink -f "$0")")/words.sh"
[ $# = 0 ] || {
    echo "usage: calls.sh <FILE" >&2
    exit 1
}
[ ! -t 0 ] || echo "calls.sh: reading a code file from the terminal; end with Ctrl-D" >&2
pmach=${PMACH:-$(dirname "$(readlink -f "$0")")/../pmach}
{ "$pmach" dis; echo "status $?"; } | awk '
    function called(segment, procedure) {
        pair = caller " " segment " " procedure
        if (!count[pair]++) order[++pairs] = pair
    }
    { sub(/;.*/, ""); gsub(/,/, " ") }
    $1 == "status" { status = $2 }
    $1 == ".SEG" { segment = $2 }
    $1 == ".PROC" { caller = segment " " $2 }
    {
        for (i = 1; i < NF; i++) {
            if ($i ~ /^(CIP|CBP|CLP|CGP)$/) called(segment, $(i + 1))
            if ($i == "CXP") called($(i + 1), $(i + 2))
        }
    }
    END {
        for (i = 1; i <= pairs; i++) print order[i], count[order[i]]
        exit status
    }'
