#!/bin/sh
# Gives a code file on a volume a clock that moves: examples/with-clock.sh IMAGE NAME
# The clock of the machine does not move, so a program that waits until TIME is greater never ends. The script appends the
# procedure of units/clock.text to each segment that executes TIME (CSP 9), and changes each CSP 9 to a call of this
# procedure. Each TIME is then 1 greater than the one before, beginning with 1. A changed segment is appended to the file.
# Nothing else in the file changes, and on the volume only its position. To change RANDOMIZE of APPLESTUFF too, use
# with-units.sh first. Status 2: no such file, or not a code file. Status 3: the file does not execute TIME, a segment has
# no free procedure number, or assembling its disassembled text gives other bytes. Status 4: not enough free space. With
# each of these the file is unchanged. The variable PMACH can name another program than ../pmach.
. "$(dirname "$(readlink -f "$0")")/words.sh"
set -e
[ $# = 2 ] || {
    echo "usage: with-clock.sh IMAGE NAME" >&2
    exit 1
}
# codefile.sh reads these
# shellcheck disable=SC2034
image=$1 name=$2 self=with-clock.sh
# shellcheck source=examples/codefile.sh
. "$(dirname "$(readlink -f "$0")")/codefile.sh"

take
same_again
segments=$(awk '$1 == ".SEG" { segment = $2 } $1 == "CSP" && $2 == 9 { print segment }' "$scratch/text" | sort -nu)
[ -n "$segments" ] || fail "$name does not execute TIME; the file is unchanged" 3
sed -n '/^\.PROC /,/^\.END/p' "$here/units/clock.text" >"$scratch/clock"
awk -v clock="$scratch/clock" '
    FNR == NR {
        if ($1 == ".SEG") segment = $2
        if ($1 == ".PROC") last[segment] = $2
        if ($1 == "CSP" && $2 == 9) timed[segment] = 1
        next
    }
    FNR == 1 { segment = "" }
    $1 == ".SEG" {
        append()
        segment = $2
    }
    $1 == "CSP" && $2 == 9 { $0 = "  CGP " last[segment] + 1 }
    { print }
    END { append() }
    function append(line) {
        if (!(segment in timed)) return
        while ((getline line <clock) > 0) {
            if (line ~ /^\.PROC /) sub(/^\.PROC 1 /, ".PROC " last[segment] + 1 " ", line)
            print line
        }
        close(clock)
    }' "$scratch/text" "$scratch/text" >"$scratch/changed"
"$pmach" asm <"$scratch/changed" >"$scratch/made" 2>"$scratch/why" ||
    fail "a segment of $name has no free procedure number; the file is unchanged" 3
cp "$scratch/old" "$scratch/new"
for n in $segments; do
    add "$scratch/new" "$n" "$scratch/made"
done
"$pmach" dis <"$scratch/new" >/dev/null || fail "the new code file is not valid; $name is unchanged" 4
put_back "$scratch/new" WITH.CLOCK.NEW
