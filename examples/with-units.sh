#!/bin/sh
# Adds the units that a code file on a volume calls, if units/ has them: examples/with-units.sh IMAGE NAME
# A program that USES a unit of Apple Pascal's library, or SEEK, calls a segment with a number above 15. No slot of its
# file has such a number. units/ has PASCALIO (31), LONGINTIO (30), CHAINSTUFF (28), APPLESTUFF (22) and TURTLEGRAPHICS
# (20). The script assembles each unit that is called for the last slot that is free and not called, appends it to the
# file, and changes each call CXP 31, n to a call of this slot: the program is disassembled, these calls are changed, and
# it is assembled again. Nothing else in the file changes, and on the volume only its position. If the file has no system
# segment, it needs that too: use with-system.sh, before or after this script. Calls of other units are not changed, and
# are reported. Status 2: no such file, or not a code file. Status 3: it calls none of these units, it has a segment of
# this name already, no slot is free, or assembling its disassembled text gives other bytes. Status 4: not enough free
# space. With each of these the file is unchanged. The variable PMACH can name another program than ../pmach.
. "$(dirname "$(readlink -f "$0")")/words.sh"
set -e
[ $# = 2 ] || {
    echo "usage: with-units.sh IMAGE NAME" >&2
    exit 1
}
# codefile.sh reads these
# shellcheck disable=SC2034
image=$1 name=$2 self=with-units.sh
# shellcheck source=examples/codefile.sh
. "$(dirname "$(readlink -f "$0")")/codefile.sh"

take
same_again

# The units that the file calls, and the slots that it uses or calls.
calls=$(awk '$1 == "CXP" && $2 + 0 > 15 { print $2 + 0 }' "$scratch/text" | sort -nu)
taken=" $(awk '$1 == ".SEG" { print $2 } $1 == "CXP" { print $2 + 0 }' "$scratch/text" | sort -nu | tr '\n' ' ') 0 1 "
map=''
for unit in $calls; do
    case $unit in
        20) title=turtlegraphics ;;
        22) title=applestuff ;;
        28) title=chainstuff ;;
        29) title='TRANSCEND, for which there is with-reals.sh' ;;
        30) title=longintio ;;
        31) title=pascalio ;;
        *) title='an unknown unit' ;;
    esac
    if [ ! -e "$here/units/$title.text" ]; then
        echo "with-units.sh: calls of segment $unit are not changed: $title" >&2
        continue
    fi
    segment=$(sed -n 's/^\.SEG [0-9]* //p' "$here/units/$title.text")
    if grep -q "^\.SEG [0-9]* $segment\$" "$scratch/text"; then
        fail "$name has a segment $segment already, and calls segment $unit; the file is unchanged" 3
    fi
    free=15
    while case $taken in *" $free "*) true ;; *) false ;; esac do free=$((free - 1)); done
    [ $free -gt 0 ] || fail "$name has no free slot for segment $unit; the file is unchanged" 3
    taken="$taken$free "
    sed "s/^\.SEG [0-9]* /.SEG $free /" "$here/units/$title.text" | "$pmach" asm >"$scratch/unit$free"
    map="$map $unit=$free"
done
[ -n "$map" ] || fail "$name calls no unit of examples/units; the file is unchanged" 3
awk -v map="$map" '
    BEGIN {
        count = split(map, pairs, " ")
        for (i = 1; i <= count; i++) {
            split(pairs[i], pair, "=")
            slot[pair[1]] = pair[2]
        }
    }
    $1 == "CXP" && ($2 + 0) in slot { $0 = "  CXP " slot[$2 + 0] ", " $3 }
    { print }' "$scratch/text" >"$scratch/changed"
turned "$scratch/new" <"$scratch/changed"
for pair in $map; do
    add "$scratch/new" "${pair#*=}" "$scratch/unit${pair#*=}"
done
"$pmach" dis <"$scratch/new" >/dev/null || fail "the new code file is not valid; $name is unchanged" 4
put_back "$scratch/new" WITH.UNITS.NEW
