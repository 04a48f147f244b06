#!/bin/sh
# Makes a program with reals run on the machine, which has none: examples/with-reals.sh [--low] IMAGE NAME
# The script adds the unit units/reals.text to a free slot of the code file. It disassembles the program, changes each
# instruction for reals to a call of this unit, and assembles the program again. It also changes the standard procedures 23
# to 31 and 36, the calls of Apple's unit TRANSCEND (29), and READ and WRITE of a real: procedures 3 and 4 of PASCALIO (31),
# and 14 and 15 of the system segment. A call has three bytes, so a jump can become too long for a label. Such a jump gets
# an entry of the jump table. A changed segment is appended to the file. Nothing else in the file changes, and on the volume
# only its position. --low: the low word of a real is at the lower address; otherwise the high word. Use with-units.sh and
# with-system.sh before or after this script. Status 2: no such file, or not a code file. Status 3: the program cannot be
# changed; the message has the reason. Status 4: not enough free space. With each of these the file is unchanged. The
# variable PMACH can name another program than ../pmach.
. "$(dirname "$(readlink -f "$0")")/words.sh"
set -e
low=
if [ "$1" = --low ]; then
    low=yes
    shift
fi
[ $# = 2 ] || {
    echo "usage: with-reals.sh [--low] IMAGE NAME" >&2
    exit 1
}
# codefile.sh reads these
# shellcheck disable=SC2034
image=$1 name=$2 self=with-reals.sh
# shellcheck source=examples/codefile.sh
. "$(dirname "$(readlink -f "$0")")/codefile.sh"

take
same_again
! grep -q '^\.SEG [0-9]* REALS$' "$scratch/text" || fail "$name has a segment REALS already; the file is unchanged" 3
taken=" $(awk '$1 == ".SEG" { print $2 } $1 == "CXP" { print $2 + 0 }' "$scratch/text" | sort -nu | tr '\n' ' ') 0 1 "
free=15
while case $taken in *" $free "*) true ;; *) false ;; esac do free=$((free - 1)); done

# The calls, the changed segments, and the changed procedures with bytes that are no instructions.
awk -v slot="$free" -v segments="$scratch/segments" -v bytes="$scratch/damaged" '
    BEGIN {
        count = split("ADR SBR MPR DVR FLT FLO CSP_23 CSP_24 ABR NGR SQR EQU_REAL NEQ_REAL LES_REAL LEQ_REAL GRT_REAL GEQ_REAL " \
            "CSP_31 CSP_36 CSP_25 CSP_26 CSP_27 CSP_28 CSP_29 CSP_30", names, " ")
        for (i = 1; i <= count; i++) call[names[i]] = i + 1
        for (i = 1; i <= 8; i++) call["CXP_29_" i] = i == 1 ? 1 : count + i # TRANSCEND
        call["CXP_0_14"] = call["CXP_31_3"] = count + 9
        call["CXP_0_15"] = call["CXP_31_4"] = count + 10
    }
    FNR == NR {
        if ($1 == ".SEG" && $3 == "PASCALIO") pascalio = $2 + 0
        next
    }
    FNR == 1 {
        segment = ""
        if (pascalio) {
            call["CXP_" pascalio "_3"] = count + 9
            call["CXP_" pascalio "_4"] = count + 10
        }
    }
    $1 == ".SEG" { segment = $2 + 0 }
    $1 == ".PROC" {
        procedure = $2
        whole = 1
        changed = 0
    }
    $1 == ".BYTE" { whole = 0 }
    {
        item = $1
        for (i = 2; i <= NF; i++) item = item "_" $i
        gsub(/,/, "", item)
    }
    segment != 0 && segment != pascalio && item in call {
        $0 = "  CXP " slot ", " call[item]
        if (!(segment in seen)) print segment >segments
        seen[segment] = changed = 1
    }
    $1 == ".END" && changed && !whole { print segment ", procedure " procedure >bytes }
    { print }' "$scratch/text" "$scratch/text" >"$scratch/changed"
[ -e "$scratch/segments" ] || fail "$name has no instruction for reals; the file is unchanged" 3
[ ! -e "$scratch/damaged" ] ||
    fail "segment $(sed q "$scratch/damaged") of $name has reals, and bytes that are no instructions; the file is unchanged" 3
[ $free -gt 0 ] || fail "$name has no free slot for the unit REALS; the file is unchanged" 3

# A procedure that now has an odd length gets a NOP at its end. A jump that is now too long gets an entry of the jump table.
for fault in 3 6; do
    "$pmach" asm --all "$scratch/changed" >"$scratch/faults" 2>/dev/null && break
    awk -v fault=$fault -v full="$scratch/full" '
        FNR == NR {
            if ($3 == fault) bad[$4] = 1
            next
        }
        $1 == ".SEG" { segment = $2 }
        $1 == ".PROC" {
            procedure = $2
            inside = 1
            lines = entries = 0
            split("", entry)
        }
        !inside {
            print
            next
        }
        $1 == ".JUMP" {
            if (!($2 in entry)) entry[$2] = entries
            target[entries++] = $2
            next
        }
        $1 != ".END" {
            line[lines] = $0
            number[lines++] = FNR
            next
        }
        {
            for (i = 0; i < lines; i++) {
                if (fault == 6 && number[i] in bad) {
                    match(line[i], /L[0-9][0-9]+/) # the first label; an XJP has its jump before its table
                    label = substr(line[i], RSTART, RLENGTH)
                    if (!(label in entry)) {
                        entry[label] = entries
                        target[entries++] = label
                    }
                    line[i] = substr(line[i], 1, RSTART - 1) "^" entry[label] substr(line[i], RSTART + RLENGTH)
                }
                print line[i]
            }
            if (fault == 3 && FNR in bad) print "  NOP"
            for (i = 0; i < entries; i++) print ".JUMP " target[i]
            print
            inside = 0
            if (entries > 60) print segment ", procedure " procedure >full
        }' "$scratch/faults" "$scratch/changed" >"$scratch/next"
    mv "$scratch/next" "$scratch/changed"
done
[ ! -e "$scratch/full" ] ||
    fail "segment $(sed q "$scratch/full") of $name needs more than 60 entries in its jump table; the file is unchanged" 3
"$pmach" asm "$scratch/changed" >"$scratch/made" 2>"$scratch/why" ||
    fail "$name cannot be assembled with calls of REALS: $(sed q "$scratch/why"); the file is unchanged" 3

sed "s/^\.SEG [0-9]* /.SEG $free /" "$here/units/reals.text" >"$scratch/reals"
if [ -n "$low" ]; then
    sed 's/^\([^;]*IN[CD]\)  0/\1  other/
        s/^\([^;]*IN[CD]\)  1/\1  0/
        s/^\([^;]*IN[CD]\)  other/\1  1/
        s/^\([^;]*LDC\)  \([0-9]*\), \([0-9]*\)/\1  \3, \2/' "$scratch/reals" >"$scratch/next"
    mv "$scratch/next" "$scratch/reals"
fi
"$pmach" asm "$scratch/reals" >"$scratch/unit"
cp "$scratch/old" "$scratch/new"
while read -r n; do
    add "$scratch/new" "$n" "$scratch/made"
done <"$scratch/segments"
add "$scratch/new" "$free" "$scratch/unit"
"$pmach" dis <"$scratch/new" >/dev/null || fail "the new code file is not valid; $name is unchanged" 4
put_back "$scratch/new" WITH.REALS.NEW
