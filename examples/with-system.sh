#!/bin/sh
# Adds the system segment to a code file on a volume: examples/with-system.sh IMAGE NAME
# system/system.text is assembled, appended to the segments of the file and entered into slot 0 of its dictionary. The file
# keeps its name and kind, and gets the volume's last date and another position. Nothing else on the volume changes.
# Status 2: no such file, or not a code file. Status 3: slot 0 of the file is in use. Status 4: not enough free space. With
# each of these the volume is unchanged. The variable PREFIX names the volume for titles without a volume (default: *, the
# volume on unit 4). The variable PMACH can name another program than ../pmach.
. "$(dirname "$(readlink -f "$0")")/words.sh"
set -e
[ $# = 2 ] || {
    echo "usage: with-system.sh IMAGE NAME" >&2
    exit 1
}
prefix=${PREFIX:-*}
# codefile.sh reads these
# shellcheck disable=SC2034
image=$1 name=$2 self=with-system.sh
# shellcheck source=examples/codefile.sh
. "$(dirname "$(readlink -f "$0")")/codefile.sh"

case $prefix in
    '' | ????????* | *[!A-Za-z0-9.#*-]*) fail "PREFIX is not a volume name: it needs 1 to 7 characters, letters, digits, . # * or -" 1 ;;
esac
prefix=$(printf %s "$prefix" | tr '[:lower:]' '[:upper:]')
take
slot "$scratch/old" 0
[ "$length" = 0 ] || fail "slot 0 of $name is in use, by a segment of $length bytes; the file is unchanged" 3
awk -v prefix="$prefix" '
    /; the prefix$/ {
        print "        LSA  \"" prefix "\""
        if (length(prefix) % 2 == 0) print "        NOP"
        next
    }
    { print }' "$here/system/system.text" | "$pmach" asm >"$scratch/system"
cp "$scratch/old" "$scratch/new"
add "$scratch/new" 0 "$scratch/system"
"$pmach" dis <"$scratch/new" | sed -n 1p | grep -q '^\.SEG 0 ' || fail "the new code file is not valid; $name is unchanged" 4
put_back "$scratch/new" WITH.SYSTEM.NEW
