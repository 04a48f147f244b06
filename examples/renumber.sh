#!/bin/sh
# Moves each segment of a code file on a volume to the slot with its number: examples/renumber.sh IMAGE NAME
# A call names a slot, and the machine starts with the segment in slot 1. In some files a segment is in another slot than
# that of its number, which is the low byte of its last word. The script exchanges the entries of the dictionary, also
# those that the machine does not read; it moves no segment. The file keeps its name and kind, and gets the volume's last
# date. Status 2: no such file, or not a code file. Status 3: every segment is in its slot already, two segments have the
# same number, or a number is above 15. Status 4: not enough free space. With each of these the file is unchanged. The
# variable PMACH can name another program than ../pmach.
. "$(dirname "$(readlink -f "$0")")/words.sh"
set -e
[ $# = 2 ] || {
    echo "usage: renumber.sh IMAGE NAME" >&2
    exit 1
}
# codefile.sh reads these
# shellcheck disable=SC2034
image=$1 name=$2 self=renumber.sh
# shellcheck source=examples/codefile.sh
. "$(dirname "$(readlink -f "$0")")/codefile.sh"

take
to='' moved='' all=' '
for n in 0 1 2 3 4 5 6 7 8 9 10 11 12 13 14 15; do
    slot "$scratch/old" "$n"
    [ "$length" != 0 ] || continue
    number=$(od -An -t u1 -j $((512 * block + length - 2)) -N 1 "$scratch/old" | tr -d ' ')
    [ "$number" -le 15 ] || fail "the segment in slot $n of $name has number $number, which is above 15; the file is unchanged" 3
    case $all in *" $number "*) fail "two segments of $name have number $number; the file is unchanged" 3 ;; esac
    all="$all$number "
    to="$to $n=$number"
    [ "$n" = "$number" ] || moved=yes
done
[ -n "$moved" ] || fail "each segment of $name is in the slot of its number already; the file is unchanged" 3

# The bytes of the new dictionary as octal escapes. It has five tables, with 4, 8, 2, 2 and 2 bytes for each slot. The name
# of an empty slot is spaces.
escapes=$(od -An -v -t u1 -N 512 "$scratch/old" | awk -v to="$to" '
    { for (i = 1; i <= NF; i++) old[n++] = $i }
    END {
        split("0 64 192 224 256", begin, " ")
        split("4 8 2 2 2", size, " ")
        for (i = 0; i < 512; i++) new[i] = i < 64 || i >= 192 && i < 288 ? 0 : i < 192 ? 32 : old[i]
        count = split(to, pairs, " ")
        for (p = 1; p <= count; p++) {
            split(pairs[p], pair, "=")
            for (row = 1; row <= 5; row++)
                for (i = 0; i < size[row]; i++)
                    new[begin[row] + size[row] * pair[2] + i] = old[begin[row] + size[row] * pair[1] + i]
        }
        for (i = 0; i < 512; i++) printf "\\%03o", new[i]
    }')
cp "$scratch/old" "$scratch/new"
# shellcheck disable=SC2059 # octal escapes
printf "$escapes" | dd of="$scratch/new" conv=notrunc 2>/dev/null
put_back "$scratch/new" RENUMBERED.NEW
