#!/bin/sh
# Creates a sample disk image with pmach: examples/disk.sh PATH
# The volume KEPT of 40 blocks contains two programs, HANOI and LOADS, and a text. The variable PMACH can name another
# program than ../pmach.
. "$(dirname "$(readlink -f "$0")")/words.sh"
set -e
[ $# = 1 ] || {
    echo "usage: disk.sh PATH" >&2
    exit 1
}
here=$(dirname "$(readlink -f "$0")")
pmach=${PMACH:-$here/../pmach}
files() {
    "$pmach" files --image "$image" "$@"
}
image=$1
files new KEPT 40
files date 84 12 1
for name in hanoi loads; do
    "$pmach" asm <"$here/$name.text" | files put "$(echo $name | tr a-z A-Z)" code
done
printf '%s\n' 'HANOI moves a tower of three disks.' 'LOADS loads one segment where another stood.' |
    files puttext READ.ME.TEXT
