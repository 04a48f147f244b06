#!/bin/sh
# Creates a small volume with pmach: examples/volume.sh PATH
# The image of 40 blocks contains two text files and a data file, with free blocks between them. The variable PMACH can
# name another program than ../pmach.
. "$(dirname "$(readlink -f "$0")")/words.sh"
set -e
[ $# = 1 ] || {
    echo "usage: volume.sh PATH" >&2
    exit 1
}
here=$(dirname "$(readlink -f "$0")")/..
pmach=${PMACH:-$here/pmach}
files() {
    "$pmach" files --image "$image" "$@"
}
image=$1
files new WORK 40
files date 81 11 22
printf 'program hello;\nbegin\n  writeln(%shello%s)\nend.\n' "'" "'" | files puttext HELLO.TEXT
printf 'gone soon\n' | files puttext DRAFT.TEXT
printf '\001\002\003' | files put TABLE.DATA data
printf 'one line\n' | files puttext NOTES.TEXT
files remove DRAFT.TEXT
files change TABLE.DATA NUMBERS.DATA
