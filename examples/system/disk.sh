#!/bin/sh
# Creates a disk with the programs of this folder, each with the system segment: examples/system/disk.sh PATH
#   TABLE     a table, with widths              GUESS     a game: type numbers
#   STRINGS   COPY, CONCAT, DELETE, INSERT, POS REVERSE   prints lines backward, until an empty one
#   SIEVE     the primes up to 200              TOWERS    segment procedures that call themselves
#   PEOPLE    records in a file, with SEEK      COPYTEXT  copies a text, with line numbers
#   LISTER    lists a text                      KEYS      KEYBOARD: typed characters are not echoed
#   DICE      RANDOM and KEYPRESS of a unit
# PEOPLE and DICE call units of Apple's library, which ../with-units.sh adds.
# The variable PMACH can name another program than ../../pmach.
. "$(dirname "$(readlink -f "$0")")/../words.sh"
set -e
[ $# = 1 ] || {
    echo "usage: disk.sh PATH" >&2
    exit 1
}
here=$(dirname "$(readlink -f "$0")")
pmach=${PMACH:-$here/../../pmach}
export PMACH="$pmach"
image=$1
scratch=$(mktemp -d)
trap 'rm -rf "$scratch"' EXIT
trap 'exit 129' HUP
trap 'exit 130' INT
trap 'exit 143' TERM
files() {
    "$pmach" files --image "$image" "$@"
}
files new OLD 280
files date 84 12 1
printf '%s\n' 'THE PROGRAMS OF THIS DISK' '  HAVE THE SYSTEM SEGMENT' '' 'SO THEY RUN.' | files puttext READ.ME.TEXT
for name in table guess strings reverse sieve towers people copytext lister keys dice; do
    "$pmach" asm <"$here/programs/$name.text" >"$scratch/code"
    files put "$name" code <"$scratch/code"
    "$here/../with-system.sh" "$image" "$name"
done
for name in people dice; do
    "$here/../with-units.sh" "$image" "$name"
done
