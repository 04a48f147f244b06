#!/bin/bash
# Assembles the programs of this folder and adds them to a new volume: examples/programs.sh PATH
#   OK      writes OK to the console
#   ECHO    reads keys, which the console echoes, until a full stop
#   LOADS   calls two segments, which are loaded at the same address one after the other
#   CASES   writes a word for each of three numbers, with a table jump
#   NESTED  has a procedure inside a procedure, which changes a variable of the outer one
#   KEEPS   calls a segment three times and keeps it in memory, so that it is loaded once
#   PRIMES  writes the primes below 100, found with a sieve
#   HANOI   moves a tower of disks with a procedure that calls itself and one inside it
# The variable PMACH can name another program than ../pmach.
. "$(dirname "$(readlink -f "$0")")/words.sh"
set -e
[ $# = 1 ] || {
    echo "usage: programs.sh PATH" >&2
    exit 1
}
here=$(dirname "$(readlink -f "$0")")
pmach=${PMACH:-$here/../pmach}
image=$1
scratch=$(mktemp -d)
trap 'rm -rf "$scratch"' EXIT
"$pmach" files --image "$image" new WORK 40
for name in ok echo loads cases nested keeps primes hanoi; do
    "$pmach" asm <"$here/$name.text" >"$scratch/code"
    "$pmach" files --image "$image" put "${name^^}" code <"$scratch/code"
done
