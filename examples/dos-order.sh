#!/bin/sh
# Converts an image of a 140 KB disk from DOS order (.dsk, .do) to block order, or back: examples/dos-order.sh <OLD >NEW
# Each track has 16 sectors of 256 bytes. In DOS order the sectors of the eight blocks of a track are in the order 0 14 13
# 12 11 10 9 8 7 6 5 4 3 2 1 15.
. "$(dirname "$(readlink -f "$0")")/words.sh"
[ $# = 0 ] || {
    echo "usage: dos-order.sh <OLD >NEW" >&2
    exit 1
}
[ ! -t 0 ] || echo "dos-order.sh: reading an image from the terminal; end with Ctrl-D" >&2
set -e
scratch=$(mktemp)
trap 'rm -f "$scratch"' EXIT
trap 'exit 129' HUP
trap 'exit 130' INT
trap 'exit 143' TERM
cat >"$scratch"
[ "$(wc -c <"$scratch")" -eq 143360 ] || {
    echo "dos-order.sh: the image has $(wc -c <"$scratch") bytes, not the 143360 bytes of a 140 KB disk" >&2
    exit 1
}
track=0
while [ $track -lt 35 ]; do
    for sector in 0 14 13 12 11 10 9 8 7 6 5 4 3 2 1 15; do
        dd if="$scratch" bs=256 skip=$((track * 16 + sector)) count=1 2>/dev/null
    done
    track=$((track + 1))
done
