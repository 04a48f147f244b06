#!/bin/sh
# Makes a PNG of each picture that a program drew with TURTLEGRAPHICS: examples/pictures.sh PRINTED NAME
# PRINTED is the file that `pmach run --printer PRINTED` wrote. The unit TURTLEGRAPHICS of units/ writes each picture to the
# printer, as PBM. The first one becomes NAME-1.png, the second one NAME-2.png, and so on; the script prints these names.
# Other bytes of PRINTED, for example printed lines, are not used. The script needs gzip. Status 2: PRINTED cannot be read,
# or has no picture. Status 4: a file with the name of a picture exists, or cannot be written; it is unchanged.
. "$(dirname "$(readlink -f "$0")")/words.sh"
set -e
[ $# = 2 ] || {
    echo "usage: pictures.sh PRINTED NAME" >&2
    exit 1
}
printed=$1 name=$2
case $printed in -*) printed=./$printed ;; esac # a path, not an option
scratch=$(mktemp -d)
trap 'rm -rf "$scratch"' EXIT
trap 'exit 129' HUP
trap 'exit 130' INT
trap 'exit 143' TERM

fail() { # TEXT STATUS
    printf 'pictures.sh: %s\n' "$1" >&2
    exit "$2"
}

# octal NUMBER..: prints the bytes with these values
octal() {
    for value; do
        # shellcheck disable=SC2059 # an octal escape
        printf "\\$(printf %03o "$value")"
    done
}

# long NUMBER: prints a number of four bytes, the high one first
long() {
    octal $(($1 / 16777216 % 256)) $(($1 / 65536 % 256)) $(($1 / 256 % 256)) $(($1 % 256))
}

# chunk TYPE FILE: prints a chunk of a PNG. The checksum is that of gzip, with the low byte first there
chunk() {
    long "$(wc -c <"$2")"
    { printf %s "$1" && cat "$2"; } >"$scratch/chunk"
    cat "$scratch/chunk"
    # shellcheck disable=SC2046 # four numbers
    set -- $(gzip -c "$scratch/chunk" | tail -c 8 | od -An -v -t u1)
    octal "$4" "$3" "$2" "$1"
}

# png: prints the PNG of the 6,720 bytes of $scratch/points. In a PBM 1 is black, in this PNG 0 is black
png() {
    od -An -v -t u1 "$scratch/points" | awk '
        {
            for (i = 1; i <= NF; i++) {
                if (n++ % 35 == 0) add(0)
                add(255 - $i)
            }
        }
        function add(byte) {
            printf "\\%03o", byte
            low = (low + byte) % 65521
            high = (high + low) % 65521
        }
        BEGIN { low = 1 }
        END { printf " %d %d\n", low, high }' >"$scratch/rows"
    read -r rows low high <"$scratch/rows" || return 1
    # shellcheck disable=SC2059 # octal escapes
    printf "$rows" >"$scratch/raw"
    {
        octal 120 156
        gzip -n -c "$scratch/raw" | tail -c +11 | head -c -8
        long $((high * 65536 + low))
    } >"$scratch/data"
    { long 280 && long 192 && octal 1 0 0 0 0; } >"$scratch/header"
    : >"$scratch/nothing"
    octal 137 80 78 71 13 10 26 10
    chunk IHDR "$scratch/header"
    chunk IDAT "$scratch/data"
    chunk IEND "$scratch/nothing"
}

cp -- "$printed" "$scratch/printed" 2>"$scratch/why" || fail "$1 cannot be read" 2
printf 'P4\n280 192\n' >"$scratch/begin"
LC_ALL=C grep -abo 'P4$' "$scratch/printed" | cut -d : -f 1 >"$scratch/places" || true
count=0 after=0
while read -r place; do
    [ "$place" -ge "$after" ] || continue
    tail -c +$((place + 1)) "$scratch/printed" | head -c 11 | cmp -s - "$scratch/begin" || continue
    tail -c +$((place + 12)) "$scratch/printed" | head -c 6720 >"$scratch/points"
    [ "$(wc -c <"$scratch/points")" = 6720 ] || continue
    after=$((place + 6731))
    count=$((count + 1))
    png >"$scratch/png"
    target=$name-$count.png
    [ ! -e "$target" ] || fail "$target exists; it is unchanged" 4
    cat "$scratch/png" >"$target" || fail "$target cannot be written" 4
    printf '%s\n' "$target"
done <"$scratch/places"
[ $count != 0 ] || fail "$printed has no picture; a program writes one if it draws with TURTLEGRAPHICS and ends" 2
