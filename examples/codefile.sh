# shellcheck shell=sh disable=SC2154
# Functions on a code file of a volume. with-system.sh, with-units.sh, with-reals.sh, with-clock.sh and renumber.sh read
# this file. They set $self to their name, $image to the path of the image and $name to the name of the file. Bytes of an
# image, including its names, never become part of a shell command.

here=$(dirname "$(readlink -f "$0")")
pmach=${PMACH:-$here/../pmach}
case $image in -*) image=./$image ;; esac # a path, not an option
scratch=$(mktemp -d)
trap 'rm -rf "$scratch"' EXIT
trap 'exit 129' HUP
trap 'exit 130' INT
trap 'exit 143' TERM

files() {
    "$pmach" files --image "$image" "$@"
}

# fail TEXT STATUS
fail() {
    printf '%s: %s\n' "$self" "$1" >&2
    exit "$2"
}

# words FILE OFFSET COUNT: prints words of a file, stored with the low byte first
words() {
    od -An -v -t u1 -j "$2" -N $((2 * $3)) "$1" | awk '
        { for (i = 1; i <= NF; i++) byte[n++] = $i }
        END { for (i = 0; i + 1 < n; i += 2) print byte[i] + 256 * byte[i + 1] }'
}

# byte FILE OFFSET VALUE: overwrites a byte of a file
byte() {
    # shellcheck disable=SC2059 # an octal escape
    printf "\\$(printf %03o "$3")" | dd of="$1" bs=1 seek="$2" conv=notrunc 2>/dev/null
}

# slot FILE N: sets $block and $length to the first block and the length of slot N of a code file
slot() {
    # shellcheck disable=SC2046 # two words
    set -- $(words "$1" $((4 * $2)) 2)
    block=$1
    length=$2
}

# segment FILE N: prints the bytes of the segment in slot N
segment() {
    slot "$1" "$2"
    tail -c +$((512 * block + 1)) "$1" | head -c "$length"
}

# take: copies the code file to $scratch/old, padded to whole blocks
take() {
    files list >"$scratch/list"
    kind=$(NAME=$name awk '
        NR > 1 && substr($0, 16, 1) == " " {
            file = substr($0, 1, 15)
            sub(/ +$/, "", file)
            if (toupper(file) == toupper(ENVIRON["NAME"])) {
                kind = substr($0, 17, 4)
                gsub(/ /, "", kind)
                print kind
                exit
            }
        }' "$scratch/list")
    [ -n "$kind" ] || fail "$image has no file $name; list its files with: pmach files --image $image list" 2
    [ "$kind" = code ] || fail "$name on $image has kind $kind, not code" 2
    files get -- "$name" >"$scratch/bytes" </dev/null
    "$pmach" dis <"$scratch/bytes" >"$scratch/text" || fail "$name on $image is not a valid code file" 2
    dd if="$scratch/bytes" of="$scratch/old" bs=512 conv=sync 2>/dev/null
}

# add FILE N FROM: appends the segment in slot N of the code file FROM to FILE, and enters it into slot N of FILE
add() {
    segment "$3" "$2" >"$scratch/segment"
    block=$(($(wc -c <"$1") / 512))
    dd if="$scratch/segment" bs=512 conv=sync 2>/dev/null >>"$1"
    byte "$1" $((4 * $2)) $((block % 256))
    byte "$1" $((4 * $2 + 1)) $((block / 256))
    byte "$1" $((4 * $2 + 2)) $((length % 256))
    byte "$1" $((4 * $2 + 3)) $((length / 256))
    dd if="$3" of="$1" bs=1 skip=$((64 + 8 * $2)) seek=$((64 + 8 * $2)) count=8 conv=notrunc 2>/dev/null
}

# put_back FILE SPARE: replaces the code file by FILE. FILE is added first, under the name SPARE, so that a volume without
# space for it keeps the old file
put_back() {
    files put -- "$2" code <"$1" 2>"$scratch/why" ||
        fail "$name is unchanged: $(sed q "$scratch/why") (7: not enough free space; try: pmach files --image $image krunch)" 4
    files remove -- "$name"
    files change -- "$2" "$name"
}

# turned NEW: writes NEW, the old file with its segments replaced by those of the text on standard input, of equal length
turned() {
    "$pmach" asm >"$scratch/made" 2>"$scratch/why" || fail "$name cannot be assembled again; the file is unchanged" 3
    cp "$scratch/old" "$1"
    for n in 0 1 2 3 4 5 6 7 8 9 10 11 12 13 14 15; do
        segment "$scratch/made" "$n" >"$scratch/segment"
        made=$length
        slot "$scratch/old" "$n"
        [ "$made" = "$length" ] || fail "slot $n of $name has another length when it is assembled again; the file is unchanged" 3
        dd if="$scratch/segment" of="$1" bs=512 seek="$block" conv=notrunc 2>/dev/null
    done
}

# same_again: fails unless the disassembled text gives the same bytes
same_again() {
    turned "$scratch/same" <"$scratch/text"
    cmp -s "$scratch/old" "$scratch/same" || fail "$name has other bytes when it is assembled again; the file is unchanged" 3
}
