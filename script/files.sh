#!/bin/sh
# `files.sh PROGRAM files ARG..`, on a terminal: `check` prints its notes first, and at most 20 notes and 20 faults; after
# `put` of a plain text with kind text, a line says how to add it as a text file. The status is the program's.
most=20
program=$1
shift
. "$(dirname "$0")/words.sh"

# The lines of `check`: notes, faults (at most $most of each, then the number of the others), and the last line.
folded='/^note / { if (notes++ < most) print; next }
{ if (count++) fault[count - 1] = last; last = $0 }
END {
    if (notes > most) print "and " notes - most " more notes"
    for (k = 1; k < count && k <= most; k++) print fault[k]
    if (k < count) print "and " count - k " more faults"
    if (count) print last
}'

# The bytes of the file that was added.
got() { "$program" files --image "$path" ${form:+--form "$form"} get -- "$first" </dev/null 2>/dev/null; }

# Whether its first 1,024 bytes are characters, as in text files of other systems, and not the header of a text file.
is_plain() {
    [ "$(got | head -c 1024 | LC_ALL=C tr -d '\t\n\f\r -~' | wc -c)" -eq 0 ] && [ "$(got | head -c 1 | wc -c)" -eq 1 ]
}

case $verb in
    check)
        if [ -t 1 ]; then
            "$program" "$@" </dev/null 2>/dev/null | awk -v most="$most" "$folded"
            exec "$program" "$@" </dev/null >/dev/null
        fi
        ;;
    put)
        case $second in
            text | 3)
                "$program" "$@"
                status=$?
                [ "$status" != 0 ] || [ ! -t 2 ] || ! is_plain ||
                    printf 'pmach: %s has no header, so gettext cannot read it; puttext makes a text file from lines\n' \
                        "$(printf %s "$first" | tr '\000-\037\177' '?')" >&2
                exit "$status"
                ;;
        esac
        ;;
esac
exec "$program" "$@"
