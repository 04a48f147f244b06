#!/bin/bash
# Removes the files of a volume whose names match a pattern of the filer: examples/remove.sh IMAGE PATTERN
#
# = matches any characters; ? does too, and asks for each file. Upper and lower case are the same. The name of each
# removed file is printed. A file is reported and not removed if its name cannot be typed or another file has the same
# name. Status 0: at least one file matched, and all matching files were removed.
. "$(dirname "$(readlink -f "$0")")/words.sh"
[ $# = 2 ] || {
    echo "usage: remove.sh IMAGE PATTERN" >&2
    exit 1
}
here=$(dirname "$(readlink -f "$0")")
pmach=${PMACH:-$here/../pmach}
image=$1

# spelled BYTE..: prints the bytes; % and each byte outside 33 to 126 are written as % and two hexadecimal digits
spelled() {
    local byte text=
    for byte; do
        if ((byte > 32 && byte < 127 && byte != 37)); then
            printf -v byte '\\x%02x' "$byte"
            # shellcheck disable=SC2059 # a byte
            printf -v byte "$byte"
        else
            printf -v byte '%%%02X' "$byte"
        fi
        text+=$byte
    done
    printf '%s' "$text"
}

# read_names: reads the names of the files, in the order of their slots, into $names, from the list that the program prints
read_names() {
    local -a bytes line
    local byte length
    read -r -d '' -a bytes < <("$pmach" files --image "$image" list </dev/null | od -An -v -tu1 | tr -s ' \n' ' ')
    names=()
    for byte in "${bytes[@]}"; do
        if ((byte != 10)); then
            line+=("$byte")
            continue
        fi
        length=$((${#line[@]} < 15 ? ${#line[@]} : 15))
        while ((length > 0 && line[length - 1] == 32)); do length=$((length - 1)); done
        names+=("$(spelled "${line[@]:0:length}")")
        line=()
    done
    names=("${names[@]:1:${#names[@]}-2}") # without the name of the volume and the last line
}

# read_pattern PATTERN: reads a pattern of the filer; = and ? match any characters, and ? asks for each matching file
read_pattern() {
    local letter n
    pattern='' asks=''
    for ((n = 0; n < ${#1}; n++)); do
        letter=${1:n:1}
        case $letter in
            '=') pattern+='*' ;;
            '?') pattern+='*' asks=yes ;;
            *) pattern+=$(printf '%q' "$letter") ;;
        esac
    done
}

# fits: whether $name matches the pattern, in upper or lower case, and the user agrees if asked
fits() {
    local answer
    # shellcheck disable=SC2254 # a pattern
    case ${name^^} in
        ${pattern^^}) ;;
        *) return 1 ;;
    esac
    [ "$asks" ] || return 0
    read -r -p "$name? " answer
    [[ $answer = [yY]* ]]
}

read_pattern "$2"
"$pmach" files --image "$image" list </dev/null >/dev/null || exit
read_names
declare -A count
removed=()
status=0
for name in "${names[@]}"; do
    count[=${name^^}]=$((${count[=${name^^}]:-0} + 1))
    fits && removed+=("$name")
done
[ ${#removed[@]} != 0 ] || {
    echo "remove.sh: no file on $image was selected by the pattern $2" >&2
    exit 1
}
for name in "${removed[@]}"; do
    if [[ $name = *%* ]] || [ "${count[=${name^^}]}" != 1 ]; then
        echo "remove.sh: $name is not removed: its name cannot be typed, or another file has it too" >&2
        status=1
    elif "$pmach" files --image "$image" remove -- "$name" </dev/null; then
        echo "$name"
    else
        echo "remove.sh: $name is not removed" >&2
        status=1
    fi
done
exit $status
