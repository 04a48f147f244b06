#!/bin/sh
# `debugger.sh PROGRAM debug ARG..`: the debugger on a terminal. Ctrl-C ends a run and not the session, and long answers are
# printed on several lines. The program handles no signals; only the lines that it reads control it. So this script
# connects it by two pipes, and splits a long run into slices of this many steps, the later ones by the command `on`.
# With `--replay FOLDER STATUS` before PROGRAM it starts where a run ended with this status: FOLDER contains the bytes that
# were typed. The script then ends with this status.
slice=1000000

# With rlwrap, if it is installed, lines can be edited and earlier lines recalled. rlwrap requires a terminal that reports
# its width.
case ${TERM:-dumb},$(stty size 2>/dev/null),$1 in
    dumb,* | *' 0',* | *,--edited) ;;
    *) ! command -v rlwrap >/dev/null 2>&1 || exec rlwrap -C pmach "$0" --edited "$@" ;;
esac
[ "$1" != --edited ] || shift
replayed='' ended=0
[ "$1" != --replay ] || { replayed=$2 ended=$3 && shift 3; }

# Reads a line from the program into `answer`, in parts if Ctrl-C interrupts. Fails if the program has ended.
hear() {
    answer=''
    while :; do
        before=$interrupts part=''
        IFS= read -r part <&4 && answer=$answer$part && return
        answer=$answer$part
        [ "$interrupts" = "$before" ] || continue
        printf '%s' "$answer"
        return 1
    done
}

# Sends a line to the program and reads its answer. Console output, which comes before the answer, is printed immediately.
ask() {
    printf '%s\n' "$1" 2>/dev/null >&3
    while hear; do
        case $answer in
            'console "'*) printf '%s\n' "$answer" ;;
            *) return 0 ;;
        esac
    done
    return 1
}

# Prints a prompt, a new line or a message, if the program itself would prompt.
say() {
    [ "$quiet" = yes ] || [ ! -t 2 ] || printf '%b' "$1" >&2
}

# Ctrl-C; it takes effect between two slices.
interrupt() {
    interrupts=$((interrupts + 1))
    say '\n'
}

# Reads a line from the terminal, again after Ctrl-C. Fails at the end of the input, unless it ends within a line.
read_line() {
    while :; do
        interrupts=0
        say '> '
        IFS= read -r line && return
        [ "$interrupts" != 0 ] || break
    done
    more=no
    [ -n "$line" ]
}

# Whether a command is a run of more than one slice. Sets `steps`, without leading zeros, and `begun`, the words before
# them. Any other command is passed to the program unchanged.
is_long() {
    begun=${1-}
    case $#,$begun in
        1,step | 1,finish) steps=4294967295 ;;
        2,go | 2,step | 2,finish | 2,on) steps=${2#"${2%%[!0]*}"} ;;
        4,until) begun="$*" steps=4294967295 ;;
        5,until) begun="$1 $2 $3 $4" steps=${5#"${5%%[!0]*}"} ;;
        *) return 1 ;;
    esac
    case $steps in
        *[!0-9]*) return 1 ;;
    esac
    [ "${#steps}" -le 10 ] && [ "${steps:-0}" -gt "$slice" ] && [ "$steps" -le 4294967295 ]
}

# Executes a run in slices, as long as each slice ends at its limit. The last answer is that of the whole run.
run() {
    next=$slice
    ask "$begun $next" || return
    while steps=$((steps - next)) && [ "$steps" -gt 0 ] && [ "$interrupts" = 0 ]; do
        case $answer in
            'limit '*) ;;
            *) return 0 ;;
        esac
        [ "$steps" -ge "$next" ] || next=$steps
        ask "on $next" || return
    done
}

# Repeats a run. When it waits, it gets the next of the bytes, the arguments. The repetition stops when the run ends, when
# it waits and no byte is left, or at Ctrl-C. Sets `answer` to the last line of the run.
play() {
    made=0
    while ask "go $slice"; do
        case $answer in
            'refused '* | '?') return 1 ;;
        esac
        made=$((made + ${answer##* }))
        case $answer,$#,$interrupts in
            limit*,0) ;;
            waiting*,0,*) break ;;
            waiting*) ask "key $1" && shift || return ;;
            *) break ;;
        esac
    done
    answer="${answer% *} $made"
}

# Starts where the run ended, and prints the position.
replay() {
    [ "$ended" != 130 ] || say '\n'
    say 'pmach: repeating the run; Ctrl-C stops it\n'
    play $(od -An -v -tu1 "$replayed/typed" | tr '\n' ' ') || return
    rm -rf "$replayed"
    replayed=''
    printf '%s\n' "$answer"
    case $ended,$answer in
        3,ended* | 3,waiting*) say 'pmach: the repeated run ended differently; an image or the file of --system has changed\n' ;;
    esac
    ask where && show where
}

# How long answers are printed. Bytes: 16 per line, as pairs of digits and as characters, after the address of the first.
# Words: 8 per line, after the address of the first. Instructions: one per line; a semicolon between quotes separates none.
# Lists: one member per line.
bytes='{
    pairs = substr($0, 1, index($0, "  ") - 1)
    characters = substr($0, length(pairs) + 3)
    for (k = 0; 3 * k < length(pairs); k += 16)
        printf "%5d  %-47s  %s\n", at + k, substr(pairs, 3 * k + 1, 47), substr(characters, k + 1, 16)
}'
words='{
    for (k = 0; k < NF; k += 8) {
        printf "%5d ", at + 2 * k
        for (n = k + 1; n <= NF && n <= k + 8; n++) printf " %5d", $n
        print ""
    }
}'
instructions='{
    parts = split($0, part, "\"")
    for (k = 1; k <= parts; k += 2) gsub("; ", "\n", part[k])
    for (k = 1; k < parts; k++) printf "%s\"", part[k]
    print part[parts]
}'
members='{ gsub(", ", "\n"); print }'

# The hint for an invalid line, by its first word and the answer of `help`: the usage of the command, or the commands that
# begin with this word.
usage='{
    for (k = split($0, usage, ", "); k > 0; k--) {
        split(usage[k], words, " ")
        if (words[1] == word) text = usage[k] (text == "" ? "" : ", ") text
        if (word != "" && index(words[1], word) == 1) near = usage[k] (near == "" ? "" : ", ") near
    }
    print (text != "" ? "usage: " text : near != "" ? "one of: " near : "help lists the commands")
}'

# The names of the commands, from the answer of `help`, once each.
words_of='{
    parts = split($0, usage, ", ")
    for (k = 1; k <= parts; k++) {
        split(usage[k], words, " ")
        if (!(words[1] in known)) printf "%s ", words[1]
        known[words[1]] = 1
    }
}'

# Sets `full` to the only command that begins with this word, or to the word itself.
expand() {
    full=$1 found=0 candidate=''
    for name in $commands; do
        case $name in
            "$1") return ;;
            "$1"*) found=$((found + 1)) candidate=$name ;;
        esac
    done
    [ "$found" != 1 ] || full=$candidate
}

# The numbers and names of the procedures of segment 0, from the comments of `dis --names`.
names() {
    awk 'BEGIN {
        print ".SEG 1 NAMES\n.PROC 1 0 0 0"
        for (n = 0; n < 128; n++) print "CXP 0, " n
        print ".EXIT\nRBP 0\n.END"
    }' | "$program" asm | "$program" dis --names | awk '$1 == "CXP" && $4 == ";" { printf "%s %s ", $3, $5 }'
}

# Adds the name of a procedure of segment 0 to lines with a segment, a procedure and an offset from word `at` on.
named='BEGIN { for (n = split(names, part, " "); n > 1; n -= 2) name[part[n - 1]] = part[n] }
{ print $0 ($at == "0" && ($(at + 1) in name) ? " ; " name[$(at + 1)] : "") }'
show_named() {
    [ -n "$system" ] || system=$(names 2>/dev/null)
    awk -v at="$1" -v names="$system" "$named"
}

# Reads the arguments of `debug`: the image, its form, the program's name, the file of --system, and --quiet.
note() {
    option='' image='' form=blocks own='' file='' quiet=no
    for word; do
        case $option$word in
            --d4=*) image=${word#--d4=} ;;
            --form=*) form=${word#--form=} ;;
            --system=*) own=${word#--system=} ;;
            --file=*) file=$word ;;
            --quiet) quiet=yes ;;
            --*=*) ;;
            --) option=--file= && continue ;;
            -*) option=$word= && continue ;;
            *)
                # (the path of the image may precede the name)
                [ -z "$file" ] || [ -n "$image" ] || image=$file
                file=$word
                ;;
        esac
        option=''
    done
}

# Prints the statement that begins at a segment, a procedure and an offset, if there is one, from `dis --statements`. Its
# offsets are relative to the segment; the first statement of a procedure has the offset of the procedure's entry.
statement='/^PROCEDURE/ { stands = ($2 == p && $5 == s ":"); entry = "" }
stands && /^[0-9]/ && entry == "" { entry = $1 }
stands && /^[0-9]/ && $1 - entry == o { print "  " substr($0, 7); exit }'
show_statement() {
    if [ "$1" = 0 ] && [ -n "$own" ]; then
        "$program" dis --statements "$own"
    else
        "$program" dis --statements --image "$image" --form "$form" -- "$file"
    fi 2>/dev/null | awk -v s="$1" -v p="$2" -v o="$3" "$statement"
}

# An address in decimal digits.
number() {
    case $1 in
        '$'*) echo "$((0x${1#?}))" ;;
        *) echo "$1" ;;
    esac
}

# Prints the answer to a command.
show() {
    case ${1-},$answer in
        bytes,??' '*) printf '%s\n' "$answer" | awk -v at="$(number "$2")" "$bytes" ;;
        peek,[0-9]*) printf '%s\n' "$answer" | awk -v at="$(number "$2")" "$words" ;;
        list,[0-9]*) printf '%s\n' "$answer" | awk "$instructions" ;;
        where,[0-9]*) printf '%s\n' "$answer" | show_named 1 && show_statement $answer ;;
        frames,[0-9]*) printf '%s\n' "$answer" | awk "$members" | show_named 2 ;;
        breaks,[0-9]* | help,[a-z]*) printf '%s\n' "$answer" | awk "$members" ;;
        *,'?') echo '?' && printf '%s\n' "$usages" | awk -v word="${1-}" "$usage" ;;
        *) printf '%s\n' "$answer" ;;
    esac
}

# Executes a line and prints its answer. Fails if the program has ended.
answer_line() {
    set -- $line
    expand "${1-}"
    line=$full${line#*"${1-}"}
    if is_long $line; then run $line; else ask "$line"; fi || return
    show $line
}

# Whether the program has started: then it answers `help`. Any other output is printed.
has_begun() {
    ask help || return
    case $answer in
        'break '*) usages=$answer commands=$(printf '%s\n' "$answer" | awk "$words_of") ;;
        *) printf '%s\n' "$answer" && return 1 ;;
    esac
}

# Ends the program if it is still running, and deletes the temporary folders.
leave() {
    [ -z "$process" ] || kill "$process" 2>/dev/null
    [ -z "$folder" ] || rm -rf "$folder"
    [ -z "$replayed" ] || rm -rf "$replayed"
}

# Starts the program with pipes as its standard streams. It ignores Ctrl-C, because this shell does so at this moment. The
# names of the pipes are deleted as soon as both ends are open. Fails if no pipes can be created.
start() {
    folder=$(mktemp -d 2>/dev/null) && mkfifo "$folder/in" "$folder/out" 2>/dev/null || return
    (exec "$program" "$@") <"$folder/in" >"$folder/out" &
    process=$!
    exec 3>"$folder/in" 4<"$folder/out"
    rm -rf "$folder"
    folder=''
}

# The main part. Before the first prompt Ctrl-C ends the script with status 130.
program=$1 folder='' process='' system='' interrupts=0 more=yes IFS=' '
shift
note "$@"
set -f
trap leave EXIT
trap 'exit 129' HUP
trap 'exit 131' QUIT
trap 'exit 143' TERM
trap '' INT
if ! start "$@"; then
    [ -z "$replayed" ] || exit "$ended"
    leave
    trap - INT
    exec "$program" "$@"
fi
trap '' PIPE
trap 'exit 130' INT
has_begun || more=no
trap interrupt INT
[ "$more" = no ] || [ -z "$replayed" ] || replay || more=no
while [ "$more" = yes ] && read_line && answer_line; do :; done
exec 3>&-
while hear; do printf '%s\n' "$answer"; done
trap '' INT
wait "$process"
status=$?
process=''
[ "$status" != 0 ] || status=$ended
exit "$status"
