#!/bin/sh
# `watched.sh PROGRAM ARG..`, if a file is written and standard error is a terminal: runs the command. From the third
# second on it shows how long the command has run and, if standard output is the file, the size of the file. The line is
# below the cursor, so that it does not move the program's messages, and it is erased at the end. Nothing is shown while
# the program waits or another command has the terminal. The program itself does not read a clock; its status and its
# behaviour at a signal are the same as without this script.
{ command exec 3<&0; } 2>/dev/null || exec "$@"
"$@" <&3 3<&- &
process=$!
ticker=''

# stop STATUS: ends the program and this script.
stop() {
    trap '' HUP INT QUIT TERM
    kill "$process" 2>/dev/null
    leave "$1"
}

# leave STATUS: ends this script after the line was erased.
leave() {
    [ -z "$ticker" ] || { kill "$ticker" && wait "$ticker"; } 2>/dev/null
    exit "$1"
}
# Whether the program is running, in the process group that has the terminal. Its line in /proc has, after its name, its
# state, its process group and that of the terminal.
is_working() {
    read -r line <"/proc/$process/stat" || return
    set -- ${line##*) }
    case $1 in
        R | D) [ "$3" = "$6" ] ;;
        *) return 1 ;;
    esac
} 2>/dev/null

# The size of a file as a text.
size() {
    bytes=$(stat -L -c %s "$1" 2>/dev/null) || bytes=0
    if [ "$bytes" -ge 10000000 ]; then echo "$((bytes / 1000000)) MB"; else echo "$((bytes / 1000)) kB"; fi
}

# Erases the line.
clear_below() {
    [ "$said" = no ] || printf '\033[J'
    said=no
}

# Shows each second how long the program has run, until this function is ended by a signal.
tick() {
    seconds=0 said=no
    trap 'clear_below; exit' TERM
    while sleep 1 </dev/null >/dev/null 2>&1 & wait $!; do
        seconds=$((seconds + 1))
        if [ "$seconds" -ge 2 ] && is_working; then
            had=''
            [ ! -f "/proc/$process/fd/1" ] || had=" $(size "/proc/$process/fd/1")"
            printf '\n\033[K%d:%02d%s\033[A\r' $((seconds / 60)) $((seconds % 60)) "$had"
            said=yes
        else
            clear_below
        fi
    done
}
# It starts before this shell catches signals: otherwise it would miss a signal that arrives during its start.
tick </dev/null 3<&- >&2 &
ticker=$!
trap 'stop 129' HUP
trap 'stop 130' INT
trap 'stop 131' QUIT
trap 'stop 143' TERM
wait "$process"
leave $?
