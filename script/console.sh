#!/bin/sh
# `console.sh PROGRAM run ARG..`, or `trace`: the console on a terminal. The program receives each key immediately. The
# terminal does not echo, because the machine does. Return is byte 13, and Ctrl-D ends the input. Ctrl-C ends the program
# with status 130; with `--escape` it is a key. The settings of the terminal are restored in every case.
program=$1
shift
saved=$(stty -g 2>/dev/null) || exec "$program" "$@"
process=''
restore() { stty "$saved" 2>/dev/null; }

# stop STATUS: ends the program and this script.
stop() {
    trap '' HUP INT QUIT TERM
    [ -z "$process" ] || kill "$process" 2>/dev/null
    exit "$1"
}
trap restore EXIT
trap 'stop 129' HUP
trap 'stop 130' INT
trap 'stop 131' QUIT
trap 'stop 143' TERM
stty -icanon -echo -icrnl susp undef min 1 time 0
for word; do
    [ "$word" != --escape ] || stty intr undef
done
# The program runs in the background, so that this shell can wait for it and for signals. A background program gets no
# standard input by default: it is passed as file descriptor 3.
exec 3<&0
"$program" "$@" <&3 3<&- &
process=$!
wait "$process"
status=$?
process=''
exit "$status"
