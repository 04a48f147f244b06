#!/bin/sh
# `resume.sh PROGRAM run ARG..`, with the option `--debug`: the console on a terminal, as in console.sh. After an execution
# error or Ctrl-C the run continues in the debugger. A run is determined by its number of steps and its input. So this
# script records the input in a temporary folder, and debugger.sh repeats the run. The input passes through `tee`, so
# Ctrl-D, which ends it, is a signal here. With `--escape` Ctrl-] ends it, and Ctrl-\ replaces Ctrl-C, which is a key.
if ! [ -t 0 ] || ! [ -t 1 ]; then
    echo "pmach: run --debug requires a terminal" >&2
    exit 1
fi
script=$(dirname "$(readlink -f "$0")") program=$1 folder='' process='' keys='' interrupted=no end='^d' stop='^c'
shift

# Restores the terminal, ends both programs and deletes the folder.
leave() {
    trap '' HUP INT QUIT TERM
    for started in $process $keys; do kill "$started" 2>/dev/null; done
    stty "$saved" 2>/dev/null
    rm -rf "$folder"
}

# Ctrl-C.
interrupt() {
    interrupted=yes
    kill "$process" 2>/dev/null
}

# The arguments of `run` without --debug.
behind=no
for word; do
    shift
    [ "$behind,$word" = no,--debug ] || set -- "$@" "$word"
    case $behind,$word in
        *,--) behind=yes ;;
        no,--escape) end='^]' stop='^\' ;;
    esac
done

saved=$(stty -g)
trap leave EXIT
trap 'exit 129' HUP
trap 'exit 130' INT
trap 'exit 143' TERM
if ! folder=$(mktemp -d) || ! mkfifo "$folder/keys"; then
    echo "pmach: run --debug records what you type, and cannot create a temporary folder for it" >&2
    exit 1
fi
stty -icanon -echo -icrnl noflsh susp undef intr "$stop" quit "$end" min 1 time 0
# Both programs run in the background, so that this shell can wait for the program and for signals. Their input is passed
# as file descriptor 3. `tee` records a byte before the program receives it.
exec 3<&0
tee "$folder/keys" <&3 >"$folder/typed" 2>/dev/null &
keys=$!
"$program" "$@" <"$folder/keys" 3<&- &
process=$!
trap interrupt INT
trap 'kill "$keys" 2>/dev/null' QUIT
while # repeat if a signal interrupted it
    wait "$process" 2>/dev/null
    status=$?
    kill -0 "$process" 2>/dev/null
do :; done
process=''
{ kill "$keys" && wait "$keys"; } 2>/dev/null
keys=''
[ "$interrupted,$status" != yes,143 ] || status=130
case $status in
    3 | 130) ;;
    *) exit "$status" ;;
esac
stty "$saved"
exec 3<&-

# The arguments of `debug`: those of `run` without the options that `debug` does not have.
shift
set -- debug "$@"
option=''
for word; do
    shift
    case $option,$word in
        left-out,*) option='' && continue ;;
        value,*) option='' ;;
        ,--save | ,--save-all | ,--unlimited | ,--escape | ,--limit=* | ,--printer=*) continue ;;
        ,--limit | ,--printer) option=left-out && continue ;;
        ,--) option=behind ;;
        ,--quiet | ,--*=*) ;;
        ,--*) option=value ;;
    esac
    set -- "$@" "$word"
done
exec "$script/debugger.sh" --replay "$folder" "$status" "$program" "$@"
