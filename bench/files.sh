#!/bin/bash
# Tests what only real files and a real terminal show: a full device, a limit on sizes, links, locks, kills, and, on a pseudo
# terminal, a console and the debugger. Run manually; not part of the gate. The full device requires root (a tmpfs is mounted).
# The pseudo terminal and the kills require python3.
here=$(dirname "$(readlink -f "$0")")/..
pmach=${PMACH:-$here/pmach}
scratch=$(mktemp -d)
mounted=
trap '[ -z "$mounted" ] || umount "$mounted"; rm -rf "$scratch"' EXIT
passed=0
failed=0

# result NAME STATUS: it passed where the status is 0
result() {
    if [ "$2" = 0 ]; then
        echo "passed: $1"
        passed=$((passed + 1))
    else
        echo "FAILED: $1"
        failed=$((failed + 1))
    fi
}

# ends NAME STATUS MESSAGE WORD..: the program's status and the text on standard error
ends() {
    local name=$1 status=$2 message=$3
    shift 3
    "$pmach" "$@" >"$scratch/out" 2>"$scratch/err" </dev/null
    [ $? = "$status" ] && [ "$(cat "$scratch/err")" = "$message" ]
    result "$name" $?
}

# same NAME FILE OTHER
same() {
    cmp -s "$2" "$3"
    result "$1" $?
}

image=$scratch/w.img
"$here/examples/programs.sh" "$image"
cp "$image" "$scratch/before"

# what a path names
ends "the printer is the image" 1 "error: --printer names a disk image of the run; name another file" run --d4 "$image" --printer "$image" OK
ends "the printer is a folder" 1 "error: --printer names a folder; name a file" run --d4 "$image" --printer "$scratch" OK
ends "the image is on two units and saved" 1 "error: an image to be saved (--save, --save-all) is on two units; use another image for one unit" \
    run --d4 "$image" --d5 "$image" --save OK
same "the image is as it was" "$image" "$scratch/before"
ends "the printer is /dev/null" 0 "ended 9" run --d4 "$image" --printer /dev/null OK
"$pmach" run --d4 "$image" --printer /dev/stdout OK >"$scratch/out" 2>/dev/null </dev/null
[ $? = 0 ] && [ "$(cat "$scratch/out")" = OK ]
result "the printer is standard output" $?
mkfifo "$scratch/fifo"
cat "$scratch/fifo" >"$scratch/got" &
ends "a new volume to a pipe" 0 "" files --image "$scratch/fifo" new WORK 20
wait
[ "$(wc -c <"$scratch/got")" = 10240 ]
result "the pipe got it whole" $?
chmod 640 "$image"
ln -s w.img "$scratch/link.img"
ends "an image behind a link" 0 "" files --image "$scratch/link.img" date 84 12 1
[ -L "$scratch/link.img" ] && [ "$(stat -c %a "$image")" = 640 ]
result "the link and the mode are kept" $?
ln "$image" "$scratch/other.img"
ends "an image with two names" 0 "" files --image "$image" date 85 12 1
same "both names have the new one" "$image" "$scratch/other.img"
rm "$scratch/other.img"
cp "$scratch/before" "$image"
ln -s "$scratch/before" "$image.pmach-new"
ends "a link stands where the new file is to be" 0 "" files --image "$image" date 86 12 1
[ "$(stat -c %s "$scratch/before")" = 20480 ] && ! cmp -s "$image" "$scratch/before"
result "what it leads to is untouched" $?
[ -z "$(find "$scratch" -name '*.pmach-new')" ]
result "nothing is left behind" $?

# a full device, and a limit on sizes
if mkdir "$scratch/small" && mount -t tmpfs -o size=64k tmpfs "$scratch/small" 2>/dev/null; then
    mounted=$scratch/small
    cp "$scratch/before" "$mounted/w.img"
    ends "no room for a new image" 4 "write fault" files --image "$mounted/w.img" new BIG 200
    same "the old one is whole" "$mounted/w.img" "$scratch/before"
    [ "$(ls -A "$mounted")" = w.img ]
    result "nothing is left on the device" $?
else
    echo "left out: a full device (mount wants root)"
fi
cp "$scratch/before" "$image"
(
    trap '' XFSZ
    ulimit -f 54
    "$pmach" files --image "$image" new BIG 200 2>"$scratch/err"
)
[ $? = 4 ] && [ "$(cat "$scratch/err")" = "write fault" ]
result "a limit on the size of files" $?
same "the old image is whole under it" "$image" "$scratch/before"

# eight at the same time: each file whose command ended with status 0 exists, and all other commands reported a locked image
lost=0
odd=0
for round in $(seq "${ROUNDS:-100}"); do
    "$pmach" files --image "$scratch/eight.img" new WORK 40
    for n in 1 2 3 4 5 6 7 8; do
        (
            echo "$n" | "$pmach" files --image "$scratch/eight.img" put "F$n" data 2>"$scratch/err$n"
            echo $? >"$scratch/status$n"
        ) &
    done
    wait
    "$pmach" files --image "$scratch/eight.img" list >"$scratch/list" </dev/null
    for n in 1 2 3 4 5 6 7 8; do
        case $(cat "$scratch/status$n") in
        0) grep -q "^F$n " "$scratch/list" || lost=$((lost + 1)) ;;
        4) [ "$(cat "$scratch/err$n")" = "read fault" ] || odd=$((odd + 1)) ;;
        *) odd=$((odd + 1)) ;;
        esac
    done
done
[ $lost = 0 ] && [ $odd = 0 ]
result "eight at once, ${ROUNDS:-100} times: $lost lost, $odd odd" $?

# standard input is closed: the image does not get its number, so none of its bytes are read as the input
cp "$scratch/before" "$image"
"$pmach" files --image "$image" put CLOSED data 2>"$scratch/err" <&-
[ $? = 4 ] && [ "$(cat "$scratch/err")" = "read fault" ] && cmp -s "$image" "$scratch/before"
result "put with standard input closed" $?
"$pmach" run --d4 "$image" --save ECHO >"$scratch/out" 2>"$scratch/err" <&-
[ $? = 4 ] && [ "$(cat "$scratch/err")" = "read fault" ] && [ ! -s "$scratch/out" ] && cmp -s "$image" "$scratch/before"
result "run with standard input closed" $?

# kills, and a pseudo terminal
if command -v python3 >/dev/null; then
    python3 "$here/bench/kills.py" "$pmach" "$scratch" "${KILLS:-100}"
    result "kills while an image of 32 MB is saved" $?
    cp "$scratch/before" "$image"
    python3 "$here/bench/terminal.py" "$pmach" "$image"
    result "a console on a pseudo terminal" $?
    python3 "$here/bench/debugger.py" "$pmach"
    result "the debugger on a pseudo terminal" $?
else
    echo "left out: kills and the terminal (no python3)"
fi

echo "$passed passed, $failed failed"
[ "$failed" = 0 ]
