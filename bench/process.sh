#!/bin/bash
# Tests what only the real process shows: exit statuses, messages, and failing streams. With the argument `memory` it also
# makes each allocation fail in turn, with `rt try` (some minutes). Run manually; not part of the gate. The variable PMACH can
# name another program than ./pmach.
here=$(dirname "$(readlink -f "$0")")/..
pmach=${PMACH:-$here/pmach}
scratch=$(mktemp -d)
trap 'rm -rf "$scratch"' EXIT
passed=0
failed=0

# result NAME STATUS: it passed where the status is 0
result() {
    if [ "$2" = 0 ]; then
        echo "passed: $1"
        passed=$((passed + 1))
    else
        echo "FAILED: $1"
        failed=$((failed + 1))
    fi
}

# case_of NAME STATUS OUT ERR WORD..: the program on standard input; OUT and ERR are files that the streams have to equal
case_of() {
    local name=$1 status=$2 out=$3 err=$4
    shift 4
    "$pmach" "$@" >"$scratch/out" 2>"$scratch/err"
    local got=$?
    [ "$got" = "$status" ] && cmp -s "$scratch/out" "$out" && cmp -s "$scratch/err" "$err"
    result "$name" $?
}

# usage NAME WORD..: status 1, nothing on standard output, something on standard error
usage() {
    local name=$1
    shift
    "$pmach" "$@" >"$scratch/out" 2>"$scratch/err" <"$addition"
    [ $? = 1 ] && [ ! -s "$scratch/out" ] && [ -s "$scratch/err" ]
    result "$name" $?
}

# asked NAME WORD..: status 0, help on standard output, nothing on standard error
asked() {
    local name=$1
    shift
    "$pmach" "$@" >"$scratch/out" 2>"$scratch/err" <"$addition"
    [ $? = 0 ] && [ -s "$scratch/out" ] && [ ! -s "$scratch/err" ]
    result "$name" $?
}

addition=$here/crates/pmach/stdin
trace=$here/crates/pmach/stdout
nothing=$scratch/nothing
message=$scratch/message
: >"$nothing"
"$pmach" raw --limit 0 </dev/null >/dev/null # builds it where it is not built yet

# the trace
case_of "an addition" 0 "$trace" "$nothing" raw <"$addition"
case_of "no words mean raw" 0 "$trace" "$nothing" <"$addition"
(head -n 2 "$trace" && echo "limit 2") >"$scratch/two"
case_of "two steps" 6 "$scratch/two" "$nothing" raw --limit 2 <"$addition"
case_of "two steps, --limit=2" 6 "$scratch/two" "$nothing" raw --limit=2 <"$addition"
case_of "the greatest limit" 0 "$trace" "$nothing" raw --limit 4294967295 <"$addition"
"$pmach" raw </dev/null >"$scratch/out" 2>"$scratch/err"
[ $? = 3 ] && [ "$(tail -n 1 "$scratch/out")" = "error 4 32234" ] && [ "$(wc -l <"$scratch/out")" = 32236 ] && [ ! -s "$scratch/err" ]
result "no input" $?

# refused inputs
echo "refused hex 1" >"$message"
case_of "a lone digit" 2 "$nothing" "$message" raw < <(echo 02 0)
case_of "no digit" 2 "$nothing" "$message" raw < <(echo 0G)
echo "refused boot 3" >"$message"
printf 'D6%.0s' $(seq 60001) >"$scratch/long"
case_of "60,001 bytes" 2 "$nothing" "$message" raw <"$scratch/long"
head -c 120000 "$scratch/long" | "$pmach" raw >"$scratch/out" 2>"$scratch/err"
[ $? = 0 ] && [ "$(tail -n 1 "$scratch/out")" = "ended 1" ]
result "60,000 bytes" $?

# streams that fail
echo "read fault" >"$message"
case_of "standard input is a directory" 4 "$nothing" "$message" raw </
case_of "standard input is closed" 4 "$nothing" "$message" raw <&-
head -c 16777217 /dev/zero | tr '\0' ' ' >"$scratch/blanks"
case_of "16,777,217 bytes of blanks" 4 "$nothing" "$message" raw <"$scratch/blanks"
echo "limit 0" >"$scratch/none"
case_of "16,777,216 bytes of blanks" 6 "$scratch/none" "$nothing" raw --limit 0 < <(head -c 16777216 "$scratch/blanks")
echo "write fault" >"$message"
for limit in 1 100000; do
    "$pmach" raw --limit $limit </dev/null >/dev/full 2>"$scratch/err"
    [ $? = 4 ] && cmp -s "$scratch/err" "$message"
    result "standard output is full, limit $limit" $?
done
"$pmach" raw <"$addition" >&- 2>"$scratch/err"
[ $? = 4 ] && cmp -s "$scratch/err" "$message"
result "standard output is closed" $?
"$pmach" raw --limit 100000 <<<"B9 FE 02 00" 2>"$scratch/err" | head -n 1 >/dev/null
[ "${PIPESTATUS[0]}" = 4 ] && cmp -s "$scratch/err" "$message"
result "standard output is a pipe that is shut" $?

# volumes
image=$scratch/work.img
list=$scratch/list
case_of "a new volume" 0 "$nothing" "$nothing" files --image "$image" new WORK 20 </dev/null
[ "$(wc -c <"$image")" = 10240 ]
result "its image has 10,240 bytes" $?
printf 'xyz' >"$scratch/bytes"
case_of "a put" 0 "$nothing" "$nothing" files --image "$image" put A data <"$scratch/bytes"
printf 'WORK:\nA               data     6     1   3 000-00-00\nfiles 1 free 13 largest 13\n' >"$list"
case_of "a list" 0 "$list" "$nothing" files --image "$image" list </dev/null
case_of "a get" 0 "$scratch/bytes" "$nothing" files --image "$image" get a </dev/null
cp "$image" "$scratch/before"
echo "refused filer 1 9" >"$message"
case_of "a second put" 2 "$nothing" "$message" files --image "$image" put a 5 <"$scratch/bytes"
cmp -s "$image" "$scratch/before"
result "a refused put leaves the file" $?
echo "refused filer 3" >"$message"
case_of "a month 13" 2 "$nothing" "$message" files --image "$image" date 99 13 1 </dev/null
echo "refused filer 2 3 1" >"$message"
printf 'a%.0s' $(seq 1024) >"$scratch/line"
case_of "a line of 1,024 letters" 2 "$nothing" "$message" files --image "$image" puttext L <"$scratch/line"
case_of "a change" 0 "$nothing" "$nothing" files --image "$image" change A B.TEXT </dev/null
case_of "a removal" 0 "$nothing" "$nothing" files --image "$image" remove b.text </dev/null
printf 'a\n' >"$scratch/text"
case_of "a text is put" 0 "$nothing" "$nothing" files --image "$image" puttext A.TEXT <"$scratch/text"
case_of "a text is got" 0 "$scratch/text" "$nothing" files --image "$image" gettext A.TEXT </dev/null
printf 'WORK:\nA.TEXT          text     6     4 512 000-00-00\nfiles 1 free 10 largest 10\n' >"$list"
case_of "the list of a text" 0 "$list" "$nothing" files --image "$image" list </dev/null
case_of "a date" 0 "$nothing" "$nothing" files --image "$image" date 81 11 22 </dev/null
case_of "a krunch" 0 "$nothing" "$nothing" files --image "$image" krunch </dev/null
case_of "a zero" 0 "$nothing" "$nothing" files --image "$image" zero EMPTY </dev/null
printf 'EMPTY:\nfiles 0 free 14 largest 14\n' >"$list"
case_of "the list after it" 0 "$list" "$nothing" files --image "$image" list </dev/null
echo "refused volume 1" >"$message"
head -c 513 "$image" >"$scratch/short"
case_of "513 bytes" 2 "$nothing" "$message" files --image "$scratch/short" list </dev/null
echo "read fault" >"$message"
case_of "no image" 4 "$nothing" "$message" files --image "$scratch/absent" list </dev/null
case_of "a directory as an image" 4 "$nothing" "$message" files --image "$scratch" list </dev/null
echo "write fault" >"$message"
case_of "an image that cannot be written" 4 "$nothing" "$message" files --image "$scratch/absent/x" new WORK 20 </dev/null
usage "a kind that is none" files --image "$image" put A Data
usage "a kind above 15" files --image "$image" put A 16
usage "blocks that are too many" files --image "$image" new A 65536
usage "a year that is too large" files --image "$image" date 256 1 1
usage "no image among the words" files list
usage "no verb" files --image "$image"
usage "two images" files --image "$image" --image "$image" list
usage "an image without a path" files --image= list
usage "one word more than a verb takes" files --image "$image" list all
usage "a name that begins with -" files --image "$image" get -A

# programs
programs=$scratch/programs.img
"$here/examples/programs.sh" "$programs"
result "a volume with programs" $?
printf 'OK' >"$scratch/text"
echo "ended 9" >"$message"
case_of "a program writes" 0 "$scratch/text" "$message" run --d4 "$programs" OK </dev/null
printf 'ab.' >"$scratch/text"
echo "ended 41" >"$message"
case_of "a program reads" 0 "$scratch/text" "$message" run --d4 "$programs" ECHO < <(printf 'ab.cd')
printf 'ab' >"$scratch/text"
echo "waiting 32" >"$message"
case_of "the input ends" 6 "$scratch/text" "$message" run --d4 "$programs" echo < <(printf 'ab')
printf '%s\n' "00000000 65470 65456 65458 65458 01024 65492 CXP 2, 1" \
    "00000001 65440 65422 65424 65424 01024 65458 RBP 0" \
    "00000002 65473 65456 65458 65458 01024 65492 CXP 3, 1" \
    "00000003 65440 65418 65420 65420 01024 65458 RBP 0" \
    "00000004 65476 65456 65458 65458 01024 65492 RBP 0" "ended 5" >"$scratch/text"
case_of "a trace" 0 "$scratch/text" "$nothing" trace --d4 "$programs" LOADS </dev/null
echo "refused boot 1" >"$message"
case_of "no such program" 2 "$nothing" "$message" run --d4 "$programs" NONE </dev/null
echo "refused volume 1" >"$message"
case_of "a disk that is no volume" 2 "$nothing" "$message" run --d4 "$programs" --d9 "$scratch/short" OK </dev/null
echo "read fault" >"$message"
case_of "a disk that is not there" 4 "$nothing" "$message" run --d4 "$scratch/short" --d12 "$scratch/absent" OK </dev/null
cp "$programs" "$scratch/before"
printf 'OK' >"$scratch/text"
echo "ended 9" >"$message"
case_of "an image is saved, and printer bytes" 0 "$scratch/text" "$message" run --d4 "$programs" --save --printer "$scratch/printed" OK </dev/null
cmp -s "$programs" "$scratch/before" && [ -f "$scratch/printed" ] && [ ! -s "$scratch/printed" ]
result "the image is as it was, and nothing was printed" $?
echo "write fault" >"$message"
case_of "printer bytes that cannot be written" 4 "$scratch/text" "$message" run --d4 "$programs" --printer "$scratch/absent/x" OK </dev/null

# a program that writes OK to unit 4 and to the printer, and then executes an endless loop
printf '%s\n' ".SEG 1 MARKS" ".PROC 1 0 0 0" \
    "SLDC 4" 'LPA "OK"' "SLDC 0" "SLDC 2" "SLDC 39" "SLDC 0" "CSP 6" \
    "SLDC 6" 'LPA "OK"' "SLDC 0" "SLDC 2" "SLDC 0" "SLDC 0" "CSP 6" \
    "again: UJP ^0" ".EXIT" "RBP 0" ".JUMP again" ".END" >"$scratch/source"
"$pmach" asm <"$scratch/source" >"$scratch/code"
cp "$programs" "$scratch/keeps.img"
case_of "a program is put" 0 "$nothing" "$nothing" files --image "$scratch/keeps.img" put MARKS code <"$scratch/code"
cp "$scratch/keeps.img" "$scratch/before"
echo "limit 100" >"$message"
case_of "nothing is saved unasked" 6 "$nothing" "$message" run --d4 "$scratch/keeps.img" --limit 100 MARKS </dev/null
cmp -s "$scratch/keeps.img" "$scratch/before"
result "the image is as it was" $?
case_of "a changed image is saved at the limit" 6 "$nothing" "$message" \
    run --d4 "$scratch/keeps.img" --d5 "$programs" --save --printer "$scratch/printed" --limit 100 MARKS </dev/null
[ "$(tail -c +19969 "$scratch/keeps.img" | head -c 2)" = OK ] && [ "$(cat "$scratch/printed")" = OK ]
result "the image and the printer have OK" $?
echo "limit 10000000" >"$message"
case_of "the limit that is not given" 6 "$nothing" "$message" run --d4 "$scratch/keeps.img" MARKS </dev/null

# which disk is on which unit: the program writes the name of unit 9's volume
printf '%s\n' ".SEG 1 NAMES" ".PROC 1 0 0 0" \
    "SLDC 9" "LDCI 2000" "SLDC 0" "SLDC 14" "SLDC 2" "SLDC 0" "CSP 5" \
    "SLDC 1" "LDCI 2007" "SLDC 0" "SLDC 4" "SLDC 0" "SLDC 0" "CSP 6" \
    ".EXIT" "RBP 0" ".END" >"$scratch/source"
"$pmach" asm <"$scratch/source" >"$scratch/code"
case_of "another program is put" 0 "$nothing" "$nothing" files --image "$scratch/keeps.img" put NAMES code <"$scratch/code"
for name in FIVE NINE ELEV; do
    "$pmach" files --image "$scratch/$name" new $name 20
done
printf 'NINE' >"$scratch/text"
echo "ended 15" >"$message"
case_of "three disks" 0 "$scratch/text" "$message" \
    run --d4 "$scratch/keeps.img" --d5 "$scratch/FIVE" --d9 "$scratch/NINE" --d11 "$scratch/ELEV" NAMES </dev/null

# images of other sizes
case_of "a new volume over a larger file" 0 "$nothing" "$nothing" files --image "$scratch/keeps.img" new WORK 20 </dev/null
[ "$(wc -c <"$scratch/keeps.img")" = 10240 ]
result "the file is as long as its image" $?
head -c 33554432 /dev/zero >"$scratch/large"
echo "refused volume 3" >"$message"
case_of "33,554,432 bytes of an image" 2 "$nothing" "$message" files --image "$scratch/large" list </dev/null
head -c 1 /dev/zero >>"$scratch/large"
echo "read fault" >"$message"
case_of "33,554,433 bytes of an image" 4 "$nothing" "$message" files --image "$scratch/large" list </dev/null

usage "no disk on unit 4" run OK
usage "no program" run --d4 "$programs"
usage "a disk on unit 6" run --d4 "$programs" --d6 "$programs" OK
usage "two disks on unit 4" run --d4 "$programs" --d4 "$programs" OK
usage "save twice" run --d4 "$programs" --save --save OK
usage "save in a trace" trace --d4 "$programs" --save OK

# texts of the assembler
printf '%s\n' ".SEG 2 A" ".PROC 1 0 0 4" ".EXIT" "  RBP 0" ".END" >"$scratch/source"
printf '%s\n' "02 001 00000 C1 00  RBP 0" "02 001 00002 04 00 00 00 06 00 08 00 01 00  .ATTR" "02 000 00012 02 00 02 01  .DICT" >"$scratch/text"
case_of "the listing of a text" 0 "$scratch/text" "$nothing" asm --list <"$scratch/source"
"$pmach" asm <"$scratch/source" >"$scratch/code"
case_of "the text of what was assembled" 0 "$scratch/source" "$nothing" dis <"$scratch/code"
case_of "an empty text has an empty listing" 0 "$nothing" "$nothing" asm --list </dev/null
echo "refused asm 2 1" >"$message"
case_of "an unknown word" 2 "$nothing" "$message" asm < <(echo FOO)
echo "refused asm 1 6" >"$message"
case_of "a byte above 127" 2 "$nothing" "$message" asm --list < <(cat "$scratch/source" && printf '; \377\n')
echo "read fault" >"$message"
case_of "a directory as a text" 4 "$nothing" "$message" asm </
echo "write fault" >"$message"
"$pmach" asm <"$scratch/source" >/dev/full 2>"$scratch/err"
[ $? = 4 ] && cmp -s "$scratch/err" "$message"
result "a code file on a full device" $?
case_of "a file in the place of standard input" 0 "$scratch/code" "$nothing" asm "$scratch/source" < <(echo FOO)
case_of "a file in the place of standard output" 0 "$nothing" "$nothing" asm -o "$scratch/other" "$scratch/source"
cmp "$scratch/code" "$scratch/other" >/dev/null || echo "FAILED: what it has"
usage "two words behind asm" asm text more
usage "the listing twice" asm --list --list

# code files as text
"$pmach" files --image "$programs" get LOADS >"$scratch/code" </dev/null
printf '%s\n' ".SEG 1 LOADS" ".PROC 1 0 0 0" "  CXP 2, 1" "  CXP 3, 1" ".EXIT" "  RBP 0" ".END" \
    ".SEG 2 FIRST" ".PROC 1 0 0 4" ".EXIT" "  RBP 0" ".END" \
    ".SEG 3 SECOND" ".PROC 1 0 0 8" ".EXIT" "  RBP 0" ".END" >"$scratch/text"
case_of "the text of a code file" 0 "$scratch/text" "$nothing" dis <"$scratch/code"
case_of "a file of a volume into a file" 0 "$nothing" "$nothing" files --image "$programs" get LOADS -o "$scratch/other" </dev/null
cmp -s "$scratch/code" "$scratch/other"
result "which it is, whole" $?
case_of "a refusal without a word" 2 "$nothing" "$nothing" files --image "$programs" get NONE -o "$scratch/other" --quiet </dev/null
cmp -s "$scratch/code" "$scratch/other"
result "which leaves the file" $?
case_of "a limit without a word" 6 "$nothing" "$nothing" run --quiet --limit 1 --d4 "$programs" LOADS </dev/null
echo "refused code 1" >"$message"
case_of "500 bytes are no code file" 2 "$nothing" "$message" dis < <(head -c 500 "$scratch/code")
echo "refused code 2 1" >"$message"
case_of "520 bytes of one" 2 "$nothing" "$message" dis < <(head -c 520 "$scratch/code")
echo "read fault" >"$message"
case_of "a directory as a code file" 4 "$nothing" "$message" dis </
echo "write fault" >"$message"
"$pmach" dis <"$scratch/code" >/dev/full 2>"$scratch/err"
[ $? = 4 ] && cmp -s "$scratch/err" "$message"
result "the text on a full device" $?
usage "two words behind dis" dis code more

# the debugger
printf '%s\n' ok "break 1" "65424 65458 65492" "65458 65492 65458" "?" >"$scratch/text"
case_of "a session" 0 "$scratch/text" "$nothing" debug --d4 "$programs" LOADS < <(printf 'break 2 1 0\ngo 100\ndynamic 10\nstack 3\nlists 2\nquit\nregs\n')
printf 'ended 5\n' >"$scratch/text"
case_of "a session without quit, and a limit" 0 "$scratch/text" "$nothing" debug --d4 "$programs" --limit 2 LOADS < <(printf 'go 100')
echo "refused boot 1" >"$message"
case_of "no program to debug" 2 "$nothing" "$message" debug --d4 "$programs" NONE </dev/null
usage "no disk for the debugger" debug LOADS

# words
asked "--help" --help
asked "raw --help" raw --help
asked "help" help
usage "a limit without raw" --limit 5
usage "a limit with a sign" raw --limit +5
usage "a limit below zero" raw --limit -5
usage "no limit after --limit" raw --limit
usage "no limit after --limit=" raw --limit=
usage "a limit that is too large" raw --limit 4294967296
usage "a limit that is no number" raw --limit 5x
usage "two limits" raw --limit 5 --limit 5
usage "an unknown option" raw --lim 5
usage "one word more" raw raw
usage "an unknown command" Raw
usage "an empty word" ""
usage "-- alone" --
usage "a word that is not UTF-8" "$(printf 'a\377')"

# memory
if [ "$1" = memory ]; then
    cd "$here/crates/pmach" || exit 1
    for n in 1 2 3 4 5 6; do
        rt try --fail-alloc $n -- raw <stdin >"$scratch/out" 2>&1
        status=$?
        { [ $status = 5 ] && grep -q "^no memory" "$scratch/out"; } || { [ $status = 0 ] && grep -q "^ended 4" "$scratch/out"; }
        result "allocation $n fails: status $status" $?
    done
fi

echo "$passed passed, $failed failed"
[ "$failed" = 0 ]
