#!/bin/bash
# Tests the system segment of examples/system: each of its procedures by cases, then the programs of that folder, then
# with-system.sh, and examples/units with with-units.sh. The expected results are worked out from the rules of UCSD Pascal. The
# variable PMACH can name another program than ../pmach. Run manually. The gate has the cases of the procedures in
# crates/test_trials/data/system.trial.
here=$(dirname "$(readlink -f "$0")")/..
pmach=$(readlink -f "${PMACH:-$here/pmach}")
export PMACH="$pmach"
scratch=$(mktemp -d)
trap 'rm -rf "$scratch"' EXIT
passed=0
failed=0
image=$scratch/image

# result NAME STATUS: it passed where the status is 0
result() {
    if [ "$2" = 0 ]; then
        echo "passed: $1"
        passed=$((passed + 1))
    else
        echo "FAILED: $1"
        failed=$((failed + 1))
    fi
}

files() {
    "$pmach" files --image "$image" "$@"
}

# times COUNT CHARACTERS: prints the characters COUNT times
times() {
    local text=
    printf -v text '%*s' "$1" ''
    printf %s "${text// /$2}"
}

# A program is straight code. Its variables: 3 a string of 255, s; 131 another, t; 259 i; 260 c; 261 and 601 files of
# characters or records, f and g, of 300 words, with their windows at 561 and 901; 941 an untyped file, h; 981 a place of
# 1,024 bytes, a. Behind each case byte 30 is written to the console, not by the system: so what each case shows is
# known. Output begins with what is typed, where the case reads INPUT.
begin() { # what a group of cases begins with
    names=()
    wanted=()
    jumps=
    loops=0
    : >"$scratch/typed"
    printf '.SEG 1 CASES\n.PROC 1 0 4 3000\n' >"$scratch/text"
}
line() { printf '        %s\n' "$@" >>"$scratch/text"; }
case_is() { # NAME SHOWN [TYPED]: ends a case; \r is the end of a line
    names+=("$1")
    wanted+=("$2")
    printf %b "${3-}" >>"$scratch/typed"
    line 'SLDC 1' 'LPA "\1e"' 'SLDC 0' 'SLDC 1' 'SLDC 0' 'SLDC 0' 'CSP 6'
}
code_of() { # [even]: the code file of the cases, of 40 blocks
    { cat "$here/examples/system/system.text" "$scratch/text" && printf '.EXIT\n        RBP 0\n%s%s.END\n' "${1-}" "$jumps"; } |
        "$pmach" asm >"$scratch/code" 2>"$scratch/why" && truncate -s 20480 "$scratch/code"
}
run_code() { # WORD..: puts the cases on the disk, and runs them
    code_of || code_of $'        NOP\n' || {
        cat "$scratch/why"
        exit 1
    }
    files remove CASES
    files put CASES code <"$scratch/code"
    cp "$image" "$scratch/before"
    "$pmach" run --d4 "$image" --save --printer "$scratch/printer" "$@" CASES <"$scratch/typed" >"$scratch/shown" 2>"$scratch/message"
}
fresh() { # BLOCKS [VERB..]: a new volume WORK, with a command done first; the cases have its first 40 blocks, from 6
    # on, or 10 with a second directory, and each free block is full of bytes 229
    local first=6
    files new WORK "$1"
    [ $# = 1 ] || { files "${@:2}" && first=10; }
    files date 84 12 1
    head -c $((512 * ($1 - first))) /dev/zero | tr '\0' '\345' | files put FILL data
    files remove FILL
    head -c 20480 /dev/zero | files put CASES code
}
run_group() { # [WORD..]: runs the cases, with further words for `run`
    local shown number=0 status
    run_code "$@"
    while [ $number -lt ${#names[@]} ]; do
        IFS= read -r -d $'\036' shown || shown="$shown (ended: $(cat "$scratch/message"))"
        [ "$shown" = "$(printf %bx "${wanted[number]}" | sed '$s/x$//')" ]
        status=$?
        result "${names[number]}" $status
        [ $status = 0 ] || printf '    shown %q\n' "$shown"
        number=$((number + 1))
    done <"$scratch/shown"
}
ends() { # NAME SHOWN MESSAGE: of cases that end the run: all that is shown, | for the end of a line; how the message begins
    run_code
    [ "$(tr '\r' '|' <"$scratch/shown")" = "$2" ] && [[ $(cat "$scratch/message") = "$3"* ]]
    local status=$?
    result "$1" $status
    [ $status = 0 ] || { tr '\r' '|' <"$scratch/shown" && cat "$scratch/message"; }
}

# The calls, as the compiler spells them.
out() { line 'LOD 1, 3'; }
word() { line "LDCI $1"; }
say() { # TEXT: a string, as what the case shows
    out
    line "LSA \"$1\"" 'SLDC 0' 'CXP 0, 19'
}
call() { line "CXP 0, $1" 'CSP 0'; }       # PROCEDURE, and IOCHECK
function_() { line 'SLDC 0' 'SLDC 0' "CXP 0, $1"; }
show_s() { # what s is
    say '['
    out
    line 'LAO 3' 'SLDC 0'
    call 19
    say ']'
}
show_i() {
    out
    line 'LDO 259' 'SLDC 0'
    call 13
}
show_top() { # PUSHED..: a number that these lines leave
    out
    line "$@" 'SLDC 0'
    call 13
}
io() { show_top 'CSP 34'; }                 # IORESULT
set_s() { line 'LAO 3' "LSA \"$1\"" 'SAS 255'; }
loop() { # i from 1 on
    line 'SLDC 1' 'SRO 259'
    printf 'loop%s:\n' $loops >>"$scratch/text"
}
again() { # LIMIT: to the loop, while i is not above it
    line 'LDO 259' 'SLDC 1' 'ADI' 'SRO 259' 'LDO 259'
    word "$1"
    line 'GRTI' "FJP ^$loops"
    jumps="$jumps.JUMP loop$loops"$'\n'
    loops=$((loops + 1))
}

fresh 200
# 13, WRITE of an integer: value, width, shown
begin
while read -r value width shown; do
    out
    word "$value"
    word "$width"
    call 13
    case_is "write($value: $width)" "${shown//_/ }"
done <<'CASES'
0 0 0
7 0 7
7 1 7
7 2 _7
-7 1 -7
-7 2 -7
-7 3 _-7
12345 3 12345
32767 5 32767
32767 6 _32767
-32768 0 -32768
-32768 5 -32768
-32768 6 -32768
-32768 8 __-32768
-1 -1 -1
100 -32768 100
10 20 __________________10
CASES
out
word 42
word 300
call 13
case_is 'write(42: 300)' "$(times 298 ' ')42"
run_group

# 17, WRITE of a character: its number, width, shown
begin
while read -r value width shown; do
    out
    word "$value"
    word "$width"
    call 17
    case_is "write(chr($value): $width)" "${shown//_/ }"
done <<'CASES'
88 0 X
88 1 X
88 2 _X
88 -5 X
88 17 ________________X
88 16 _______________X
CASES
out
word 13
word 0
call 17
case_is 'write(chr(13))' '\r'
run_group

# 19, WRITE of a string; 20, of a packed array
begin
while IFS='|' read -r value width shown; do
    out
    line "LSA \"$value\""
    word "$width"
    call 19
    case_is "write('$value': $width)" "$shown"
    out
    line "LPA \"$value\""
    word "$width"
    word ${#value}
    call 20
    case_is "write(array '$value': $width)" "$shown"
done <<'CASES'
HELLO|0|HELLO
HELLO|5|HELLO
HELLO|8|   HELLO
HELLO|2|HE
HELLO|1|H
HELLO|-1|HELLO
HELLO|-32768|HELLO
|0|
|4|    
|1| 
CASES
out
line "LSA \"$(times 255 Z)\"" 'SLDC 0'
call 19
case_is 'write of 255 characters' "$(times 255 Z)"
out
line "LSA \"$(times 255 Z)\""
word 260
call 19
case_is 'write of 255 characters: 260' "     $(times 255 Z)"
out
line "LSA \"$(times 255 Z)\""
word 254
call 19
case_is 'write of 255 characters: 254' "$(times 254 Z)"
out
call 22
case_is 'writeln' '\r'
line 'LDCN' 'LSA "FIRST"' 'SLDC 0'
call 19
case_is 'a file of address 0 is OUTPUT' FIRST
run_group

# 23, CONCAT: s, what is appended, the room, s then
begin
while IFS='|' read -r s more room then_; do
    set_s "$s"
    line 'LAO 3' "LSA \"$more\""
    word "$room"
    line 'CXP 0, 23'
    show_s
    case_is "concat('$s', '$more') in $room" "[$then_]"
done <<'CASES'
AB|CD|80|ABCD
|CD|80|CD
AB||80|AB
||80|
AB|CD|4|ABCD
AB|CD|3|AB
AB|CD|0|AB
CASES
set_s "$(times 200 A)"
line 'LAO 3' "LSA \"$(times 55 B)\""
word 255
line 'CXP 0, 23'
show_s
case_is 'concat of 200 and 55 in 255' "[$(times 200 A)$(times 55 B)]"
set_s "$(times 200 A)"
line 'LAO 3' "LSA \"$(times 56 B)\""
word 255
line 'CXP 0, 23'
show_s
case_is 'concat of 200 and 56 in 255' "[$(times 200 A)]"

# 24, INSERT: s, what, the room, where, s then
while IFS='|' read -r s what room where then_; do
    set_s "$s"
    line "LSA \"$what\"" 'LAO 3'
    word "$room"
    word "$where"
    line 'CXP 0, 24'
    show_s
    case_is "insert('$what', '$s', $where) in $room" "[$then_]"
done <<'CASES'
XYZ|ab|80|1|abXYZ
XYZ|ab|80|2|XabYZ
XYZ|ab|80|3|XYabZ
XYZ|ab|80|4|XYZab
XYZ|ab|80|5|XYZ
XYZ|ab|80|0|XYZ
XYZ|ab|80|-1|XYZ
XYZ|ab|80|-32768|XYZ
XYZ|ab|80|32767|XYZ
XYZ|ab|5|2|XabYZ
XYZ|ab|4|2|XYZ
XYZ||80|2|XYZ
|ab|80|1|ab
|ab|80|2|
CASES
set_s "$(times 254 A)"
line 'LSA "b"' 'LAO 3'
word 255
word 255
line 'CXP 0, 24'
show_s
case_is 'insert at the end of 254' "[$(times 254 A)b]"
set_s "$(times 254 A)"
line 'LSA "b"' 'LAO 3'
word 255
word 1
line 'CXP 0, 24'
show_s
case_is 'insert before 254' "[b$(times 254 A)]"
run_group

# 25, COPY: of what, from where, how many, the result
begin
while IFS='|' read -r what from count then_; do
    set_s OLD
    line "LSA \"$what\"" 'LAO 3'
    word "$from"
    word "$count"
    line 'CXP 0, 25'
    show_s
    case_is "copy('$what', $from, $count)" "[$then_]"
done <<'CASES'
ABCDE|1|5|ABCDE
ABCDE|1|1|A
ABCDE|5|1|E
ABCDE|2|3|BCD
ABCDE|3|3|CDE
ABCDE|3|4|
ABCDE|6|1|
ABCDE|0|2|
ABCDE|-1|3|
ABCDE|2|0|
ABCDE|2|-1|
ABCDE|1|32767|
ABCDE|32767|1|
ABCDE|-32768|1|
|1|1|
|1|0|
CASES
set_s OLD
line "LSA \"$(times 254 A)B\"" 'LAO 3'
word 255
word 1
line 'CXP 0, 25'
show_s
case_is 'copy of the last of 255' '[B]'

# 26, DELETE: s, from where, how many, s then
while IFS='|' read -r s from count then_; do
    set_s "$s"
    line 'LAO 3'
    word "$from"
    word "$count"
    line 'CXP 0, 26'
    show_s
    case_is "delete('$s', $from, $count)" "[$then_]"
done <<'CASES'
ABCDE|1|5|
ABCDE|1|1|BCDE
ABCDE|5|1|ABCD
ABCDE|2|3|AE
ABCDE|3|3|AB
ABCDE|3|4|ABCDE
ABCDE|6|1|ABCDE
ABCDE|0|2|ABCDE
ABCDE|-1|3|ABCDE
ABCDE|2|0|ABCDE
ABCDE|2|-1|ABCDE
ABCDE|1|32767|ABCDE
ABCDE|32767|32767|ABCDE
ABCDE|-32768|1|ABCDE
|1|1|
CASES
set_s "A$(times 254 B)"
line 'LAO 3'
word 2
word 254
line 'CXP 0, 26'
show_s
case_is 'delete of 254 of 255' '[A]'

# 27, POS: what, in what, the result
while IFS='|' read -r what in_ then_; do
    line "LSA \"$what\"" "LSA \"$in_\""
    function_ 27
    line 'SRO 259'
    show_i
    case_is "pos('$what', '$in_')" "$then_"
done <<'CASES'
A|ABC|1
C|ABC|3
BC|ABC|2
ABC|ABC|1
ABCD|ABC|0
X|ABC|0
|ABC|0
A||0
||0
AAB|AAAB|2
BA|ABABA|2
ab|ABab|3
CASES
line "LSA \"B\"" "LSA \"$(times 254 A)B\""
function_ 27
line 'SRO 259'
show_i
case_is 'pos of the last of 255' 255
line "LSA \"$(times 255 A)\"" "LSA \"$(times 255 A)\""
function_ 27
line 'SRO 259'
show_i
case_is 'pos of 255 in 255' 1
run_group

# 12, READ of an integer, each followed by READLN: the typed keys, then what is shown. An escape is a byte; IORESULT 3 is bad format
begin
while IFS='|' read -r typed echo value result; do
    line 'LOD 1, 2' 'LAO 259' 'CXP 0, 12' 'CSP 34' 'SRO 260'
    line 'LOD 1, 2'
    call 21
    say '='
    show_i
    say ' '
    show_top 'LDO 260'
    case_is "read of the integer $typed" "$echo=$value $result" "$typed"
done <<'CASES'
7\r|7\r|7|0
0\r|0\r|0|0
-7\r|-7\r|-7|0
+7\r|+7\r|7|0
   42\r|   42\r|42|0
007\r|007\r|7|0
32767\r|32767\r|32767|0
-32768\r|-32768\r|-32768|0
12 rest\r|12 rest\r|12|0
12x\r|12x\r|12|0
12-3\r|12-3\r|12|0
\r\r5\r|\r\r5\r|5|0
X\r|X\r|0|3
-\r|-\r|0|3
+x\r|+x\r|0|3
1\x083\r|1\x08 \x083\r|3|0
12\x083\r|12\x08 \x083\r|13|0
1234\x085\r|1234\x08 \x085\r|1235|0
12\x7f3\r|12\x7f\x08 \x083\r|13|0
123\x18456\r|123\x18\x08 \x08\x08 \x08\x08 \x08456\r|456|0
-5\x086\r|-5\x08 \x086\r|-6|0
-\x085\r|-\x08 \x085\r|5|0
-1\x08\r|-1\x08 \x08\r|0|3
123456\x08\r|123456\x08 \x08\r|12345|0
-65537\x7f\x7f\x7f5\r|-65537\x7f\x08 \x08\x7f\x08 \x08\x7f\x08 \x085\r|-655|0
\x089\r|\x08 9\r|9|0
CASES
run_group

# 18, READ of a string of at most this number of characters, and READLN: the maximum length, the typed keys, the console, the string
begin
while IFS='|' read -r room typed echo then_; do
    line 'LOD 1, 2' 'LAO 3'
    word "$room"
    call 18
    line 'LOD 1, 2'
    call 21
    show_s
    case_is "read of a string of $room: $typed" "${echo}[$then_]" "$typed"
done <<'CASES'
80|HELLO\r|HELLO\r|HELLO
80|\r|\r|
80|  A B  \r|  A B  \r|  A B  
5|HELLO\r|HELLO\r|HELLO
4|HELLO\r|HELLO\r|HELL
1|HELLO\r|HELLO\r|H
0|HELLO\r|HELLO\r|
80|HEX\x08LLO\r|HEX\x08 \x08LLO\r|HELLO
80|HEX\x7fLLO\r|HEX\x7f\x08 \x08LLO\r|HELLO
80|X\x08\x08\x08A\r|X\x08 \x08\x08 \x08 A\r|A
80|\x08A\r|\x08 A\r|A
80|\x7fA\r|\x7fA\r|A
80|BAD\x18GOOD\r|BAD\x18\x08 \x08\x08 \x08\x08 \x08GOOD\r|GOOD
80|\x18A\r|\x18A\r|A
CASES
line 'LOD 1, 2' 'LAO 3'
word 255
call 18
line 'LOD 1, 2'
call 21
show_s
case_is 'read of 270 characters into 255' "$(times 270 Q)\r[$(times 255 Q)]" "$(times 270 Q)\r"
run_group

# 16, READ of a character; 10 and 11, EOF and EOLN; 4, RESET(INPUT); 7, GET; the end in the middle
read_c() {
    line "LOD 1, ${1:-2}" 'LAO 260'
    call 16
}
show_c() {
    out
    line 'LDO 260' 'SLDC 0'
    call 17
}
show_ends() { # EOF and EOLN of INPUT, or of file 4, KEYBOARD
    out
    line "LOD 1, ${1:-2}"
    function_ 10
    line 'SLDC 0'
    call 13
    out
    line "LOD 1, ${1:-2}"
    function_ 11
    line 'SLDC 0'
    call 13
}
begin
say '' # the first call sets up INPUT
case_is 'the first call' ''
show_ends
case_is 'EOF and EOLN before anything is read' 00
read_c
show_c
show_ends
case_is 'a character' 'AA00' A
read_c
show_c
show_ends
case_is 'the end of a line is a space' '\r 01' '\r'
read_c
show_c
show_ends
case_is 'the character behind it' 'BB00' B
line 'LOD 1, 2'
call 21
show_ends
case_is 'READLN goes behind the line, and EOLN is false' 'CD\r00' 'CD\r'
read_c
line 'LOD 1, 2'
call 21
show_c
case_is 'READLN behind the end of a line reads no other' '\r ' '\r'
line 'LOD 1, 2'
call 7
out
line 'LDCI 960' 'SLDC 0' 'LDB' 'SLDC 0'
call 17
case_is 'GET(INPUT) and INPUT^' 'EE' E
read_c
show_c
show_ends
case_is 'READ gives what GET got' 'E00'
read_c
read_c
show_c
show_ends
case_is 'the end in the middle of a line' 'F\x03 11' 'F\x03'
read_c
show_c
show_ends
case_is 'nothing is read behind the end' ' 11'
line 'LOD 1, 2' 'LAO 259'
call 12
show_i
case_is 'an integer behind the end is 0' 0
line 'LOD 1, 2' 'LAO 3'
word 80
call 18
show_s
case_is 'a string behind the end is empty' '[]'
line 'LOD 1, 2'
call 21
show_ends
say B
line 'LOD 1, 2'
call 21
show_ends
case_is 'READLN behind the end ends, and EOLN is true' 11B11
line 'LOD 1, 2'
call 7
show_ends
case_is 'GET behind the end: EOLN is true' 11
line 'LOD 1, 2'
call 4
show_ends
case_is 'RESET(INPUT) forgets the end' 00
line 'LOD 1, 2' 'LAO 3'
word 80
call 18
show_s
show_ends
case_is 'a string that the end cuts' 'GH\x1a[GH]11' 'GH\x1a'
line 'LOD 1, 2'
call 4
line 'LOD 1, 2' 'LAO 259'
call 12
show_i
show_ends
case_is 'an integer that the end cuts' '17\x031711' '17\x03'
line 'LOD 1, 2'
call 4
line 'LOD 1, 2' 'LAO 259' 'CXP 0, 12'
io
show_i
case_is 'the end before an integer is no fault' '\x0300' '\x03'
line 'LOD 1, 2'
call 4
case_is 'RESET(INPUT) again' ''
read_c 4
show_c
show_ends 4
case_is 'KEYBOARD shows nothing' 'K00' K
read_c 4
show_c
show_ends 4
show_ends
case_is 'the end of a line of KEYBOARD is none of INPUT' ' 0100' '\r'
read_c 4
show_ends 4
show_ends
case_is 'the end of KEYBOARD is none of INPUT' 1100 '\x03'
line 'LDCN' 'LAO 260'
call 16
show_c
case_is 'a file of address 0 is INPUT' LL L
run_group

# The end where a loop, READLN or a string waits for the end of a line; the first call of a program
until_eoln() { # so many READs of a character to the end of the line, and EOF and EOLN then
    line 'SLDC 0' 'SRO 259'
    printf 'loop%s:\n' $loops >>"$scratch/text"
    line 'LOD 1, 2'
    function_ 11
    line LNOT 'FJP past'$loops
    read_c
    line 'LDO 259' 'SLDC 1' ADI 'SRO 259' "UJP ^$loops"
    jumps="$jumps.JUMP loop$loops"$'\n'
    printf 'past%s:\n' $loops >>"$scratch/text"
    loops=$((loops + 1))
    show_i
    show_ends
}
begin
line 'LOD 1, 2'
function_ 11
line 'SRO 259'
show_i
case_is 'EOLN as the first call' 0
until_eoln
case_is 'READ to the end of a line' 'AB\r301' 'AB\r'
until_eoln
case_is 'and once more: EOLN is true already' 001
line 'LOD 1, 2'
call 21
until_eoln
case_is 'READ to the end in the middle of a line' 'AB\x03311' 'AB\x03'
until_eoln
line 'LOD 1, 2'
call 21
until_eoln
case_is 'READ to the end of a line behind the end, before READLN and behind it' 011011
line 'LOD 1, 2'
call 4
say A
line 'LOD 1, 2'
call 21
say B
line 'LOD 1, 2'
call 21
say C
case_is 'READLN that the end cuts, and the next' 'A\x03BC' '\x03'
run_group
first_call() { # PROCEDURE SHOWN TYPED LINE..: the lines before the call; what it leaves is shown
    begin
    line "${@:4}" "CXP 0, $1"
    case $1 in
        10 | 27 | 28) line 'SRO 259' && show_i ;;
        12) show_i ;;
        16) show_c ;;
        18 | 23 | 24 | 25 | 26) show_s ;;
        *) say . ;;
    esac
    case_is "procedure $1 as the first call of a program" "$2" "$3"
    run_group
}
s_is=('LAO 3' 'LSA "ABC"' 'SAS 255')
first_call 3 . '' 'LAO 261' 'LAO 561' 'SLDC 1'
first_call 4 . '' 'LOD 1, 2'
first_call 5 . '' 'LAO 261' 'LSA "NONE"' 'SLDC 1' LDCN
first_call 6 . '' 'LAO 261' 'SLDC 0'
first_call 7 A. A 'LOD 1, 2'
first_call 8 . '' LDCN
first_call 9 . '' 'LAO 261' 'SLDC 0'
first_call 10 0 '' 'LOD 1, 2' 'SLDC 0' 'SLDC 0'
first_call 12 '7\r7' '7\r' 'LOD 1, 2' 'LAO 259'
first_call 13 ' 5.' '' 'LOD 1, 3' 'SLDC 5' 'SLDC 2'
first_call 16 AA A 'LOD 1, 2' 'LAO 260'
first_call 17 ' X.' '' 'LOD 1, 3' 'SLDC 88' 'SLDC 2'
first_call 18 'AB\r[AB]' 'AB\r' 'LOD 1, 2' 'LAO 3' 'SLDC 80'
first_call 19 ' X.' '' 'LOD 1, 3' 'LSA "X"' 'SLDC 2'
first_call 20 ' X.' '' 'LOD 1, 3' 'LPA "X"' 'SLDC 2' 'SLDC 1'
first_call 21 '\r.' '\r' 'LOD 1, 2'
first_call 22 '\r.' '' 'LOD 1, 3'
first_call 23 '[ABCX]' '' "${s_is[@]}" 'LAO 3' 'LSA "X"' 'SLDC 80'
first_call 24 '[XABC]' '' "${s_is[@]}" 'LSA "X"' 'LAO 3' 'SLDC 80' 'SLDC 1'
first_call 25 '[B]' '' 'LSA "ABC"' 'LAO 3' 'SLDC 2' 'SLDC 1'
first_call 26 '[AC]' '' "${s_is[@]}" 'LAO 3' 'SLDC 2' 'SLDC 1'
first_call 27 2 '' 'LSA "B"' 'LSA "ABC"' 'SLDC 0' 'SLDC 0'
first_call 28 0 '' 'LAO 261' 'LAO 3' 'SLDC 0' 'SLDC 1' 'SLDC 0' 'SLDC 1' 'SLDC 0' 'SLDC 0'
first_call 29 '\x1b[2;1H.' '' 'SLDC 0' 'SLDC 1'

# 29, GOTOXY: as terminals have it, from 1 on, the line first; within 80 columns and 24 lines
begin
while read -r x y at; do
    word "$x"
    word "$y"
    line 'CXP 0, 29'
    case_is "gotoxy($x, $y)" "\\x1b[${at}H"
done <<'CASES'
0 0 1;1
79 23 24;80
5 10 11;6
80 24 24;80
-1 -1 1;1
-5 100 24;1
32767 -32768 1;80
1 22 23;2
78 1 2;79
CASES

# The control characters of Apple's screen: 11 clears from the cursor on, 12 all, 25 is the place at the left above, 28 to
# the right, 29 clears the line from the cursor on, 31 is up
while IFS='|' read -r value shown; do
    out
    word "$value"
    word 0
    call 17
    case_is "write(chr($value)) on the screen" "$shown"
done <<'CASES'
11|\x1b[J
12|\x1b[H\x1b[2J
25|\x1b[H
28|\x1b[C
29|\x1b[K
31|\x1b[A
1|\x01
7|\x07
8|\x08
13|\r
14|\x0e
24|\x18
26|\x1a
27|\x1b
32| 
127|\x7f
CASES
out
word 12
word 3
call 17
case_is 'write(chr(12): 3)' '  \x1b[H\x1b[2J'
while IFS='|' read -r text width shown; do
    out
    line "LSA \"$text\""
    word "$width"
    call 19
    case_is "write('$text': $width) on the screen" "$shown"
done <<'CASES'
A\0cB|0|A\x1b[H\x1b[2JB
\0c\0cAB|0|\x1b[H\x1b[2J\x1b[H\x1b[2JAB
AB\1f|0|AB\x1b[A
\0b|0|\x1b[J
\19AB\1cC\1d|8|  \x1b[HAB\x1b[CC\x1b[K
A\0cB|2|A\x1b[H\x1b[2J
CASES
out
line "LSA \"$(times 255 x | sed 's/x/\\0b/g')\"" 'SLDC 0'
call 19
case_is 'write of 255 characters 11' "$(times 255 x | sed 's/x/\\x1b[J/g')"
out
line 'LPA "A\0cB"' 'SLDC 0' 'SLDC 3'
call 20
case_is 'write of an array on the screen' 'A\x1b[H\x1b[2JB'
out
line 'SIND 0' 'SLDC 0' 'SLDC 12' STB
out
line 'CXP 0, 8'
case_is 'PUT(OUTPUT) on the screen' '\x1b[H\x1b[2J'
out
line 'SIND 0' 'SLDC 0' 'SLDC 81' STB LDCN 'CXP 0, 8'
case_is 'PUT of a file of address 0 is that of OUTPUT' Q
run_group

# What is not served: a number, the name, and the place of the call as `break` takes it. The calls begin at 0
missing() { # NUMBER NAME
    begin
    line "CXP 0, $1"
    ends "procedure $1 is missing" "|*** SYSTEM PROCEDURE $1 IS MISSING: $2|*** CALLED AT 1 1 0|" 'error 14 '
}
missing 1 'THE SYSTEM'
missing 2 EXECERROR
missing 14 'READ OF A REAL'
missing 15 'WRITE OF A REAL'
for number in 30 31 32 33 34 35 36 37 38 39 40 41 42 43; do
    missing $number "THE SYSTEM'S OWN"
done
begin
say AB
line 'SLDC 1'
line 'CXP 0, 15'
ends 'the place of a later call' 'AB|*** SYSTEM PROCEDURE 15 IS MISSING: WRITE OF A REAL|*** CALLED AT 1 1 12|' 'error 14 '
begin
line 'LOD 1, 2' 'LAO 259'
call 12
printf 'X\r' >"$scratch/typed"
ends 'IOCHECK behind a bad integer' X 'error 10 '

# Files on disks.
f=261
g=601
h=941
init() { # FILE RECWORDS: 0 INTERACTIVE, -1 blocks, -2 TEXT
    line "LAO $1"
    if [ "$2" = -1 ]; then line LDCN; else line "LAO $(($1 + 300))"; fi
    word "$2"
    line 'CXP 0, 3'
}
open_() { # FILE TITLE OLD: and shows IORESULT
    line "LAO $1" "LSA \"$2\"" "SLDC $3" 'LDCN' 'CXP 0, 5'
    io
}
reset() { open_ "$1" "$2" 1; }
rewrite() { open_ "$1" "$2" 0; }
close() { # FILE HOW: 0, 1 LOCK, 2 PURGE, 3 CRUNCH; and shows IORESULT
    line "LAO $1" "SLDC $2" 'CXP 0, 6'
    io
}
get() { line "LAO $1" 'CXP 0, 7'; }
put() { line "LAO $1" 'CXP 0, 8'; }
seek() {
    line "LAO $1"
    word "$2"
    line 'CXP 0, 9'
}
window() { line "LAO $(($1 + 300))"; }
set_window() { # FILE WORD LINE..: that word of the window, to what the lines leave
    window "$1"
    line "INC $2" "${@:3}" STO
}
show_window() { # FILE WORD
    show_top "LAO $(($1 + 300))" "IND $2"
}
at_end() { # FILE: EOF
    out
    line "LAO $1"
    function_ 10
    line 'SLDC 0'
    call 13
}
blocks() { # FILE COUNT BLOCK READ: BLOCKREAD or BLOCKWRITE of a; shows IORESULT:how many
    line "LAO $1" 'LAO 981' 'SLDC 0' "LDCI $2" "LDCI $3" "SLDC $4"
    function_ 28
    line 'SRO 260'
    io
    say :
    show_top 'LDO 260'
}
poke() { # UNIT BYTE VALUE: a byte of the directory of a unit
    for transfer in 5 6; do
        line "SLDC $1" 'LAO 981' 'SLDC 0' 'LDCI 512' 'SLDC 2' 'SLDC 0' "CSP $transfer"
        [ $transfer = 6 ] || line 'LAO 981' "SLDC $2" "LDCI $3" STB
    done
}
list_is() { # NAME LINE..: the files of the disk but the cases: name, kind, first, blocks, bytes, date; and what is free
    files list | sed '1d; /^CASES /d; s/  */ /g' >"$scratch/got"
    printf '%s\n' "${@:2}" | cmp -s - "$scratch/got"
    local status=$?
    result "$1" $status
    [ $status = 0 ] || cat "$scratch/got"
}
written_are() { # NAME BLOCK..: what the last group changed: these blocks alone, and behind the entries of the
    # directory there is nothing. A block is a number, or first-last
    cmp -l "$scratch/before" "$image" | awk '{ n = int(($1 - 1) / 512); if (!seen[n]++) print n }' >"$scratch/got"
    local range
    for range in "${@:2}"; do seq "${range%-*}" "${range#*-}"; done | sort -nu | cmp -s - "$scratch/got"
    local status=$? entries
    result "$1: the blocks that were written" $status
    [ $status = 0 ] || tr '\n' ' ' <"$scratch/got"
    entries=$(od -An -tu1 -j1040 -N1 "$image")
    tail -c +$((1025 + 26 * (entries + 1))) "$image" | head -c $((26 * (77 - entries))) | tr -d '\0' | cmp -s - /dev/null
    result "$1: nothing behind the entries" $?
}
bytes_are() { # NAME FILE: the bytes of the file are those of standard input
    files get "$2" >"$scratch/got" </dev/null && cmp -s - "$scratch/got"
    local status=$?
    result "$1" $status
    [ $status = 0 ] || od -A d -t u1 "$scratch/got" | head -n 20
}
words() { # NUMBER..: their bytes
    local number
    for number; do
        printf %b "\\x$(printf %02x $((number & 255)))\\x$(printf %02x $((number >> 8 & 255)))"
    done
}

# 5 and 6, RESET, REWRITE and CLOSE: titles
fresh 200
printf ABC | files put A.DATA data
printf ABC | files put FIFTEEN.LETTERS data
begin
init $f 1
while IFS='|' read -r title result; do
    reset $f "$title"
    close $f 0
    case_is "reset '$title'" "${result}0"
done <<'CASES'
A.DATA|0
a.data|0
 a .\09DATA |0
*A.DATA|0
*:A.DATA|0
:A.DATA|0
WORK:A.DATA|0
work:a.data|0
#4:A.DATA|0
#04:A.DATA|0
A.DATA[5]|0
A.DATA[*]|0
A.DATA[]|0
FIFTEEN.LETTERS|0
FIFTEEN.LETTERS[100]|0
WORK:|0
#4:|0
*|0
A.DAT|9
A.DATAX|9
SIXTEEN.LETTERS.|3
NONE:A.DATA|9
WORKS:A.DATA|9
EIGHTLET:A.DATA|3
SEVENLE:A.DATA|9
#5:A.DATA|9
#3:|9
#7:|9
#13:A.DATA|9
#0:A.DATA|9
#:A.DATA|9
#4X:A.DATA|9
REMIN:|9
A.DATA[|3
A.DATA[5|3
A.DATA[X]|3
A.DATA[5X]|3
A.DATA[5]X|0
A.DATA[5]X[|0
A.DATA[5]]|0
A.DATA[]5|0
A.DATA]5[|3
A.DATA[5[|3
|3
 |3
CASES
# A device that is no disk: a name after the colon and a size mean nothing. RESET reads only where the file is a TEXT, and
# the printer cannot be read
init $g 0
init $h -1
while IFS='|' read -r title interactive text blocks; do
    reset $g "$title"
    close $g 0
    case_is "reset '$title' of an INTERACTIVE file" "${interactive}0"
    [ -z "$text" ] || {
        init $g -2
        reset $g "$title"
        close $g 0
        init $g 0
        case_is "reset '$title' of a TEXT" "${text}0"
    }
    reset $h "$title"
    close $h 0
    case_is "reset '$title' of a file of blocks" "${blocks}0"
done <<'CASES'
#6:A.TEXT|0|3|0
#6:|0|3|0
#6|9|9|9
#6:ABC[4]X|0|3|0
#6:ABC:|0|3|0
#6:ABCDEFGHIJKLMNO|0|3|0
#6:ABCDEFGHIJKLMNOP|3|3|3
#6:ABC[|3|3|3
printer:|0|3|0
*PRINTER:A.DATA|0|3|0
#1:A.DATA|0||0
SYSTERM:A|0||0
A.DATA|0|0|0
CASES
reset $f "$(times 80 A)"
case_is 'reset of a title of 80' 3
reset $f "$(times 255 A)"
case_is 'reset of a title of 255' 3
reset $f "A$(times 249 ' ').DATA"
case_is 'reset of a title with 249 blanks' 0
reset $f A.DATA
at_end $f
case_is 'a file that is open stays open' 30
close $f 0
at_end $f
case_is 'CLOSE: EOF is true' 01
close $f 0
case_is 'CLOSE of a closed file' 0
get $f
io
put $f
io
seek $f 0
io
blocks $f 1 0 1
line "LAO $f" 'CXP 0, 4'
io
line "LAO $f" 'LSA "X"' 'SLDC 0' 'CXP 0, 19'
io
line "LAO $f" 'LAO 259' 'CXP 0, 12'
io
case_is 'GET, PUT, SEEK, BLOCKREAD, RESET, WRITE, READ of a closed file' 9999:0999
line 'SLDC 81' 'SRO 260' "LAO $f" 'LAO 260' 'CXP 0, 16'
io
show_c
case_is 'READ of a character of a closed file leaves it' 9Q
line 'SLDC 81' 'SRO 259' "LAO $f" 'LAO 3' 'SLDC 80' 'CXP 0, 18'
io
line "LAO $f" 'CXP 0, 21'
io
case_is 'READ of a string and READLN of a closed file' 99
run_group
written_are 'titles'
list_is 'nothing changed on the disk' 'A.DATA data 46 1 3 084-12-01' 'FIFTEEN.LETTERS data 47 1 3 084-12-01' \
    'files 3 free 152 largest 152'

# Kinds by the name; sizes; several new files at a time; a full directory is below
fresh 200
begin
init $f 1
init $g 1
for title in 'NAME.TEXT[6]' 'NAME.CODE[6]' 'NAME.BACK[6]' 'NAME.INFO[6]' 'NAME.GRAF[6]' 'NAME.FOTO[6]' 'NAME.DATA[6]' 'NAME[6]' '.TEXT[6]'; do
    rewrite $f "$title"
    set_window $f 0 'SLDC 65'
    put $f
    io
    close $f 1
    case_is "rewrite '$title'" 000
done
run_group
written_are kinds 2 46-60
list_is 'kinds' 'NAME.TEXT text 46 4 512 084-12-01' 'NAME.CODE code 50 1 2 084-12-01' 'NAME.BACK text 51 4 512 084-12-01' \
    'NAME.INFO info 55 1 2 084-12-01' 'NAME.GRAF graf 56 1 2 084-12-01' 'NAME.FOTO foto 57 1 2 084-12-01' \
    'NAME.DATA data 58 1 2 084-12-01' 'NAME data 59 1 2 084-12-01' '.TEXT data 60 1 2 084-12-01' 'files 10 free 139 largest 139'

# Records: 7 to 10 and SEEK, 9
fresh 200
begin
init $f 3
rewrite $f 'R[20]'
loop
set_window $f 0 'LDO 259'
set_window $f 1 'LDO 259' NGI
set_window $f 2 'LDO 259' 'LDO 259' MPI
put $f
line 'CSP 0'
again 200
close $f 1
case_is '200 records of 6 bytes' 00
reset $f R
show_window $f 0
at_end $f
get $f
show_window $f 0
case_is 'RESET reads the first record, GET the next' 0102
for place in 0:1 199:200 85:86 86:87 170:171 84:85 0:1; do
    seek $f "${place%:*}"
    at_end $f
    get $f
    io
    at_end $f
    say '='
    show_window $f 0
    show_window $f 1
    case_is "seek ${place%:*}" "000=${place#*:}-${place#*:}"
done
get $f
show_window $f 0
case_is 'GET behind SEEK and GET is the next record' 2
seek $f 200
get $f
io
at_end $f
case_is 'seek behind the last record: GET finds the end' 01
seek $f 32767
get $f
io
at_end $f
case_is 'seek 32767: GET finds the end' 01
seek $f 5
seek $f -1
get $f
show_window $f 0
case_is 'seek -1 does nothing' 6
seek $f 86
get $f
set_window $f 1 'LDCI 4660'
seek $f 86
put $f
seek $f 85
get $f
show_window $f 1
get $f
show_window $f 1
get $f
show_window $f 1
case_is 'a record put in its place' -864660-88
seek $f 199
get $f
get $f
at_end $f
set_window $f 0 'LDCI 201'
set_window $f 1 'LDCI 7'
set_window $f 2 'LDCI 8'
put $f
io
close $f 0
case_is 'PUT behind the last record makes the file longer' 100
reset $f R
seek $f 200
get $f
show_window $f 0
at_end $f
get $f
at_end $f
case_is 'and it is there' 020101
close $f 0
run_group
written_are records 2 46-48
list_is 'the file of records' 'R data 46 3 182 084-12-01' 'files 2 free 151 largest 151'
for ((i = 1; i <= 200; i++)); do
    if [ $i = 87 ]; then words 87 4660 $((87 * 87)); else words $i -$i $((i * i)); fi
done >"$scratch/records"
words 201 7 8 >>"$scratch/records"
bytes_are 'the bytes of the records' R <"$scratch/records"

# A record that has no room is not lost with those before it
fresh 49
begin
init $f 200
rewrite $f 'FULL'
loop
set_window $f 0 'LDO 259'
line "LAO $f" 'CXP 0, 8' 'CSP 34' 'SRO 260' 'LDO 260' 'SLDC 0' NEQI 'FJP past1' 'UJP past2'
printf 'past1:\n' >>"$scratch/text"
again 100
printf 'past2:\n' >>"$scratch/text"
show_i
say ' '
show_top 'LDO 260'
case_is 'records of 400 bytes in three blocks' '04 9'
close $f 1
reset $f FULL
seek $f 2
get $f
show_window $f 0
at_end $f
get $f
at_end $f
case_is 'the three that had room are there' 00301
seek $f 100
put $f
io
case_is 'PUT behind SEEK past the room' 9
close $f 0
run_group
written_are 'a full disk of records' 2 46-48

# A record that is larger than a block; what SEEK computes for large files
fresh 200
begin
init $f 300
rewrite $f 'BIG[20]'
loop
line "LAO $((f + 300))" 'SLDC 0' 'LDCI 600' 'LDO 259' 'CSP 10'
put $f
line 'CSP 0'
again 7
close $f 1
reset $f BIG
for place in 6:7 0:1 3:4; do
    seek $f "${place%:*}"
    get $f
    say '='
    show_top "LAO $((f + 300))" 'SLDC 0' LDB
    show_top "LAO $((f + 300))" 'LDCI 599' LDB
done
seek $f 7
get $f
at_end $f
case_is 'records of 600 bytes' 000=77=11=441
run_group
written_are 'large records' 2 46-54
list_is 'seven records of 600 bytes' 'BIG data 46 9 104 084-12-01' 'files 2 free 145 largest 145'
for ((i = 1; i <= 7; i++)); do times 600 "$i" | tr 1234567 '\1\2\3\4\5\6\7'; done >"$scratch/records"
bytes_are 'their bytes' BIG <"$scratch/records"

# 6, CLOSE: what it leaves, where the name is there already
fresh 200
for name in NORMAL LOCK PURGE OLDPURGE OLDLOCK CRUNCH SOUGHT BEHIND; do printf '%s' "$name WAS HERE" | files put $name data; done
begin
init $f 1
init $g 1
new_file() {
    rewrite $f "$1"
    set_window $f 0 'LDCI 16961'
    put $f
    close $f "$2"
}
new_file 'NORMAL[3]' 0
case_is 'CLOSE of a new file' 00
new_file 'LOCK[3]' 1
case_is 'CLOSE LOCK of a new file' 00
new_file 'PURGE[3]' 2
case_is 'CLOSE PURGE of a new file' 00
new_file 'GONE[3]' 0
case_is 'CLOSE of a new file with a new name' 00
new_file 'CRUNCHED[3]' 3
case_is 'CLOSE CRUNCH of a new file' 00
reset $f OLDPURGE
close $f 2
case_is 'CLOSE PURGE of an old file' 00
reset $f OLDLOCK
close $f 1
case_is 'CLOSE LOCK of an old file' 00
reset $f WORK:
close $f 2
case_is 'CLOSE PURGE of a volume, behind that of a file' 00
reset $f CRUNCH
get $f
close $f 3
case_is 'CLOSE CRUNCH of an old file' 00
reset $f SOUGHT
seek $f 0
close $f 3
case_is 'CLOSE CRUNCH behind SEEK 0 leaves nothing' 00
reset $f BEHIND
seek $f 1024
close $f 3
case_is 'CLOSE CRUNCH behind SEEK past the end leaves all' 00
rewrite $f 'TWICE[3]'
rewrite $g 'TWICE[3]'
close $f 1
close $g 1
case_is 'a new file of a name that a new file has' 0300
rewrite $f 'ONE[2]'
rewrite $g 'TWO[2]'
set_window $g 0 'LDCI 17219'
put $g
set_window $f 0 'LDCI 16961'
put $f
put $f
close $g 1
close $f 1
case_is 'two new files at a time' 0000
rewrite $f 'EMPTY[2]'
close $f 1
case_is 'a new file without records' 00
run_group
written_are CLOSE 2 54-56 58
list_is 'what CLOSE left' 'NORMAL data 46 1 15 084-12-01' 'PURGE data 48 1 14 084-12-01' 'OLDLOCK data 50 1 16 084-12-01' \
    'CRUNCH data 51 1 4 084-12-01' 'SOUGHT data 52 0 512 084-12-01' 'BEHIND data 53 1 15 084-12-01' 'LOCK data 54 1 2 084-12-01' \
    'CRUNCHED data 55 1 2 084-12-01' 'TWICE data 56 0 512 084-12-01' 'ONE data 56 1 4 084-12-01' 'TWO data 58 1 2 084-12-01' \
    'EMPTY data 59 0 512 084-12-01' 'files 13 free 145 largest 141'
bytes_are 'CLOSE keeps the old file' NORMAL < <(printf 'NORMAL WAS HERE')
bytes_are 'CLOSE LOCK puts the new one in its place' LOCK < <(printf AB)
bytes_are 'CLOSE CRUNCH ends the file behind what was read' CRUNCH < <(printf CRUN)
bytes_are 'the first of two new files' ONE < <(printf ABAB)
bytes_are 'the second' TWO < <(printf CC)

# Texts: what is read
fresh 200
printf 'ONE\n\n   THREE\n-12 34\n\020AB' | tr '\020' ' ' | files puttext IN.TEXT
times 100 'X' | fold -w 10 | sed 's/$/ AND SO ON, SO THAT THERE ARE PAGES OF A TEXT, WHICH HAVE 1,024 BYTES./' | files puttext TEN.TEXT
printf 'NO LINE' | files put PLAIN data
begin
init $f -2
reset $f IN.TEXT
line "LAO $f" 'LAO 3' 'SLDC 80'
call 18
line "LAO $f"
call 21
show_s
case_is 'the first line of a text' '0[ONE]'
line "LAO $f" 'LAO 3' 'SLDC 80'
call 18
out
line "LAO $f"
function_ 11
line 'SLDC 0'
call 13
line "LAO $f"
call 21
show_s
case_is 'an empty line' '1[]'
line "LAO $f" 'LAO 260'
call 16
line "LAO $f" 'LAO 3' 'SLDC 80'
call 18
line "LAO $f"
call 21
show_s
case_is 'spaces before a line are characters' '[  THREE]'
line "LAO $f" 'LAO 259'
call 12
show_i
line "LAO $f" 'LAO 259'
call 12
show_i
line "LAO $f"
call 21
at_end $f
case_is 'integers of a text' -12340
line "LAO $f" 'LAO 3' 'SLDC 80'
call 18
show_s
at_end $f
line "LAO $f"
call 21
at_end $f
case_is 'the last line, and the end' '[ AB]01'
close $f 0
reset $f TEN.TEXT
line 'SLDC 0' 'SRO 260'
loop
line "LAO $f" 'LAO 3' 'SLDC 80'
call 18
line "LAO $f"
call 21
line 'LDO 260' 'LAO 3' 'SLDC 0' LDB ADI 'SRO 260'
again 10
show_top 'LDO 260'
at_end $f
case_is 'ten lines of 80, and the end' 008001
line "LAO $f"
call 4
line "LAO $f" 'LAO 3' 'SLDC 10'
call 18
show_s
case_is 'RESET of an open text' '[XXXXXXXXXX]'
close $f 0
reset $f PLAIN
line "LAO $f" 'LAO 3' 'SLDC 80'
call 18
show_s
at_end $f
case_is 'a file of data as characters' '00[NO LINE]1'
seek $f 0
io
close $f 0
reset $f IN.TEXT
seek $f 3
get $f
show_top "LAO $((f + 300))" 'SLDC 0' LDB
case_is 'SEEK in a text does nothing' 000"$(printf %d "'N")"
close $f 0
# An INTERACTIVE file: a line, GET and READ within the spaces before a line, and the end
printf 'ONE\n    AB\n' | files puttext TWO.TEXT
read_f() {
    line "LAO $f" 'LAO 260'
    call 16
}
init $g 0
reset $g TWO.TEXT
f=$g
line "LAO $f" 'LAO 3' 'SLDC 80'
call 18
line "LAO $f"
call 21
show_s
get $f
read_f
show_c
get $f
read_f
show_c
read_f
show_c
read_f
show_c
read_f
show_c
at_end $f
case_is 'INTERACTIVE: GET and READ within spaces' '00[ONE]    A0'
for shown in '[B]00' '[]11' '[]11'; do
    line "LAO $f" 'LAO 3' 'SLDC 80'
    call 18
    line "LAO $f"
    call 21
    show_s
    at_end $f
    out
    line "LAO $f"
    function_ 11
    line 'SLDC 0'
    call 13
    case_is "INTERACTIVE: READ of a string and READLN, $shown" "$shown"
done
show_both() { # EOF and EOLN
    at_end $f
    out
    line "LAO $f"
    function_ 11
    line 'SLDC 0'
    call 13
}
line "LAO $f"
call 21
show_both
line "LAO $f"
call 21
show_both
case_is 'INTERACTIVE: READLN has no effect at the end, EOLN stays true' 1111
read_f
show_c
show_both
line "LAO $f" 'LAO 259'
call 12
show_i
show_both
case_is 'INTERACTIVE: READ at the end, EOLN is true' ' 11011'
line "LAO $f" 'CXP 0, 4'
io
show_both
case_is 'INTERACTIVE: RESET forgets the end' 000
line 'SLDC 0' 'SRO 259'
printf 'loop%s:\n' $loops >>"$scratch/text"
line "LAO $f"
function_ 10
line LNOT 'FJP past'$loops "LAO $f"
call 21
line 'LDO 259' 'SLDC 1' ADI 'SRO 259' "UJP ^$loops"
jumps="$jumps.JUMP loop$loops"$'\n'
printf 'past%s:\n' $loops >>"$scratch/text"
loops=$((loops + 1))
show_i
show_both
case_is 'INTERACTIVE: READLN until EOF of two lines, the third finds the end' 311
f=261
run_group
written_are 'texts that are read'

# Texts: what is written, up to a full disk. A page ends after the line that ends in its last 127 bytes: nine lines of
# 101 bytes end at byte 909, so each of the 6 pages that 14 blocks have has nine
fresh 60
begin
init $f -2
init $g -2
rewrite $f 'OUT.TEXT'
case_is 'a new text on all free blocks' 0
rewrite $g 'MORE.TEXT'
case_is 'a second one has no room' 9
loop
line "LAO $f" "LSA \"  $(times 98 L)\"" 'SLDC 0' 'CXP 0, 19' 'CSP 34' 'SRO 260'
line "LAO $f" 'CXP 0, 22'
line 'LDO 260' 'SLDC 0' NEQI 'FJP past1' 'UJP past2'
printf 'past1:\n' >>"$scratch/text"
again 100
printf 'past2:\n' >>"$scratch/text"
show_i
say ' '
show_top 'LDO 260'
at_end $f
case_is 'the 55th line has no room' '55 91'
close $f 1
case_is 'CLOSE LOCK of it' 0
run_group
written_are 'a full disk' 2 46-59
list_is 'the text has all free blocks' 'OUT.TEXT text 46 14 512 084-12-01' 'files 2 free 0 largest 0'
for ((i = 1; i <= 54; i++)); do echo "  $(times 98 L)"; done >"$scratch/lines"
files gettext OUT.TEXT | cmp -s - "$scratch/lines"
result 'its 54 lines' $?
begin
init $f -2
rewrite $f 'OUT.TEXT'
case_is 'a full disk has no room' 9
run_group

fresh 61
begin
init $f -2
init $g -2
rewrite $f 'ODD.TEXT[5]'
line "LAO $f" 'LDCI -32768' 'SLDC 7'
call 13
line "LAO $f" 'SLDC 33' 'SLDC 3'
call 17
line "LAO $f" 'LPA "ABC"' 'SLDC 5' 'SLDC 3'
call 20
line "LAO $f"
call 22
line "LAO $f" 'LSA "END"' 'SLDC 0'
call 19
close $f 1
case_is 'WRITE of each kind into a text' 00
reset $f ODD.TEXT
line "LAO $f" 'LAO 3' 'SLDC 80'
call 18
show_s
case_is 'and read again' '0[ -32768  !  ABC]'
rewrite $g 'HALF.DATA[*]'
close $g 0
for ((i = 0; i < 4; i++)); do rewrite $g "X.TEXT[$i]" && close $g 0; done
case_is 'a text has four blocks at least' 0000909090
rewrite $g 'X.TEXT[4]Y'
close $g 0
case_is 'four, and what stands behind a size does not count' 00
run_group
written_are 'a small text' 2 46-51
list_is 'the small text' 'ODD.TEXT text 46 4 512 084-12-01' 'files 2 free 11 largest 11'
printf ' -32768  !  ABC\nEND\n' >"$scratch/lines"
files gettext ODD.TEXT | cmp -s - "$scratch/lines"
result 'its two lines' $?

# PUT of characters ends pages as WRITE does: 15 lines of 61 bytes have 915, the first end of a line in the last 127
fresh 80
begin
init $f -2
rewrite $f 'PUT.TEXT'
loop
line 'SLDC 1' 'SRO 260'
printf 'inner:\n' >>"$scratch/text"
line "LAO $((f + 300))" 'SLDC 0' 'SLDC 81' STB "LAO $f"
call 8
line 'LDO 260' 'SLDC 1' ADI 'SRO 260' 'LDO 260' 'SLDC 60' GRTI "FJP ^1"
line "LAO $((f + 300))" 'SLDC 0' 'SLDC 13' STB "LAO $f"
call 8
again 30
jumps="$jumps.JUMP inner"$'\n'
close $f 1
case_is '30 lines by PUT' 00
rewrite $f 'SHORT.TEXT[4]'
for value in 65 12 13; do
    line "LAO $f" "SLDC $value" 'SLDC 0'
    call 17
done
close $f 1
case_is 'byte 12 in a text' 00
run_group
written_are PUT 2 46-55
list_is 'the text of PUT' 'PUT.TEXT text 46 6 512 084-12-01' 'SHORT.TEXT text 52 4 512 084-12-01' 'files 3 free 24 largest 24'
page() { head -c $((1024 - $(wc -c <"$1"))) /dev/zero | cat "$1" -; }
for ((i = 0; i < 15; i++)); do printf '%s\r' "$(times 60 Q)"; done >"$scratch/page"
bytes_are 'its two pages' PUT.TEXT < <(head -c 1024 /dev/zero && page "$scratch/page" && page "$scratch/page")
printf 'A\f\r' >"$scratch/page"
bytes_are 'a text keeps byte 12' SHORT.TEXT < <(head -c 1024 /dev/zero && page "$scratch/page")

# Gaps that are too small for a text, halves of gaps too; the date of a file that is only read, and of one that is written
for more in 3 4; do
    fresh $((46 + more))
    begin
    init $f -2
    rewrite $f X.TEXT
    case_is "a text in a gap of $more blocks" $((more < 4 ? 9 : 0))
    run_group
done
for more in 6 22; do
    fresh $((46 + more))
    begin
    init $f -2
    rewrite $f X.TEXT[*]
    case_is "a text in half of a gap of $more blocks" $((more < 8 ? 9 : 0))
    run_group
done
list_is 'a half is even' 'X.TEXT text 46 10 512 100-00-00' 'files 2 free 12 largest 12'
for gaps in '20 12 5' '5 12 20' '12 5 20' '20 5 12'; do # the second largest is more than half of the largest
    fresh 86
    at=46
    for gap in $gaps; do
        times $((512 * gap)) A | files put "HOLE$gap" data
        printf x | files put "A$gap" data
        [ "$gap" != 12 ] || place=$at
        at=$((at + gap + 1))
    done
    for gap in $gaps; do files remove "HOLE$gap"; done
    begin
    init $f 1
    rewrite $f 'X[*]'
    case_is "the second of the gaps $gaps" 0
    run_group
    files list | tr -s ' ' | grep -qx "X data $place 12 512 100-00-00"
    result "its place among $gaps" $?
done
fresh 200
printf 'READ ME' | files put READ data
printf 'WRITE ME' | files put WRITE data
files date 85 1 2
begin
init $f 1
reset $f READ
get $f
close $f 0
reset $f READ
close $f 1
reset $f WRITE
set_window $f 0 'LDCI 16961'
put $f
close $f 0
case_is 'a file that is read, and one that is written' 000000
run_group
written_are 'a file that is read, and one that is written' 2 47
list_is 'their dates' 'READ data 46 1 7 084-12-01' 'WRITE data 47 1 8 085-01-02' 'files 3 free 152 largest 152'
bytes_are 'their bytes' WRITE < <(printf 'WRABE ME')
begin
init $f 1
poke 4 20 0 # the volume's last date
poke 4 21 0
reset $f WRITE
set_window $f 0 'LDCI 16961'
put $f
close $f 0
case_is 'a file that is written where the volume has no date' 00
run_group
list_is 'it keeps its date' 'READ data 46 1 7 084-12-01' 'WRITE data 47 1 8 085-01-02' 'files 3 free 152 largest 152'

# Room: sizes, the largest gap, half of it, files that grow, a full directory
fresh 100
times 2048 A | files put HOLE4 data
head -c 512 /dev/zero | files put A data
times 5120 A | files put HOLE10 data
head -c 512 /dev/zero | files put B data
files remove HOLE4
files remove HOLE10
begin
init $f 256
init $g 256
rewrite $f 'FOUR[4]'
put $f
put $f
put $f
put $f
io
put $f
io
close $f 1
case_is 'a size: the first gap that has it, and no more' 0090
rewrite $f 'FIVE[5]'
put $f
close $f 1
case_is 'a gap of four has no five blocks' 00
rewrite $f 'HALF[*]'
put $f
rewrite $g 'LARGEST'
put $g
close $f 1
close $g 1
case_is 'half of the largest gap, then the largest' 0000
reset $f A
get $f
put $f
io
close $f 0
case_is 'an old file does not grow over the next one: a gap of no block' 090
reset $f FIVE
get $f
put $f
io
close $f 0
case_is 'an old file grows into the gap behind it' 000
rewrite $f 'MUCH[39]'
case_is 'a size that no gap has' 9
run_group
written_are room 2 46-49 51 52 62 81
list_is 'where they stand' 'FOUR data 46 4 512 084-12-01' 'A data 50 1 512 084-12-01' 'FIVE data 51 2 512 084-12-01' \
    'B data 61 1 512 084-12-01' 'HALF data 62 1 512 084-12-01' 'LARGEST data 81 1 512 084-12-01' 'files 7 free 44 largest 18'
fresh 200
for ((i = 1; i <= 76; i++)); do printf x | files put F$i data; done
begin
init $f 1
rewrite $f 'F77[1]'
case_is 'a directory of 77 files is full' 9
reset $f F76
close $f 2
rewrite $f 'F77[1]'
set_window $f 0 'LDCI 16961'
put $f
close $f 1
case_is 'after PURGE of one there is room for one' 0000
run_group
written_are 'a full directory' 5 121
[ "$(files list | tail -n 2 | tr '\n' ' ' | sed 's/  */ /g')" = 'F77 data 121 1 2 084-12-01 files 77 free 78 largest 78 ' ]
result 'the last of the full directory' $?

# 28, BLOCKREAD and BLOCKWRITE
fresh 200
head -c 1300 /dev/zero | tr '\0' Z | files put Z data
begin
init $h -1
reset $h Z
blocks $h 2 -1 1
at_end $h
blocks $h 2 -1 1
at_end $h
blocks $h 2 -1 1
at_end $h
case_is 'three blocks, two at a time' 00:200:110:01
blocks $h 1 1 1
show_top 'LAO 981' 'SLDC 0' LDB
case_is 'block 1 of a file' 0:190
blocks $h 1 3 1
blocks $h 0 0 1
blocks $h -1 0 1
case_is 'the block behind the last, no blocks, fewer than none' 0:00:09:0
close $h 0
reset $h '#4:'
blocks $h 1 2 1
show_top 'LAO 981' 'SLDC 7' LDB
at_end $h
blocks $h 1 199 1
at_end $h
blocks $h 1 200 1
close $h 0
case_is 'a unit as blocks' 000:18700:110:00
rewrite $h 'NEW[3]'
line 'LAO 981' 'SLDC 0' 'LDCI 1024' 'SLDC 81' 'CSP 10'
blocks $h 2 -1 0
blocks $h 1 0 0
blocks $h 2 2 0
close $h 1
case_is 'BLOCKWRITE goes on behind the size, where blocks are free' 00:20:10:20
run_group
written_are BLOCKWRITE 2 49-52
list_is 'the blocks that were written' 'Z data 46 3 276 084-12-01' 'NEW data 49 4 512 084-12-01' 'files 3 free 147 largest 147'
bytes_are 'their bytes' NEW < <(times 2048 Q)

# Devices; other units; new files that a program leaves open; the second copy of the directory
fresh 200
begin
init $f -2
rewrite $f 'PRINTER:'
line "LAO $f" 'LSA "ON PAPER"' 'SLDC 10'
call 19
line "LAO $f"
call 22
close $f 0
case_is 'PRINTER:' 00
rewrite $f '#6:'
line "LAO $f" 'LDCI 42' 'SLDC 5'
call 13
line "LAO $f" 'LSA "\0c\1f"' 'SLDC 0'
call 19
close $f 0
case_is '#6:' 00
init $h -1
line 'LAO 981' 'SLDC 0' 'LDCI 1024' 'SLDC 80' 'CSP 10'
rewrite $h 'PRINTER:'
blocks $h 2 -1 0
blocks $h 0 5 0
blocks $h 1 0 1
close $h 0
case_is 'PRINTER: as blocks' 00:20:03:00
rewrite $f 'CONSOLE:'
line "LAO $f" 'LSA "HERE\0c"' 'SLDC 0'
call 19
close $f 0
case_is CONSOLE: '0HERE\x1b[H\x1b[2J0'
rewrite $f 'SYSTERM:'
line "LAO $f" 'LSA "\1fTHERE"' 'SLDC 0'
call 19
close $f 0
case_is SYSTERM: '0\x1b[ATHERE0'
reset $f 'SYSTERM:'
close $f 0
case_is 'RESET of SYSTERM: as a TEXT reads its first character' 00 T
line 'LOD 1, 2' 'SLDC 1' 'CXP 0, 6'
show_ends
case_is 'INPUT stays open' 00
run_group
{ printf '  ON PAPER\r   42\f\037' && times 1024 P; } | cmp -s - "$scratch/printer"
result 'the paper' $?

other=$scratch/other
"$pmach" files --image "$other" new DATA 30
printf 'HELLO FROM 5\n' | "$pmach" files --image "$other" puttext LETTER.TEXT
fresh 200
begin
init $f -2
for title in DATA:LETTER.TEXT '#5:LETTER.TEXT'; do
    reset $f $title
    line "LAO $f" 'LAO 3' 'SLDC 80'
    call 18
    show_s
    close $f 0
    case_is "$title on unit 5" '0[HELLO FROM 5]0'
done
reset $f LETTER.TEXT
case_is 'a title without a volume is on unit 4' 9
rewrite $f 'DATA:NEW.TEXT[5]'
close $f 1
reset $f DATA:NEW.TEXT
at_end $f
close $f 2
case_is 'a new text on unit 5' 00010
while read -r place value old answer; do # the name's length; the count of files, low and high byte
    poke 5 "$place" "$value"
    reset $f '#5:LETTER.TEXT'
    close $f 0
    poke 5 "$place" "$old"
    case_is "byte $place of a directory is $value" "${answer}0"
done <<'CASES'
6 0 4 9
6 1 4 0
6 7 4 0
6 8 4 9
6 255 4 9
16 77 1 0
16 78 1 9
17 255 0 9
CASES
run_group --d5 "$other"

fresh 200 duplicate
begin
init $f -2
rewrite $f 'ONE.TEXT[8]'
close $f 1
rewrite $f 'LEFT.TEXT[8]'
case_is 'a new file that is left open' 000
run_group
written_are 'a new file that is left open' 2 6 50-53
list_is 'it stands in the directory' 'ONE.TEXT text 50 2 512 084-12-01' 'LEFT.TEXT text 52 8 512 100-00-00' 'files 3 free 140 largest 140'
cmp -s <(dd if="$image" bs=512 skip=2 count=4 2>/dev/null) <(dd if="$image" bs=512 skip=6 count=4 2>/dev/null)
result 'and in the second copy' $?
begin
init $f -2
reset $f LEFT.TEXT
reset $f ONE.TEXT
case_is 'the next program does not see it' 90
run_group
written_are 'the next program' 2 6
list_is 'it is gone' 'ONE.TEXT text 50 2 512 084-12-01' 'files 2 free 148 largest 148'
cmp -s <(dd if="$image" bs=512 skip=2 count=4 2>/dev/null) <(dd if="$image" bs=512 skip=6 count=4 2>/dev/null)
result 'and from the second copy' $?

# The programs of examples/system
spell() { # FILE: the bytes that it stands for: 13 for the end of a line, \0 and three digits for another
    [ ! -e "$1" ] || { printf '%bx' "$(cat "$1" && echo x)" | sed '$s/xx$//' | tr '\n' '\r'; }
}
"$here/examples/system/disk.sh" "$image"
for text in "$here"/examples/system/programs/*.text; do
    base=${text%.text}
    name=$(basename "$base")
    spell "$base.in" >"$scratch/typed"
    spell "$base.out" >"$scratch/wanted"
    "$pmach" run --d4 "$image" --save "$name" <"$scratch/typed" >"$scratch/shown" 2>"$scratch/message" &&
        cmp -s "$scratch/shown" "$scratch/wanted"
    status=$?
    result "program $name" $status
    [ $status = 0 ] || { tr '\r' '\n' <"$scratch/shown" && cat "$scratch/message"; }
done
for name in TABLE GUESS STRINGS REVERSE SIEVE TOWERS PEOPLE COPYTEXT LISTER KEYS DICE; do
    for typed in '' '5\r'; do
        printf %b "$typed\\0032" | "$pmach" run --d4 "$image" $name >"$scratch/shown" 2>"$scratch/message"
        [[ $(cat "$scratch/message") = ended* ]]
        result "program $name ends where its input does, behind '$typed'" $?
    done
done
printf 'THE PROGRAMS OF THIS DISK\n  HAVE THE SYSTEM SEGMENT\n\nSO THEY RUN.\n' | awk '{ printf "%4d %s\n", NR, $0 }' >"$scratch/lines"
files gettext COPY.TEXT | cmp -s - "$scratch/lines"
result 'the text that copytext wrote' $?
files get PEOPLE.DATA >"$scratch/got"
person() { # PLACE NAME AGE: the record there; behind the name stands what the window had before
    cmp -s <(tail -c +$(($1 + 1)) "$scratch/got" | head -c $((${#2} + 1))) <(printf '%b%s' "\\x$(printf %02x ${#2})" "$2") &&
        cmp -s <(tail -c +$(($1 + 17)) "$scratch/got" | head -c 2) <(words "$3")
    result "the record of $2 that people wrote" $?
}
person 0 ANNA 31
person 18 BERT 8
person 36 CHARLES 64

# The scripts that change a code file. with-system.sh: what it refuses, and that nothing changes then
script=with-system.sh
with() { # NAME STATUS TEXT WORD..: the status of $script, and the message begins so
    local name=$1 status=$2 text=$3
    shift 3
    "$here/examples/$script" "$@" >"$scratch/out" 2>"$scratch/err" </dev/null
    [ $? = "$status" ] && [ ! -s "$scratch/out" ] && [[ $(cat "$scratch/err") = "$text"* ]]
    result "$name" $?
}
unchanged() {
    cmp -s "$image" "$scratch/before"
    result "$1" $?
}
files new SMALL 30
"$pmach" asm <"$here/examples/hanoi.text" | files put HANOI code
"$pmach" asm <"$here/examples/system/programs/table.text" | files put Table code
printf text | files put DATA data
printf short | files put SHORT code
cp "$image" "$scratch/before"
with 'no words' 1 usage:
with 'no such file' 2 "with-system.sh: $image has no file NONE" "$image" NONE
with 'no code' 2 "with-system.sh: DATA on $image has kind data" "$image" DATA
with 'no code file' 2 'refused code 1' "$image" SHORT
PREFIX=TOOLONGNAME with 'a prefix that is none' 1 'with-system.sh: PREFIX' "$image" TABLE
unchanged 'nothing changed'
with 'it is put in' 0 '' "$image" table
files list | awk 'NR > 1 { print $1, $2, $3 }' >"$scratch/got"
printf '%s\n' 'HANOI code 6' 'DATA data 10' 'SHORT code 11' 'TABLE code 12' 'files 4 free' | cmp -s - "$scratch/got"
result 'the file keeps its name and kind, the others stay' $?
cp "$image" "$scratch/before"
with 'slot 0 is taken' 3 'with-system.sh: slot 0 of TABLE is in use' "$image" TABLE
unchanged 'nothing changed then'
with 'no room' 4 'with-system.sh: HANOI is unchanged: refused filer 1 7' "$image" HANOI
unchanged 'nothing changed without room'
"$pmach" run --d4 "$image" TABLE 2>/dev/null | cmp -s - <(spell "$here/examples/system/programs/table.out")
result 'and it runs' $?
fresh 100
"$pmach" asm <"$here/examples/system/programs/lister.text" | files put LISTER code
PREFIX=data with 'a prefix' 0 '' "$image" LISTER
printf 'LETTER.TEXT\r' | "$pmach" run --d4 "$image" --d5 "$other" LISTER 2>/dev/null |
    cmp -s - <(printf 'LIST WHAT? LETTER.TEXT\r  1: HELLO FROM 5 (12)\r')
result 'a title without a volume is on the prefix' $?

# with-units.sh: the same refusals, then programs that call units, from each kind of procedure
assembled() { # [NAME]: puts the program of standard input on the disk, as CASES
    "$pmach" asm | files put -- "${1:-CASES}" code
}
padded() { # NAME: puts the program of $scratch/units on the disk, with a NOP at its end where its length is odd
    "$pmach" asm <"$scratch/units" >"$scratch/code" 2>"$scratch/why" ||
        sed 's/^RBP 0$/RBP 0\nNOP/' "$scratch/units" | "$pmach" asm >"$scratch/code"
    files put -- "$1" code <"$scratch/code"
}
shows() { # NAME SHOWN MESSAGE WORD..: what the words run, with | for the end of a line, and how the message begins; the
    # file that the variable keyboard names is the input
    "$pmach" run "${@:4}" 2>"$scratch/message" <"${keyboard:-/dev/null}" | tr '\r' '|' >"$scratch/shown"
    [ "$(cat "$scratch/shown")" = "$2" ] && [[ $(cat "$scratch/message") = "$3"* ]]
    local status=$?
    result "$1" $status
    [ $status = 0 ] || cat "$scratch/shown" "$scratch/message"
}
script=with-units.sh
files new UNITS 60
assembled HANOI <"$here/examples/hanoi.text"
printf text | files put DATA data
printf short | files put SHORT code
for ((i = 0; i < 16; i++)); do printf '.SEG %s A\n.PROC 1 0 0 0\nCXP 31, 2\n.EXIT\nRBP 0\nNOP\n.END\n' $i; done |
    assembled FULL
printf '.SEG 1 A\n.PROC 1 0 0 0\nCXP 31, 2\n.EXIT\nRBP 0\nNOP\n.END\n' | "$pmach" asm >"$scratch/code"
{ head -c 520 "$scratch/code" && printf '\7' && tail -c +522 "$scratch/code"; } >"$scratch/odd" # the number at JTAB
files put ODD code <"$scratch/odd"
printf '%s\n' '.SEG 1 A' '.PROC 1 0 0 0' 'CXP 22, 1' 'CXP 31, 1' .EXIT 'RBP 0' .END '.SEG 5 PASCALIO' | assembled TWICE
cp "$image" "$scratch/before"
with 'units: no words' 1 usage:
with 'units: no such file' 2 "with-units.sh: $image has no file NONE" "$image" NONE
with 'units: no code' 2 "with-units.sh: DATA on $image has kind data" "$image" DATA
with 'units: no code file' 2 'refused code 1' "$image" SHORT
with 'units: none is called' 3 'with-units.sh: HANOI calls no unit of examples/units' "$image" HANOI
with 'units: no slot is free' 3 'with-units.sh: FULL has no free slot for segment 31' "$image" FULL
with 'units: a unit twice' 3 'with-units.sh: TWICE has a segment PASCALIO already, and calls segment 31' "$image" TWICE
with 'units: the text is not the file' 3 'with-units.sh: ODD' "$image" ODD
unchanged 'units: nothing changed'

# Two words of which one stays: that of the stack below a call. RANDOM's first two numbers, from 0 on
number() { # LINE..: writes what the lines leave
    out
    line "$@" 'SLDC 0' 'CXP 0, 13'
    out
    line 'SLDC 32' 'SLDC 0' 'CXP 0, 17'
}
{
    begin
    number 'SLDC 7' 'SLDC 3' 'SLDC 0' 'SLDC 0' 'CXP 22, 2' ADI
    number 'SLDC 7' 'SLDC 3' 'SLDC 0' 'SLDC 0' 'CXP 22, 3' ADI
    number 'SLDC 7' 'SLDC 0' 'SLDC 1' 'CXP 22, 4' 'SLDC 0' 'SLDC 0' 'CXP 22, 5' ADI
    number 'SLDC 7' 'SLDC 9' 'SLDC 9' 'CXP 22, 8' 'CXP 22, 1' 'CXP 31, 1'
    number 'SLDC 0' 'SLDC 0' 'CXP 22, 6'
    line 'CXP 2, 1'
    number 'CXP 22, 7' 'SLDC 0' 'SLDC 0' 'CXP 22, 6'
    say 'CXP 31, 2'
    cat "$scratch/text"
    printf '%s\n' .EXIT 'RBP 0' .END '.SEG 2 TWO' '.PROC 1 1 0 0' 'CLP 2' .EXIT 'RNP 0' .END '.PROC 2 2 0 0' 'LOD 3, 3' 'SLDC 0' \
        'SLDC 0' 'CXP 22, 6' 'SLDC 0' 'CXP 0, 13' 'LOD 3, 3' 'SLDC 32' 'SLDC 0' 'CXP 0, 17' .EXIT 'RNP 0' .END
} >"$scratch/units"
random=()
seed=0
for i in 1 2 3 4; do
    seed=$(((seed * 25173 + 13849) % 65536))
    random+=($((seed / 256)))
done
first=$((random[1] % 128 * 256 + random[0]))
second=$((random[3] % 128 * 256 + random[2]))
fresh 100
files remove CASES
"$pmach" asm <"$scratch/units" >"$scratch/code"
for ((i = 224; i < 512; i++)); do printf '\252' | dd of="$scratch/code" bs=1 seek=$i conv=notrunc 2>/dev/null; done
files put -- -CASES code <"$scratch/code"
with 'units: put in, of a name with - in front' 0 '' "$image" -CASES
files get -- -CASES >"$scratch/new"
cmp -s <(head -c 512 "$scratch/code" | tail -c +193) <(head -c 512 "$scratch/new" | tail -c +193)
result 'units: what nobody reads of the dictionary stays' $?
[ "$("$pmach" dis <"$scratch/new" | grep '^.SEG' | tr '\n' ' ')" = '.SEG 1 CASES .SEG 2 TWO .SEG 14 PASCALIO .SEG 15 APPLESTU ' ]
result 'units: the last slots that are free' $?
with 'units: not twice' 3 'with-units.sh: -CASES calls no unit' "$image" -CASES
script=with-system.sh
with 'units: the system behind them' 0 '' "$image" -CASES
shows 'units: what they answer' "7 7 7 7 $first $second $first CXP 31, 2" 'ended ' --d4 "$image" -- -CASES
# KEYPRESS: false, true, false, true. A loop that waits for it ends; a game that asks in each of six rounds reads three keys
{
    begin
    for i in 1 2 3 4 5 6; do number 'SLDC 0' 'SLDC 0' 'CXP 22, 5'; done
    line 'SLDC 0' 'SRO 259'
    echo 'loop0:' >>"$scratch/text"
    line 'LDO 259' 'SLDC 1' ADI 'SRO 259' 'SLDC 0' 'SLDC 0' 'CXP 22, 5' 'FJP ^0'
    number 'LDO 259'
    loop_1() { line 'SLDC 0' 'SRO 259' && echo 'loop1:' >>"$scratch/text"; }
    loop_1
    line 'SLDC 0' 'SLDC 0' 'CXP 22, 5' 'FJP past1' 'LOD 1, 4' 'LAO 260' 'CXP 0, 16'
    number 'LDO 260'
    line 'UJP past2'
    echo 'past1:' >>"$scratch/text"
    say .
    echo 'past2:' >>"$scratch/text"
    line 'LDO 259' 'SLDC 1' ADI 'SRO 259' 'LDO 259' 'SLDC 6' EQUI 'FJP ^1'
    cat "$scratch/text"
    printf '%s\n' .EXIT 'RBP 0' '.JUMP loop0' '.JUMP loop1' .END
} >"$scratch/units"
padded POLLS
script=with-system.sh
with 'keypress: the system' 0 '' "$image" POLLS
script=with-units.sh
with 'keypress: the unit' 0 '' "$image" POLLS
printf ABC >"$scratch/typed"
keyboard=$scratch/typed shows 'keypress: every second call is true, and the program reads' '0 1 0 1 0 1 2 .65 .66 .67 ' 'ended ' --d4 "$image" POLLS
odd_path=$scratch/-a' b
c.img'
cp "$image" "$odd_path"
"$pmach" asm <"$here/examples/system/programs/dice.text" | "$pmach" files --image "$odd_path" put DICE code
with 'units: an image of an odd name' 0 '' "$odd_path" DICE
PREFIX='*' "$here/examples/with-system.sh" "$odd_path" DICE
shows 'units: the system before or behind is the same' "$(tr '\n' '|' <"$here/examples/system/programs/dice.out")" 'ended ' --d4 "$odd_path" DICE

(
    cd "$scratch" || exit
    cp "$image" ./-x.img
    "$pmach" asm <"$here/examples/system/programs/dice.text" | "$pmach" files --image ./-x.img put -- --SLOT code &&
        "$here/examples/with-system.sh" -x.img --slot && "$here/examples/with-units.sh" -x.img --SLOT
) && shows 'units: an image and a file whose names begin with -' "$(tr '\n' '|' <"$here/examples/system/programs/dice.out")" 'ended ' \
    --d4 "$scratch/-x.img" -- --SLOT

# Units that are not there, and slots that a program calls without having them
printf '%s\n' '.SEG 1 A' '.PROC 1 0 0 0' 'SLDC 0' 'FJP past' 'CXP 15, 1' 'CXP 63, 1' 'past: CXP 31, 1' 'CXP 29, 2' .EXIT \
    'RBP 0' NOP .END | assembled OTHERS
with 'units: others are named and stay' 0 'with-units.sh: calls of segment 29 are not changed: TRANSCEND' "$image" OTHERS
[ "$(sed -n 2p "$scratch/err")" = 'with-units.sh: calls of segment 63 are not changed: an unknown unit' ]
result 'units: one that is not known' $?
files get OTHERS | "$pmach" dis | grep 'SEG\|CXP' | sed 's/^ *//' | cmp -s - <(printf '%s\n' '.SEG 1 A' 'CXP 15, 1' 'CXP 63, 1' \
    'CXP 14, 1' 'CXP 29, 2' '.SEG 14 PASCALIO' 'CXP 0, 9' 'CXP 0, 14' 'CXP 0, 15')
result 'units: a slot that is called is not free' $?
shows 'units: a call of another ends by error 2' '' 'error 2 ' --d4 "$image" OTHERS
printf '.SEG 1 A\n.PROC 1 0 0 0\nSLDC 0\nSLDC 0\nCXP 31, 3\n.EXIT\nRBP 0\nNOP\n.END\n' | assembled REALS
with 'units: reals' 0 '' "$image" REALS
"$here/examples/with-system.sh" "$image" REALS
shows 'units: reals are missing' '|*** SYSTEM PROCEDURE 14 IS MISSING: READ OF A REAL|*** CALLED AT 15 3 0|' 'error 14 ' --d4 "$image" REALS
files new SMALL 9
printf '.SEG 1 A\n.PROC 1 0 0 0\nCXP 31, 1\n.EXIT\nRBP 0\nNOP\n.END\n' | assembled FITS
cp "$image" "$scratch/before"
with 'units: no room' 4 'with-units.sh: FITS is unchanged: refused filer 1 7' "$image" FITS
unchanged 'units: nothing changed without room'

# renumber.sh: a file whose segments are in other slots, with the rows of its dictionary
script=renumber.sh
row() { # PLACE SIZE FROM TO: a slot's bytes of that row of $scratch/code, to another slot of $scratch/moved
    dd if="$scratch/code" of="$scratch/moved" bs=1 skip=$(($1 + $2 * $3)) seek=$(($1 + $2 * $4)) count="$2" conv=notrunc 2>/dev/null
}
move() { # FROM TO..: slots of $scratch/code, each to another one of $scratch/moved, whose others are empty
    { head -c 64 /dev/zero && times 128 ' ' && head -c 96 /dev/zero && tail -c +289 "$scratch/code"; } >"$scratch/moved"
    while [ $# != 0 ]; do
        row 0 4 "$1" "$2"
        row 64 8 "$1" "$2"
        row 192 2 "$1" "$2"
        row 224 2 "$1" "$2"
        row 256 2 "$1" "$2"
        shift 2
    done
}
"$pmach" asm <"$here/examples/system/programs/towers.text" >"$scratch/code"
slots=$("$pmach" dis <"$scratch/code" | sed -n 's/^.SEG \([0-9]*\) .*/\1/p' | tr '\n' ' ')
for slot in $slots; do
    for place in 192 224 256; do
        printf %b "\\0$(printf %o $((slot + place / 8)))" | dd of="$scratch/code" bs=1 seek=$((place + 2 * slot)) conv=notrunc 2>/dev/null
    done
done
fresh 100
moves='' to=2
for slot in $slots; do
    moves="$moves $slot $to"
    to=$((to + 1))
done
# shellcheck disable=SC2086 # words
move $moves
files put TOWERS code <"$scratch/moved"
files put THERE code <"$scratch/code"
row 0 4 "${slots%% *}" 9
files put TWICE code <"$scratch/moved"
printf '\20' | dd of="$scratch/moved" bs=1 seek=$((512 + $(od -An -tu2 -j10 -N2 "$scratch/moved") - 2)) conv=notrunc 2>/dev/null
files put ABOVE code <"$scratch/moved"
printf text | files put DATA data
cp "$image" "$scratch/before"
with 'renumber: no words' 1 usage:
with 'renumber: no such file' 2 "renumber.sh: $image has no file NONE" "$image" NONE
with 'renumber: no code' 2 "renumber.sh: DATA on $image has kind data" "$image" DATA
with 'renumber: all stand there' 3 'renumber.sh: each segment of THERE' "$image" THERE
with 'renumber: a number above 15' 3 'renumber.sh: the segment in slot 2 of ABOVE has number 16' "$image" ABOVE
with 'renumber: a number twice' 3 'renumber.sh: two segments of TWICE have number' "$image" TWICE
unchanged 'renumber: nothing changed'
shows 'renumber: slot 1 is not that of the program' '' 'refused boot 3' --d4 "$image" TOWERS
with 'renumber: moved' 0 '' "$image" TOWERS
files get TOWERS >"$scratch/new"
cmp -s "$scratch/new" "$scratch/code"
result 'renumber: the file as it was assembled' $?
"$here/examples/with-system.sh" "$image" TOWERS
shows 'renumber: and it runs' "$(tr '\n' '|' <"$here/examples/system/programs/towers.out")" 'ended ' --d4 "$image" TOWERS

echo "$passed passed, $failed failed"
[ $failed = 0 ]
