#!/bin/bash
# Tests files export, files import, files salvage FOLDER/ and convert, and remove.sh, profile.sh and calls.sh of examples/. Each
# file is exported byte for byte, and imported again. The cases include two files with one name, names that cannot be typed,
# refused and damaged images, and the orders and headers of images. Run manually; not part of the gate. The variable PMACH can
# name another program than ./pmach.
here=$(dirname "$(readlink -f "$0")")/..
export PMACH=${PMACH:-$here/pmach}
scratch=$(mktemp -d)
trap 'rm -rf "$scratch"' EXIT
cd "$scratch" || exit 1
passed=0
failed=0

# check NAME COMMAND..: it passed where the command ends with 0
check() {
    local name=$1
    shift
    if "$@" >/dev/null 2>&1; then
        passed=$((passed + 1))
    else
        failed=$((failed + 1))
        echo "failed: $name"
    fi
}

# ends STATUS COMMAND..
ends() {
    local wanted=$1
    shift
    "$@" >out 2>err </dev/null
    [ $? = "$wanted" ]
}

# patch FILE TEXT BYTES: the first place that has the text gets these bytes
patch() {
    local place
    place=$(grep -abo "$2" "$1" | head -n 1 | cut -d: -f1)
    printf '%b' "$3" | dd of="$1" bs=1 seek="$place" conv=notrunc 2>/dev/null
}

files() { "$PMACH" files --image "$@"; }

files a new SHOE 100
files a date 84 12 1
printf one | files a put DUP data
printf two2 | files a put DUQ code
printf 'line\n  two\n' | files a puttext A.TEXT
printf x | files a put 'A%B/C' 9
files a date 85 1 2
files a put .DOT none </dev/null
printf list | files a put LIST info
seq 400 | files a put BIG 12
cp a b
patch b DUQ DUP
patch b BIG 'B\xe9 '

check "out" ends 0 files a export fa
check "a file of several blocks" cmp fa/BIG <(seq 400)
check "an empty file" [ ! -s fa/%2EDOT ]
check "a name with % and /" cmp fa/A%25B%2FC <(printf x)
check "a text comes as bytes" [ "$(stat -c %s fa/A.TEXT)" = 2048 ]
check "a folder that is there" ends 1 files a export fa
files c new SHOE 100
check "in" ends 0 files c import fa
check "the same list" cmp <(files a list) <(files c list)
check "in once more" ends 0 files c import fa
check "still the same list" cmp <(files a list) <(files c list)
check "out again" ends 0 files c export fc
check "the same folder" diff -r fa fc
check "two of one name" ends 0 files b export fb
check "the first of them" cmp fb/DUP <(printf one)
check "the second of them" cmp fb/DUP%%2 <(printf two2)
check "a name that cannot be typed" cmp <(tail -n +2 fb/B%E9%20) <(tail -n +2 fa/BIG)
files d new SHOE 100
check "in, but for two" ends 2 files d import fb
check "how many" [ "$(head -n 1 err)" = "refused import 2" ]
check "each is named" [ "$(grep -c '^pmach: fb/' err)" = 2 ]
check "and why" grep -q '^pmach: fb/DUP%%2: a file of that name exists' err
check "also a name that no file can have" grep -q '^pmach: fb/B%E9%20: invalid name' err
check "the others are there" [ "$(files d list | wc -l)" = 7 ]
check "as text" ends 0 files a export --text ft
check "the text" cmp ft/A.TEXT <(printf 'line\n  two\n')
files e new SHOE 100
check "texts in" ends 0 files e import ft
check "the same list of texts" cmp <(files a list) <(files e list)
head -c 1000 a >bad
check "a refused image" ends 2 files bad export fbad
check "no folder of it" [ ! -e fbad ]
files f new SHOE 12
cp f f.before
check "a trial" ends 2 files f import --dry-run fa
cp err err.trial
check "changes nothing" cmp f f.before
check "a small volume" ends 2 files f import fa
check "what is left out is named" grep -q '^pmach: fa/BIG: ' err
check "and why" grep -q ': no free area is large enough' err
check "as by the trial" cmp err err.trial
check "the others are there, in the small volume" [ "$(files f list | wc -l)" = $((2 + $(wc -l <fa/LIST) - $(wc -l <err))) ]
files g new EMPTY 20
check "no file out" ends 0 files g export fg
check "no file in" ends 0 files g import fg

# what a LIST can state: dates, the volume's date, lines that are wrong, files that are not there, links, pipes, other folders
mkdir fl && printf one >fl/A && printf two >fl/B && ln -s A fl/LINK && mkfifo fl/PIPE && mkdir fl/SUB
{
    printf 'volume L 60 099-12-31\n'
    printf 'A\tA\tdata\t084-12-01\tbytes\t1\n\nB\tB\t15\t000-00-00\tbytes\n'
} >fl/LIST
files l new L 60
files l date 1 2 3
check "a LIST of two" ends 0 files l import fl/
check "each with its date" [ "$(files l list | sed -n '2,3s/  */ /gp' | xargs)" = "A data 6 1 3 084-12-01 B 15 7 1 3 000-00-00" ]
check "the date of the volume" [ "$(files l export l.out && head -n 1 l.out/LIST)" = "volume L 60 099-12-31" ]
printf 'volume L 60 199-12-31\n' >fl/LIST
check "a date that is none" ends 0 files l import fl
printf 'volume L 60 000-00-00\n' >fl/LIST
check "and no date" ends 0 files l import fl
check "change no date" [ "$(files l export l.out2 && head -n 1 l.out2/LIST)" = "volume L 60 099-12-31" ]
{
    cat l.out2/LIST
    printf 'C\n'
    printf '%s\t%s\tdata\t084-12-01\tbytes\n' A 'N%41%4d' LINK L1 PIPE P1 SUB S1 ../a O1 NONE N1
} >fl/LIST
check "files that cannot be read" ends 4 files l import fl
check "are a read fault" [ "$(head -n 1 err)" = "read fault" ]
check "and each is named" [ "$(grep -o '^pmach: fl/[^:]*' err | cut -d/ -f2- | xargs)" = "C LINK PIPE SUB ../a NONE" ]
check "the others are there, with names in digits" [ "$(files l list | cut -c1-15 | sed '1d;$d' | xargs)" = "A B NAM" ]
check "quiet" ends 4 files l import --quiet fl
check "is quiet" [ ! -s err ]
check "no folder" ends 4 files l import none
check "no LIST, and no file" ends 0 files l import fl/SUB
check "no image for it" ends 4 files none import fa
check "two folders" ends 1 files l import fa fb
check "the same in another order" ends 0 eval 'files x.dos --form dos new X 280 && files x.dos --form dos import fa'
check "has the files" cmp <(files x.dos --form dos list | cut -c1-18,30- | sed '1d;$d') <(files a list | cut -c1-18,30- | sed '1d;$d')
ln -s fa fa.link
cp l l.before
for path in fa.link fa.link/ l.before l; do
    check "$path, which is no folder" ends 4 files l import $path
    check "$path is a read fault" [ "$(head -n 1 err)" = "read fault" ]
done
# The rows of test_trials have the same cases: a path that leads through a file, and a folder that does not exist.
check "an image below a file" ends 4 files l.before/x list
check "it is a read fault" [ "$(head -n 1 err)" = "read fault" ]
for path in l.before/new none/new; do
    check "$path cannot be created" ends 4 files l export $path
    check "$path is a write fault" [ "$(head -n 1 err)" = "write fault" ]
    check "$path, a volume, cannot be created either" ends 4 files $path new X 40
done
check "nothing is created" [ ! -e none ]
# LIST has at most 65,536 bytes, and of a line at most 120 characters are quoted.
{ head -n 1 l.out2/LIST && head -c 65536 /dev/zero | tr '\0' '\n'; } | head -c 65536 >fl/LIST
check "the longest LIST" ends 0 files l import fl
echo >>fl/LIST
check "one byte more" ends 4 files l import fl
check "one byte more is a read fault" [ "$(cat err)" = "read fault" ]
line=$(head -c 120 /dev/zero | tr '\0' x)
printf '%s\n' "$(head -n 1 l.out2/LIST)" "$line" "${line}y" >fl/LIST
check "long lines" ends 2 files l import fl
check "of 120 characters" grep -qx "pmach: fl/$line: this line of LIST is not valid" err
check "of more" grep -qx "pmach: fl/$line\.\.: this line of LIST is not valid" err
check "none of these changes the image" cmp l l.before

# byte FILE PLACE VALUE
byte() { printf "\\x$3" | dd of="$1" bs=1 seek="$2" conv=notrunc 2>/dev/null; }

cp a hurt
byte hurt $((1024 + 26 * 2 + 6)) 00
check "a damaged entry closes the volume" ends 2 "$PMACH" files --image hurt list
check "the others are taken" ends 0 files hurt salvage fh/
check "the damaged one is told" [ "$(head -n 1 out)" = "slot 2 left out, name has 0 characters, not 1 to 15" ]
check "how many there are" [ "$(tail -n 1 out)" = "files 6 left out 1 doubted 0" ]
check "the lines of a new volume" cmp out <(files hurt salvage fh.img)
check "six files" [ "$(grep -c '	' fh/LIST)" = 6 ]
check "the files of the new volume" ends 0 files fh.img export fh.new
check "are the same folder" diff -r fh fh.new
check "each with its bytes" cmp fh/BIG fa/BIG
files h new SHOE 100
check "they go into a volume" ends 0 files h import fh
check "six of seven" [ "$(files h list | wc -l)" = 8 ]
cp a shared
byte shared $((1024 + 26 * 2)) 06
check "blocks that two files share" ends 0 files shared salvage fs/
check "the later one is doubted" grep -qx 'slot 2 taken as DUQ, doubted, shares blocks with slot 1' out
check "and is copied" [ -f fs/DUQ ]
cp a counted
byte counted $((1024 + 16)) 05
check "files behind the count" ends 0 files counted salvage fk/
check "are doubted" [ "$(grep -c 'doubted, behind the files of the header$' out)" = 2 ]
check "and taken" [ "$(grep -c '	' fk/LIST)" = 7 ]
cp a header
byte header $((1024 + 2)) 00
check "a damaged header" ends 0 files header salvage fe/
check "all files are taken" diff -r -x LIST fa fe

files f2 new SHOE 100
files f2 duplicate
printf one | files f2 put DUP data
byte f2 $((1024 + 26 + 6)) 00
byte f2 $((1024 + 2)) 00
check "by the second copy" ends 0 files f2 salvage fz/ --second
check "its file" cmp fz/DUP fa/DUP
check "wrong words" ends 1 files a salvage
check "no folder is written over" ends 1 files a salvage fa/
check "the folder that is there is told" grep -qx 'error: the folder for the files exists; name a folder that does not exist' err
check "an image that is too short" ends 2 files fa/DUP salvage fnone/
check "no folder of that" [ ! -e fnone ]

files po new BIG 280
printf 'hi\n' | files po puttext A.TEXT
"$here/examples/dos-order.sh" <po >dos
dd if=po of=swapped conv=swab 2>/dev/null
{
    printf '2IMGTEST\x40\0\x01\0\x01\0\0\0\0\0\0\0\x18\x01\0\0\x40\0\0\0\x00\x30\x02\0'
    head -c 32 /dev/zero
} >header
for form in po:blocks dos:dos swapped:swapped; do
    file=${form%:*}
    check "$form alone fits" ends 0 "$PMACH" convert "$file"
    check "$form is told" grep -q "^${form#*:} BIG: files 1 " out
    check "$form in blocks" ends 0 "$PMACH" convert "$file" "$file.new"
    check "$form, the same volume" cmp po "$file.new"
    check "$form back" ends 0 "$PMACH" convert --back "$file" po "$file.back"
    check "$form, the same image" cmp "$file" "$file.back"
    { cat header "$file" && echo a comment; } >"$file.2mg"
    check "$form behind a header" ends 0 "$PMACH" convert "$file.2mg" "$file.out"
    check "$form, the same volume behind a header" cmp po "$file.out"
    check "$form behind its header again" ends 0 "$PMACH" convert --back "$file.2mg" po "$file.2back"
    check "$form, the same image behind a header" cmp "$file.2mg" "$file.2back"
done
check "a file that is there stays" ends 1 "$PMACH" convert dos po
check "another form than it has" ends 0 "$PMACH" convert --form swapped dos other.form
check "is told, and its blocks are made" grep -q 'opens as no volume in this format; its blocks are written' err
check "those of that form" cmp other.form <(dd if=dos conv=swab 2>/dev/null)
check "no volume" ends 2 "$PMACH" convert header
check "is refused so" [ "$(head -n 1 err)" = "refused convert 1" ]
for form in {,2mg-,dc42-}{blocks,dos,swapped,big}; do
    check "new, $form" ends 0 "$PMACH" convert --as $form po "as.$form"
    check "new, $form is told" ends 0 "$PMACH" convert "as.$form"
    check "new, $form alone" [ "$(wc -l <out) $(cut -d' ' -f1-2 out)" = "1 $form BIG:" ]
    check "new, $form is sound" [ ! -s err ]
    check "new, $form, back" ends 0 "$PMACH" convert "as.$form" "from.$form"
    check "new, $form, the same volume" cmp po "from.$form"
done
files small new SMALL 40
check "a length that the form cannot have" ends 2 "$PMACH" convert --as dos small none
check "is refused" [ "$(head -n 1 err)" = "refused convert 4" ]
check "blocks of another length" ends 2 "$PMACH" convert --back dos small none
check "are refused" [ "$(head -n 1 err)" = "refused convert 4" ]
check "and nothing is made" [ ! -e none ]
cp po twice && dd if=po of=twice bs=1 skip=1024 seek=2816 count=26 conv=notrunc 2>/dev/null
byte twice 2832 00
check "two forms" ends 2 "$PMACH" convert twice
check "are refused so" [ "$(head -n 1 err)" = "refused convert 2" ]
check "each is told" [ "$(cut -d' ' -f1 out | xargs)" = "blocks dos" ]
check "none is chosen" ends 2 "$PMACH" convert twice none
check "and none is made" [ ! -e none ]
check "one of them is" ends 0 "$PMACH" convert --form dos twice twice.dos
check "and is that one" cmp twice.dos <("$here/examples/dos-order.sh" <twice)
check "no image" ends 4 "$PMACH" convert missing none
check "wrong words of convert" ends 1 "$PMACH" convert --as dos --back dos po none
check "no new image" ends 1 "$PMACH" convert --as dos po
for words in "--form swapped dos" "--as dos po" "--back dos po"; do
    # shellcheck disable=SC2086 # several words
    check "$words without a new image" ends 1 "$PMACH" convert $words
    check "$words requires one" [ "$(cat err)" = "error: --form, --as and --back require NEW" ]
done
beside="error: one file is the temporary file (PATH.pmach-new) of another, and would be deleted; rename it"
cp dos clash.pmach-new && cp dos back.pmach-new && cp po part.pmach-new
check "an old image that is the temporary file of the new one" ends 1 "$PMACH" convert clash.pmach-new clash
check "is told" [ "$(cat err)" = "$beside" ]
check "stays" cmp clash.pmach-new dos
check "also with --back" ends 1 "$PMACH" convert --back back.pmach-new po back
check "with --back it is told" [ "$(cat err)" = "$beside" ]
check "it stays" cmp back.pmach-new dos
check "also the blocks" ends 1 "$PMACH" convert --back dos part.pmach-new part
check "the blocks are told" [ "$(cat err)" = "$beside" ]
check "they stay" cmp part.pmach-new po
check "and nothing is made of them" [ ! -e clash -a ! -e back -a ! -e part ]
check "a new image with such a name" ends 0 "$PMACH" convert dos other.pmach-new
check "is made, next to an old one without it" cmp other.pmach-new po
# (a pipe makes convert wait for its image, and meanwhile a file, a link or a folder appears at NEW)
mkfifo slow
for deed in "cp small late" "ln -s small late" "mkdir late" "ln -s nothing late"; do
    cp small small.was
    (exec 9>slow; sleep 0.3; $deed; cat dos >&9) 2>/dev/null &
    check "$deed, while the old image is read" ends 4 timeout 9 "$PMACH" convert slow late
    wait
    check "$deed, is a write fault" [ "$(head -n 1 err)" = "write fault" ]
    check "$deed, and nothing is replaced" cmp small small.was
    check "$deed, and nothing is made" [ ! -s nothing ]
    check "$deed, what came stays" eval '[ -L late ] || [ -d late ] || cmp late small'
    rm -rf late late.pmach-new
done
printf "2IMG" >short
check "a header that is cut" ends 2 "$PMACH" convert short

# a header of DiskCopy 4.2, over blocks and over DOS order: 84 bytes, with the bytes of data and their sum
sum_of() { python3 -c '
import sys
s = 0
data = open(sys.argv[1], "rb").read()
for k in range(0, len(data), 2):
    s = (s + int.from_bytes(data[k:k + 2], "big")) & 0xFFFFFFFF
    s = s >> 1 | (s & 1) << 31
sys.stdout.buffer.write(s.to_bytes(4, "big"))' "$1"; }
for form in po:blocks dos:dos; do
    file=${form%:*}
    {
        printf '\004DISK' && head -c 59 /dev/zero && printf '\0\x02\x30\0\0\0\0\0' && sum_of "$file"
        printf '\0\0\0\0\x00\x02\x01\x00' && cat "$file"
    } >"$file.dc"
    check "$form behind DiskCopy" ends 0 "$PMACH" convert "$file.dc" "$file.dcout"
    check "$form, the same volume behind DiskCopy" cmp po "$file.dcout"
    check "$form, a sound sum" [ ! -s err ]
    check "$form behind DiskCopy is told" ends 0 "$PMACH" convert "$file.dc"
    check "$form by its name" grep -q "^dc42-${form#*:} BIG:" out
    check "$form behind DiskCopy again" ends 0 "$PMACH" convert --back "$file.dc" po "$file.dcback"
    check "$form, the same image behind DiskCopy" cmp "$file.dc" "$file.dcback"
done
cp po.dcout more.po && printf 'there\n' | files more.po puttext B.TEXT
check "a file more behind DiskCopy" ends 0 "$PMACH" convert --back dos.dc more.po dos.dcmore
check "its sum is its own" ends 0 "$PMACH" convert dos.dcmore more.again
check "its sum is sound" [ ! -s err ]
check "the file is there" cmp more.po more.again
byte dos.dcmore 90000 7F
"$PMACH" convert dos.dcmore >out 2>err </dev/null
check "another sum is told" grep -q 'the checksum in the DiskCopy header does not match' err
{ cat dos && head -c 128 /dev/zero; } >dos.long
check "128 bytes more" ends 0 "$PMACH" convert dos.long dos.longout
check "are no part of the disk" cmp po dos.longout
check "and stay" ends 0 "$PMACH" convert --back dos.long po dos.longback
check "where they were" cmp dos.long dos.longback
gzip -c po >po.gz
check "what is compressed" ends 2 "$PMACH" convert po.gz
check "is named" grep -q 'decompress it with gunzip' err
{ printf 'WOZ2' && head -c 5000 /dev/zero; } >flux.woz
check "a .woz" ends 2 "$PMACH" convert flux.woz
check "is named so" grep -q 'looks like .woz' err
head -c 232960 /dev/zero >some.nib
check "a .nib" ends 2 "$PMACH" convert some.nib
check "is named by its length" grep -q 'length of .nib' err
{ head -c 69632 /dev/zero && printf '\x04\x11\x0f\x03' && head -c 73724 /dev/zero; } >dos33.dsk
check "a disk of DOS 3.3" ends 2 "$PMACH" convert dos33.dsk
check "is named as one" grep -q 'DOS 3.3' err

# words whose high byte comes first: of the directory, of its second copy, and of a code file's dictionary
turn() { python3 -c '
import sys
b = bytearray(open(sys.argv[1], "rb").read())
begins = [1024, 3072] if b[1026] == 10 else [1024]
places = []
for slot in range(1, 1 + b[1040]):
    entry = 1024 + 26 * slot
    block = 512 * (b[entry] + 256 * b[entry + 1])
    if b[entry + 4] == 2:
        places += [block + k for k in [*range(0, 64, 2), *range(192, 288, 2)]]
for begin in begins:
    places += [begin + k for k in (0, 2, 4, 14, 16, 18, 20)]
    for slot in range(1, 78):
        places += [begin + 26 * slot + k for k in (0, 2, 4, 22, 24)]
for k in places:
    b[k], b[k + 1] = b[k + 1], b[k]
sys.stdout.buffer.write(b)' "$1"; }
for copies in one two; do
    files $copies.big new BIG 60
    [ $copies = one ] || files $copies.big duplicate
    files $copies.big date 84 12 1
    seq 300 | files $copies.big put CODE code
    printf 'hi\n' | files $copies.big puttext A.TEXT
    turn $copies.big >$copies.turned
    check "the high byte first, $copies" ends 0 "$PMACH" convert $copies.turned
    check "is told, $copies" grep -q '^big BIG: files 2 ' out
    check "the low byte first again, $copies" ends 0 "$PMACH" convert $copies.turned $copies.low
    check "the same volume, $copies" cmp $copies.big $copies.low
    check "and back, $copies" ends 0 "$PMACH" convert --back $copies.turned $copies.low $copies.back
    check "the same image, $copies" cmp $copies.turned $copies.back
done

# what is named where no volume opens
files hurt12 new HURT 280
for name in A B C D; do echo $name | files hurt12 put $name data; done
byte hurt12 $((1024 + 6)) 00
"$here/examples/dos-order.sh" <hurt12 >hurt12.dos
check "no header in any form" ends 2 "$PMACH" convert hurt12.dos
check "is refused as one" [ "$(head -n 1 err)" = "refused convert 1" ]
check "its files by the form" ends 0 files hurt12.dos --form dos salvage f12dos/
check "are four" [ "$(tail -n 1 out)" = "files 4 left out 0 doubted 0" ]
check "and none by another" [ "$(files hurt12.dos --form swapped salvage f12swapped/ | tail -n 1 | cut -d' ' -f2)" = 0 ]
check "its blocks" ends 0 "$PMACH" convert --form dos hurt12.dos hurt12.blocks
check "and its files" ends 0 files hurt12.blocks salvage f12/
check "with their bytes" cmp f12/C <(echo C)

# a full directory, a volume of 33 MB, and images that are longer and shorter than their volume
files full new FULL 1600
for ((n = 1; n <= 77; n++)); do seq $n $((9 * n)) | files full put FILE$n data; done
check "77 files out" ends 0 files full export ffull
files full2 new FULL 1600
check "77 files in" ends 0 files full2 import ffull
check "77 files out again" ends 0 files full2 export ffull2
check "the same 77 files" diff -r ffull ffull2
echo x >ffull/ONEMORE && printf 'ONEMORE\tONEMORE\tdata\t000-00-00\tbytes\t78\n' >>ffull/LIST
check "one more" ends 2 files full2 import ffull
check "is left out, and why" grep -q '^pmach: ffull/ONEMORE: the directory is full' err
check "and is the only one" [ "$(head -n 1 err)" = "refused import 1" ]
files large new LARGE 65535
seq 1000000 | files large put BIG data
check "out of 33 MB" ends 0 files large export flarge
check "the file there" cmp flarge/BIG <(seq 1000000)
{ cat a && head -c 5120 /dev/zero; } >longer
check "an image that is longer" cmp <(files longer list) <(files a list)
{ cat a && printf x; } >byte.more
check "by a byte" ends 2 "$PMACH" files --image byte.more list
check "no volume in any form" ends 2 "$PMACH" convert byte.more
check "so it is refused" [ "$(head -n 1 err)" = "refused convert 1" ]
check "and come out" ends 0 files byte.more salvage fbyte/
check "as they were" diff -r -x LIST fa fbyte
head -c 5120 a >shorter
check "an image that is shorter" ends 2 "$PMACH" files --image shorter list
check "gives what it has" ends 0 files shorter salvage fshorter/
check "whole files alone" cmp fshorter/DUP fa/DUP
check "and no cut one" [ ! -e fshorter/BIG ]

# what the script `pmach` prints for `files` on a terminal: notes first, the number of faults, and how to make a text file
terminal() {
    python3 -c '
import os, pty, sys
ours, theirs = pty.openpty()
if (child := os.fork()) == 0:
    for k in (1, 2):
        os.dup2(theirs, k)
    os.execv(sys.argv[1], sys.argv[1:])
os.close(theirs)
try:
    while part := os.read(ours, 4096):
        os.write(1, part.replace(b"\r\n", b"\n"))
except OSError:
    pass
sys.exit(os.waitstatus_to_exitcode(os.waitpid(child, 0)[1]))' "$here/script/files.sh" "$PMACH" files "$@"
}
files told.img new TOLD 280
printf 'a line\n' >told.text
terminal --image told.img put A.TEXT text <told.text >told.out 2>&1
check "a plain text is told" grep -q 'puttext makes a text file' told.out
terminal --image told.img put B.TEXT data <told.text >told.out 2>&1
check "data is not" [ ! -s told.out ]
files told.img puttext C.TEXT <told.text
files told.img get C.TEXT >told.file
terminal put --form blocks --image told.img D.TEXT text <told.file >told.out 2>&1
check "a text file is not" [ ! -s told.out ]
byte told.img $((1024 + 16)) 44
terminal --image told.img check <told.text >told.out
check "the status of check" [ $? = 2 ]
check "twenty notes, and how many more" [ "$(sed -n 21p told.out)" = "and 1996 more notes" ]
check "then faults" grep -q '^slot 5 name has 0 characters' told.out
check "and how many more" grep -q '^and [0-9]* more faults$' told.out
check "then how many there are" grep -q '^faults [0-9]*$' told.out
check "and why it is refused" [ "$(tail -n 2 told.out | head -n 1)" = "refused volume 4 5" ]
check "a pipe has all" [ "$(files told.img check 2>/dev/null | grep -c ^note)" = 2016 ]

# lines of other systems
files ends.img new ENDS 60
printf 'one\n  two\n\nfour\n' >ends.lf
sed 's/$/\r/' ends.lf >ends.crlf
tr '\n' '\r' <ends.lf >ends.cr
files ends.img puttext A.TEXT <ends.lf
for ends in crlf cr; do
    check "out with $ends" ends 0 files ends.img export --text --ends $ends ends.$ends.out
    check "each line with $ends" cmp ends.$ends.out/A.TEXT ends.$ends
    files ends.$ends.img new ENDS 60
    check "in with $ends" ends 0 files ends.$ends.img import --ends $ends ends.$ends.out
    check "as lines, $ends" cmp <(files ends.$ends.img gettext A.TEXT) ends.lf
    check "once more with $ends" ends 0 files ends.$ends.img import --ends $ends ends.$ends.out
done
check "other ends" ends 1 files ends.img export --text --ends vax none
check "ends of bytes" ends 1 files ends.img export --ends crlf none
check "line ends that differ, of a text that is there" ends 2 files ends.cr.img import ends.crlf.out
check "which is refused as a text" grep -q '^pmach: ends.crlf.out/A.TEXT: .*--ends crlf; .* --ends cr$' err
check "other ends in" ends 1 files ends.img import --ends vax ends.cr.out

# a damaged volume opens in no format: it is still written in the requested format
files two new TWO 280
printf 'hi\n' | files two puttext A.TEXT
printf hello | files two put B data
byte two $((1024 + 26 + 6)) 00
"$here/examples/dos-order.sh" <two >twodos
cat header twodos >two.2mg
check "a hurt disk fits no form" ends 2 "$PMACH" convert twodos
check "hurt, in the form that is named" ends 0 "$PMACH" convert --form dos twodos two.new
check "hurt, that is said" grep -q "opens as no volume in this format" err
check "hurt, its blocks" cmp two two.new
check "hurt, its sound file" ends 0 "$PMACH" files --image two.new salvage two.saved
check "hurt, the file's bytes" [ "$(files two.saved get B | head -c 5)" = hello ]
check "hurt, out of the form at once" ends 0 files twodos --form dos salvage dosfolder/
check "hurt, of that form the file's bytes" cmp dosfolder/B <(printf hello)
check "hurt, in no form that there is" ends 1 files twodos --form cpm salvage nofolder/
check "hurt, and no folder of that" [ ! -e nofolder ]
check "hurt, behind a header" ends 0 "$PMACH" convert --form 2mg-dos two.2mg two.out
check "hurt, its blocks behind a header" cmp two two.out
check "hurt, as what no image is" ends 1 "$PMACH" convert --form cpm twodos none
check "hurt, no header for the form" ends 2 "$PMACH" convert --form 2mg-dos twodos none
check "hurt, not back" ends 2 "$PMACH" convert --back twodos two none

check "what fits a pattern" ends 0 files a export --only 'du=' fo
check "and nothing else" [ "$(echo fo/*)" = "fo/DUP fo/DUQ fo/LIST" ]
check "its slots" [ "$(cut -f 6 fo/LIST | tr '\n' ' ')" = "volume SHOE 100 085-01-02 1 2 " ]
check "one slot" ends 0 files a export --slot 2 fq
check "and no other" [ "$(echo fq/*)" = "fq/DUQ fq/LIST" ]
check "a slot with a pattern" ends 1 files a export --slot 2 --only 'D=' fnone
check "no slot that there is" ends 0 files a export --slot 70 fempty
check "has no file" [ "$(echo fempty/*)" = fempty/LIST ]
check "a question mark" ends 0 files a export --only 'DU?' fask
check "which is a question mark" [ "$(echo fask/*)" = fask/LIST ]
check "a pattern with a star" ends 0 files a export --only 'D*' fstar
check "which is a star" [ "$(echo fstar/*)" = fstar/LIST ]
cp a r
check "removed" ends 0 "$here/examples/remove.sh" r '=U='
check "is told" [ "$(tr '\n' ' ' <out)" = "DUP DUQ " ]
check "and gone" [ "$(files r list | grep -c '^DU')" = 0 ]
check "and nothing else is" [ "$(files r list | wc -l)" = $(($(files a list | wc -l) - 2)) ]
cp r r2
check "nothing that fits" ends 1 "$here/examples/remove.sh" r 'NO='
check "two of one name are left" ends 1 "$here/examples/remove.sh" b DUP
check "nothing is changed then" cmp r r2
check "no volume to remove from" ends 2 "$here/examples/remove.sh" header =

# --form of the program has the same results as the scripts; and asm and dis read from a disk the same bytes that get
# gives. The other order is made by other means.
"$here/examples/dos-order.sh" <po >formed
check "the list of a disk in another order" cmp <(files po list) <(files formed --form dos list)
check "and of swapped words" cmp <(files po list) <(files swapped --form swapped list)
cp po plain
seq 900 >numbers
files plain put NUMBERS data <numbers
files formed --form dos put NUMBERS data <numbers
check "what is put is put in that order" cmp formed <("$here/examples/dos-order.sh" <plain)
check "and comes back" cmp numbers <(files formed --form dos get NUMBERS)
"$PMACH" asm "$here/examples/hanoi.text" -o tower.code
check "a file that is written" cmp tower.code <("$PMACH" asm <"$here/examples/hanoi.text")
chmod 640 tower.code
"$PMACH" asm "$here/examples/hanoi.text" -o tower.code
check "its mode stays" [ "$(stat -c %a tower.code)" = 640 ]
files formed --form dos put HANOI code <tower.code
files formed --form dos puttext HANOI.TEXT <"$here/examples/hanoi.text"
check "a file of a disk as statements" cmp <("$PMACH" dis --statements tower.code) \
    <("$PMACH" dis --statements --image formed --form dos HANOI)
check "a text of a disk" ends 0 "$PMACH" asm --image formed --form dos HANOI.TEXT -o tower.new
check "is that text" cmp tower.new tower.code
echo FOO >wrong.text
check "what is refused" ends 2 "$PMACH" asm wrong.text -o tower.new
check "is not written" cmp tower.new tower.code
ln -s tower.new link
check "a link" ends 0 "$PMACH" dis tower.code -o link
check "is followed" [ -L link -a "$(head -n 1 tower.new)" = ".SEG 1 HANOI" ]
check "not over what is read" ends 1 "$PMACH" dis tower.code -o ./tower.code
check "a run of it" ends 0 "$PMACH" run --form dos --d4 formed HANOI
check "as of blocks" grep -qx "ended 402" err

# The 28 images of a shoebox, made from a seed: by its number what each is, and what has to come of it.
python3 "$here/bench/shoebox.py" box "${SEED:-28}"
# each NUMBER COMMAND..: the command, followed by the number of a slot, writes each file that must be recovered from an image
each() {
    local file number=$1
    shift
    for file in box/"$number".d/*; do
        "$@" "${file##*/}" 2>/dev/null | cmp -s - "$file" || return
    done
}
slot() { files "${@:1:$#-1}" get --slot "${*: -1}"; }
lines() { files "${@:1:$#-1}" gettext --slot "${*: -1}"; }
named() { files "${@:1:$#-1}" get "FILE$((${*: -1} - 1))"; }
form() { ends 0 "$PMACH" convert "box/$1" "box/$1.new" && [ ! -s err ]; }
# refused NUMBER VOLUME-FAULT: it opens as no volume, for that reason
refused() { ends 2 "$PMACH" files --image "box/$1" list && [ "$(head -n 1 err)" = "refused volume $2" ]; }

check "image 1, blocks in their order" each 1 slot box/1
check "image 2, the order of DOS" each 2 slot box/2 --form dos
check "image 3, exchanged bytes" each 3 slot box/3 --form swapped
check "image 4, the high byte first: convert" form 4
check "image 4, its files" each 4 slot box/4.new
check "image 5, .2mg of blocks, a comment behind them" each 5 slot box/5 --form 2mg
check "image 6, .2mg in the order of DOS, a long header" each 6 slot box/6 --form 2mg
for number in 1 5 6; do
    [ $number = 1 ] && form=blocks || form=2mg
    cp box/$number more.$number
    seq 700 | files more.$number --form $form put MORE data
    check "image $number, a file more" cmp <(seq 700) <(files more.$number --form $form get MORE)
    check "image $number, the others are there" each $number slot more.$number --form $form
done
check "image 5, its header, its comment and the blocks" cmp more.5 \
    <(head -c 64 box/5 && cat more.1 && printf 'a comment')
check "image 6, its header and the blocks" cmp more.6 <(head -c 70 box/6 && "$here/examples/dos-order.sh" <more.1)
check "image 7, DiskCopy 4.2, a sound sum: convert" form 7
check "image 7, its files" each 7 slot box/7.new
check "image 8, 128 bytes more: convert" form 8
check "image 8, its files" each 8 slot box/8.new
check "image 9, 77 files" each 9 slot box/9
check "image 9, into a folder" ends 0 files box/9 export box/9.out
check "image 9, all of them" [ "$(ls box/9.out | wc -l)" = 78 ]
check "image 10, 33 MB" each 10 slot box/10
check "image 11, names that cannot be typed" each 11 slot box/11
check "image 11, into a folder" ends 0 files box/11 export box/11.out
check "image 11, all of them" [ "$(find box/11.out -type f | wc -l)" = 18 ]
check "image 12, a text of few lines" each 12 lines box/12
check "image 13, a text of pages" each 13 lines box/13
check "image 14, a text without lines" each 14 lines box/14
check "image 15, a text without its header" ends 2 "$PMACH" files --image box/15 gettext A.TEXT
check "image 15, its bytes" each 15 slot box/15
check "image 16, a text of all marks" each 16 lines box/16
check "image 17, an entry is hurt" refused 17 '4 5'
check "image 17, the others" ends 0 "$PMACH" files --image box/17 salvage box/17.new
check "image 17, their bytes" each 17 named box/17.new
check "image 18, the same in the order of DOS" ends 0 "$PMACH" files --image box/18 --form dos salvage box/18.new
check "image 18, the others" each 18 named box/18.new --form dos
check "image 19, the same behind a header" ends 0 "$PMACH" files --image box/19 --form 2mg salvage box/19.new
check "image 19, the others" each 19 named box/19.new --form 2mg
check "image 20, the first directory is hurt" refused 20 '13 4'
check "image 20, mended" ends 0 "$PMACH" files --image box/20 repair
check "image 20, its files" each 20 slot box/20
check "image 21, two files share blocks" ends 0 "$PMACH" files --image box/21 salvage box/21.new
check "image 21, is told" grep -q '^slot 2 taken as FILE1, doubted, shares blocks with slot 1$' out
check "image 21, the others" each 21 named box/21.new
check "image 22, longer than its volume" each 22 slot box/22
check "image 23, cut" refused 23 6
check "image 23, what it has" ends 0 "$PMACH" files --image box/23 salvage box/23.new
check "image 23, their bytes" each 23 named box/23.new
check "image 24, a byte more" refused 24 1
check "image 24, its files" ends 0 "$PMACH" files --image box/24 salvage box/24.new
check "image 24, their bytes" each 24 named box/24.new
number=25
for other in "DOS 3.3" ProDOS Macintosh .nib; do
    check "image $number, $other" ends 2 "$PMACH" convert box/$number
    check "image $number, is named" grep -q "it .*$other" err
    check "image $number, is no volume" refused $number 3
    number=$((number + 1))
done

# A tower of three: 15 calls of procedure 2, of which 8 find no disk and take 5 steps and the others 26; 7 moves of 25.
"$PMACH" asm <"$here/examples/hanoi.text" >tower
files h new TOWER 40
files h put HANOI code <tower
check "a profile" ends 0 "$here/examples/profile.sh" --d4 h HANOI
check "of each procedure" [ "$(sed -n '2,4s/  */ /gp' out | tr '\n' ',')" = " 1 2 15 222, 1 3 7 175, 1 1 1 5," ]
check "and each instruction" grep -qx 'CLP         7' out
check "with the last line" [ "$(tail -n 1 out)" = "ended 402" ]
check "the status of the trace" ends 6 "$here/examples/profile.sh" --d4 h --limit 5 HANOI
check "no program" ends 2 "$here/examples/profile.sh" --d4 h NONE
check "who calls whom" [ "$("$here/examples/calls.sh" <tower | tr '\n' ',')" = "1 1 1 2 1,1 2 1 2 2,1 2 1 3 1," ]
check "no code file" ends 2 "$here/examples/calls.sh"

for script in "$here"/examples/*.sh "$here"/examples/*/*.sh; do
    case $script in */codefile.sh | */words.sh) continue ;; esac
    check "${script##*/} -h" ends 0 "$script" -h
    check "${script##*/} says its head" cmp -s out <(sed -n '2,/^[^#]/{/^#/!q;s/^# \{0,1\}//;p}' "$script")
    check "${script##*/} is silent else" [ ! -s err ]
    [ "${script##*/}" = try.sh ] || check "${script##*/} with wrong words" ends 1 "$script" --no --such --words --here
done

echo "$passed passed, $failed failed"
[ $failed = 0 ]
