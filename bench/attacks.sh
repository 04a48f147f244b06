#!/bin/bash
# What other users can do to the files of a command: each attack, with the result that the command must have.
#
#     bench/attacks.sh [TRIES]
#
# The script acts as root, who works in a folder of another user, and as that user (setpriv, number 1234). It stops if it is not
# started as root. TRIES states how often the folder and a link are exchanged during a command (100 by default). An attack that
# requires strace, unshare, python3 or a mount is left out, and named, if it is not possible. The variable PMACH can name
# another program than ../pmach. Run manually; not part of the gate.
here=$(dirname "$(readlink -f "$0")")/..
pmach=$(readlink -f "${PMACH:-$here/pmach}")
export PMACH=$pmach
tries=${1:-100}
[ "$(id -u)" = 0 ] || {
    echo "attacks.sh: it wants root, who is attacked" >&2
    exit 1
}
scratch=$(mktemp -d -p "${TMPDIR:-/var/tmp}")
mounted=
trap '[ -z "$mounted" ] || umount "$mounted"; rm -rf "$scratch"' EXIT
chmod 755 "$scratch"
cd "$scratch" || exit
passed=0
failed=0
left=0

# comes NAME WANTED SAID: it passed where both are the same
comes() {
    if [ "$2" = "$3" ]; then
        echo "passed: $1"
        passed=$((passed + 1))
    else
        echo "FAILED: $1: $3, not $2"
        failed=$((failed + 1))
    fi
}

# has NAME WORD: whether a program that an attack requires is installed
has() {
    command -v "$2" >/dev/null && return
    echo "left out: $1: no $2"
    left=$((left + 1))
    return 1
}

other() { setpriv --reuid 1234 --regid 1234 --clear-groups "$@"; }

# within SECONDS WORD..: the command, its status, and its first message
within() {
    local seconds=$1
    shift
    timeout "$seconds" "$@" >out 2>err
    echo "$? $(head -n 1 err)"
}

# held IMAGE: whether a volume is there, and how many files named N it has
held() { "$pmach" files --image "$1" list 2>/dev/null | grep -c '^N '; }

# folder: a folder of the other user with the image x, and a file of root in the same folder
folder() {
    rm -rf etc u
    mkdir -p etc u/d
    cp base u/d/x
    chmod 755 u/d/x
    chown -R 1234:1234 u
}

# meanwhile DEED: the other user does that while root's `put` waits for its input
meanwhile() {
    sleep 0.7
    other sh -c "$1"
    sleep 0.3
    echo hi
}

"$here/examples/programs.sh" base >/dev/null 2>&1
base=$(cksum <base)

# The folder of a held image is moved away, and a link leads elsewhere: no file is made there, and the image stays.
folder
said=$(meanwhile "mv u/d u/e; ln -s $scratch/etc u/d" | within 9 "$pmach" files --image u/d/x put N data)
comes "the folder is a link to another one" "4 write fault, , $base" "$said, $(ls etc), $(cksum <u/e/x)"
folder
ln -s u/d/x way
said=$(meanwhile "mv u/d u/e; ln -s $scratch/etc u/d" | within 9 "$pmach" files --image way put N data)
comes "the same behind a further link" "4 write fault, , $base" "$said, $(ls etc), $(cksum <u/e/x)"
rm way
folder
said=$( (sleep 0.7; other sh -c "mv u/d u/e; ln -s $scratch/etc u/d"; printf 'a.') |
    within 9 "$pmach" run --d4 u/d/x --save ECHO)
comes "the same while a program waits for a key" "4 write fault, , $base" "$said, $(ls etc), $(cksum <u/e/x)"
folder
echo root >etc/x
said=$(meanwhile "mv u/d u/e; ln -s $scratch/etc u/d" | within 9 "$pmach" files --image u/d/x put N data)
comes "the other folder has the name" "4 write fault, root" "$said, $(cat etc/x)"
folder
said=$(meanwhile "mv u/d u/e" | within 9 "$pmach" files --image u/d/x put N data)
comes "the folder is gone" "4 write fault, x" "$said, $(ls u/e)"
folder
said=$(meanwhile "mv u/d u/e; ln -s $scratch/u/e u/d" | within 9 "$pmach" files --image u/d/x put N data)
comes "a link leads to where the folder is now" "0 , 1" "$said, $(held u/e/x)"

# The folder and a link change places all the time, and strace holds up the command's opens and renames: what has the
# other folder's name stays, and nothing is added.
python=$(PATH=/usr/bin:/bin command -v python3)
if has "the folder and a link change places" "${python:-python3}"; then
    folder
    ln -s ../etc u/l
    echo root >etc/x
    cat >swap.py <<'END'
import ctypes, os, random, time
libc = ctypes.CDLL(None)
while not os.path.exists(b"stop"):
    libc.renameat2(-100, b"u/d", -100, b"u/l", 2)
    time.sleep(random.random() * 0.06)
END
    chown -h 1234:1234 u/l
    other "$python" swap.py &
    swapper=$!
    slow=()
    command -v strace >/dev/null && slow=(strace -o trace -e trace=openat,rename -e inject=openat:delay_exit=15000
        -e inject=rename:delay_enter=15000)
    lost=0
    for ((try = 0; try < tries; try++)); do
        echo hi | "${slow[@]}" "$pmach" files --image u/d/x put "N$try" data >/dev/null 2>&1
        [ "$(ls etc | xargs) $(cat etc/x)" = "x root" ] && continue
        lost=$((lost + 1))
        rm -f etc/*
        echo root >etc/x
    done
    touch stop
    wait $swapper
    rm -f stop
    comes "the folder and a link change places" "0 of $tries lost" "$lost of $tries lost"
fi

# A LIST that others made is data.
mkdir fo
echo hi >fo/A
printf 'secret\n' >secret
ln -s ../secret fo/B
mkfifo fo/C
printf 'volume W 60 000-00-00\nA\tA\tdata\t0+a[$(id>PWN)]-01-01\tbytes\t1\n../secret\tS\tdata\t000-00-00\tbytes\t2\n' >fo/LIST
printf 'B\tB\tdata\t000-00-00\tbytes\t3\nC\tC\tdata\t000-00-00\tbytes\t4\n' >>fo/LIST
"$pmach" files --image n.img new W 60
printf 'A\tA\tdata\t000-00-00\tbytes\t5\n' >>fo/LIST
said=$(within 9 "$pmach" files --image n.img import fo)
comes "import runs no date, and reads nothing outside the folder" "4 read fault, no PWN, A, 4" \
    "$said, $(ls PWN 2>/dev/null || echo no PWN), $("$pmach" files --image n.img list | sed '1d;$d' | cut -c1-15 | xargs), $(grep -c '^pmach: fo/' err)"
printf 'volume W 60 b[$(id>PWN)]-01-01\n' >fo/LIST
said=$(within 9 "$pmach" files --image n.img import fo)
comes "nor the volume's date" "0, no PWN" "${said%% *}, $(ls PWN 2>/dev/null || echo no PWN)"
printf 'volume W 60 000-00-00\nB\033[31m\tB\tdata\t000-00-00\tbytes\t1\n\033]0;x\007\n' >fo/LIST
said=$(within 9 "$pmach" files --image n.img import fo)
comes "no byte of LIST acts on a terminal" "4, 0" "${said%% *}, $(tr -d '\n\t' <err | tr -cd '\000-\037\177' | wc -c)"

{ echo 'volume W 60 000-00-00' && head -c 1000000 /dev/zero | tr '\0' '\n'; } >fo/LIST
said=$(within 30 "$pmach" files --image n.img import fo)
comes "import, a LIST of a million lines" "4 read fault" "$said"
{ echo 'volume W 60 000-00-00' && head -c 1000000 /dev/zero | tr '\0' x; } >fo/LIST
said=$(within 30 "$pmach" files --image n.img import fo)
comes "import, a line of a million characters" "4 read fault" "$said"
{ echo 'volume W 60 000-00-00' && head -c 60000 /dev/zero | tr '\0' x; } >fo/LIST
said=$(within 30 "$pmach" files --image n.img import fo)
comes "import, a line of 60,000 characters: status, and whether the message is short" "2, short" \
    "${said%% *}, $([ "$(wc -c <err)" -lt 1000 ] && echo short)"
{ echo 'volume W 60 000-00-00' && head -c 60000 /dev/zero | tr '\0' '\n'; } >fo/LIST
said=$(within 30 "$pmach" files --image n.img import fo)
comes "import, a LIST of 60,000 lines" 0 "${said%% *}"
ln -s fo folink
said=$(within 9 "$pmach" files --image n.img import folink)
comes "import, a link to a folder" "4 read fault" "$said"

# What appears where nothing was is not written over, and not opened.
mkfifo p1 p2
(exec 9>p1; sleep 0.7; cat base >&9) &
(exec 8>p2; sleep 1; cat base >&8) &
(timeout 9 "$pmach" files --image p1 salvage q >/dev/null 2>&1; echo $? >said1) &
(timeout 9 "$pmach" files --image p2 salvage q >/dev/null 2>&1; echo $? >said2) &
wait
comes "two salvages to one path" "0 4" "$(cat said1 said2 | sort | xargs)"
rm -f q
# appears NAME DEED WANTED SEEN: the deed is done while salvage or convert waits for its image
appears() {
    local command
    for command in "files --image p1 salvage" "convert p1"; do
        rm -rf q
        (exec 9>p1; sleep 0.7; eval "$2"; cat base >&9) &
        # shellcheck disable=SC2086 # several words
        said=$(within 9 "$pmach" $command q)
        wait
        comes "$command: $1 appears where the new volume is made" "4 write fault, $3" "$said, $(eval "$4" | tr -cd '[:print:]\n' | cut -c1-30)"
    done
}
appears "a file" "echo mine >q" "mine" "cat q"
echo two >v1
ln v1 v2
appears "a link to a file of two names" "ln -s v1 q" "two" "cat v1"
mkfifo pp
appears "a link to a pipe" "ln -s pp q" "pp" "readlink q"
appears "a folder" "mkdir q" "q" "ls -d q q.pmach-new 2>/dev/null"
rm -rf q

# What takes the name of a held image is not opened: no pipe makes the command wait.
for deed in 'mkfifo f/x' 'ln -s /dev/full f/x' 'ln -s pp f/x; mkfifo f/pp' 'mkdir f/x' 'echo x >f/x' ':'; do
    rm -rf f
    mkdir f
    cp base f/x
    chown -R 1234 f
    said=$(meanwhile "rm f/x; $deed" | within 8 "$pmach" files --image f/x put N data)
    comes "in the place of a held image: $deed" "4 write fault, none" "$said, $(ls f | grep new || echo none)"
done

# In place: what is longer finds no room, and the old image stays.
mkdir tm
if mount -t tmpfs -o size=60k tmpfs tm 2>/dev/null; then
    mounted=$scratch/tm
    "$pmach" files --image tm/x new W 40
    ln tm/x tm/y
    was=$(cksum <tm/x)
    dd if=/dev/zero of=tm/fill bs=1k 2>/dev/null
    comes "no room in place" "4 write fault, $was" "$(within 9 "$pmach" files --image tm/x new BIG 100), $(cksum <tm/x)"
    rm tm/fill
    comes "room in place" "0 , BIG:" "$(within 9 "$pmach" files --image tm/x new BIG 100), $("$pmach" files --image tm/y list | head -n 1)"
    umount tm
    mounted=
else
    echo "left out: no room in place: no mount"
    left=$((left + 1))
fi

# Where the new file gets neither owner nor mode the image is written in place; where bytes are refused it is not.
mkdir ns
chmod 777 ns
if has "an owner that is not known" unshare && other unshare -Ur true 2>/dev/null; then
    cp base ns/x
    chown 4321 ns/x
    chmod 666 ns/x
    said=$(echo hi | within 9 setpriv --reuid 1234 --regid 1234 --clear-groups unshare -Ur "$pmach" files --image ns/x put N data)
    comes "an owner that is not known" "0 , 4321 666 1" "$said, $(stat -c '%u %a' ns/x) $(held ns/x)"
fi
if has "refusals of the system" strace; then
    for call in fchown fchmod; do
        for error in EINVAL EOPNOTSUPP ENOSYS EPERM; do
            cp base ns/x
            chown 77 ns/x
            chmod 600 ns/x
            said=$(echo hi | within 9 strace -o trace -e trace=$call -e inject=$call:error=$error "$pmach" files --image ns/x put N data)
            comes "$call is $error" "0 , 77 600 1" "$said, $(stat -c '%u %a' ns/x) $(held ns/x)"
        done
    done
    for call in write fsync; do
        for error in EPERM EROFS EIO ENOSPC; do
            rm -f ns/x
            cp base ns/x
            said=$(echo hi | within 9 strace -o trace -e trace=$call -e inject=$call:error=$error:when=1 "$pmach" files --image ns/x put N data)
            comes "$call is $error" "4 write fault, $base, x" "$said, $(cksum <ns/x), $(ls ns)"
        done
    done
fi

# A file of the command at the path of the new file for another.
message="error: one file is the temporary file (PATH.pmach-new) of another, and would be deleted; rename it"
cp base a
cp base a.pmach-new
cp base c.pmach-new
for words in "run --d4 a --d5 a.pmach-new --save OK" "run --d4 a --d5 a.pmach-new --save-all OK" \
    "run --d4 a.pmach-new --d9 a --save-all OK" "run --d4 c.pmach-new --printer c OK" "files --image c.pmach-new salvage c" \
    "convert c.pmach-new c" "convert --back c.pmach-new a c" "convert --back a c.pmach-new c"; do
    # shellcheck disable=SC2086 # words
    said=$(within 9 "$pmach" $words)
    comes "$words" "1 $message, $base, $base" "$said, $(cksum <a.pmach-new), $(cksum <c.pmach-new)"
done

# Another program that has an image of a run: nothing is run, and nothing is lost.
cp base own
for unit in 5 9 10 11 12; do
    cp base a
    cp base b
    (sleep 0.7; printf 'a.') | timeout 9 "$pmach" run --d4 a --d$unit own --save-all ECHO >/dev/null 2>&1 &
    sleep 0.3
    comes "a second run with the image of unit $unit" "4 read fault" "$(within 9 "$pmach" run --d4 b --d$unit own --save-all OK)"
    comes "a put into the image of unit $unit" "4 read fault" "$(echo hi | within 9 "$pmach" files --image own put N data)"
    wait
done
comes "without --save-all no lock is taken" "0 ended 9" "$(flock own timeout 9 "$pmach" run --d4 b --d5 own OK 2>&1 >/dev/null | sed 's/^/0 /')"

# Small ones.
if has "a closed input without /dev/null" unshare; then
    cp base a
    said=$(within 9 unshare -m sh -c "mount -t tmpfs none /dev && exec '$pmach' files --image a put N data <&-")
    comes "a closed input without /dev/null" "4 read fault, 0" "$said, $(held a)"
fi
chmod 644 a
other flock -s a sleep 3 &
sleep 0.3
comes "who may read an image can hold up its writers, as COMMANDS says" "4 read fault" \
    "$(echo hi | within 9 "$pmach" files --image a put N data)"
kill $! 2>/dev/null
wait

if has "a wrong word on a terminal" "${python:-python3}"; then
    cat >typed.py <<'END'
import os, pty, sys
said = b""
process, terminal = pty.fork()
if process == 0:
    os.execv(sys.argv[1], sys.argv[1:])
try:
    while some := os.read(terminal, 4096):
        said += some
except OSError:
    pass
print("raw" if b"\x1b" in said else "plain" if b"?]0;x?" in said else "nothing")
END
    comes "a wrong word on a terminal" plain "$("$python" typed.py "$pmach" files --image a $'\e]0;x\a')"
fi

# A link or a file at the name of the new file is neither followed nor opened.
folder
echo secret >etc/x
other ln -s "$scratch/etc/x" u/d/x.pmach-new
said=$(echo hi | within 9 "$pmach" files --image u/d/x put N data)
comes "a link at the name of the new file" "0 , 1, secret" "$said, $(held u/d/x), $(cat etc/x)"
folder
mkfifo u/d/x.pmach-new
said=$(echo hi | within 9 "$pmach" files --image u/d/x put N data)
comes "a pipe there" "0 , 1" "$said, $(held u/d/x)"
folder
mkdir u/d/x.pmach-new
said=$(echo hi | within 9 "$pmach" files --image u/d/x put N data)
comes "a folder there" "4 write fault, $base" "$said, $(cksum <u/d/x)"

# The new directory of site.sh, or the new folder of export or salvage, is exchanged for a link as soon as it exists:
# nothing is made or overwritten in the directory that the link names.
into_link='import os, sys
os.symlink(sys.argv[1], "u/out")'
# exchange DEED: the other user does this in Python, once the folder u/out exists and was renamed to u/moved
exchange() {
    cat >exchange.py <<END
import os, sys, time
end = time.monotonic() + 20
while time.monotonic() < end:
    try:
        os.rename("u/out", "u/moved")
        break
    except OSError:
        pass
else:
    sys.exit(1)
$1
END
    setpriv --reuid 1234 --regid 1234 --clear-groups "$python" exchange.py "$scratch/etc" &
}
# outside: a folder u of the other user, and the folder etc with a file of root's, which no command may change
outside() {
    rm -rf etc u
    mkdir etc u
    echo "root file" >etc/HANOI
    chown 1234:1234 u
}
# unharmed: whether etc is as `outside` made it
unharmed() { [ "$(ls etc)" = HANOI ] && [ "$(cat etc/HANOI)" = "root file" ]; }
# to_folder VERB OPTION..: runs files export or files salvage into u/out, with SLOW before the program
slow=()
to_folder() {
    case $1 in
        export) within 60 "${slow[@]}" "$pmach" files --image base "$@" u/out ;;
        salvage) within 60 "${slow[@]}" "$pmach" files --image base salvage u/out/ ;;
    esac
}
if has "a new directory that is exchanged" "${python:-python3}"; then
    for command in export "export --text" salvage site/site.sh; do
        harmed=0
        for ((n = 0; n < 5; n++)); do
            outside
            exchange "$into_link"
            # shellcheck disable=SC2086 # a verb and its options
            if [ "$command" = site/site.sh ]; then
                within 60 "$here/examples/site/site.sh" base u/out >/dev/null
            else
                to_folder $command >/dev/null
            fi
            { kill $! && wait $!; } 2>/dev/null
            unharmed || harmed=$((harmed + 1))
        done
        comes "$command into a directory that is exchanged for a link, 5 times" 0 "$harmed"
    done
fi

# The same exchange at each step of the program, which strace holds up: before the new folder is opened, before it is
# compared with what is at its path, and before the first file. In the last case the files are in the folder that was
# created, wherever it is by then.
if has "a new folder that is exchanged at a given step" strace && has "the same" "${python:-python3}"; then
    for command in export salvage; do
        "$pmach" files --image base list | sed '1d;$d' | cut -c1-15 | tr -d ' ' | cat - <(echo LIST) | LC_ALL=C sort >names
        # held_up NAME STEP DEED WANTED: the deed, done while the program is held up at this step; what the message was, and
        # how many files of the volume and LIST are in u/moved
        held_up() {
            outside
            slow=(strace -o trace -e "trace=mkdir,mkdirat,openat" -e "$2")
            exchange "$3"
            said=$(to_folder $command)
            wait $!
            slow=()
            comes "$command, $1" "$4, unharmed" \
                "$said, $(LC_ALL=C ls u/moved | comm -12 - names | wc -l), $(unharmed && echo unharmed)"
        }
        all=$(wc -l <names)
        held_up "a link for the new folder, before it is opened" inject=mkdir,mkdirat:delay_exit=400000 \
            "$into_link" "4 write fault, 0"
        held_up "no folder there" inject=mkdir,mkdirat:delay_exit=400000 pass "4 read fault, 0"
        held_up "a link that leads back to the folder" inject=mkdir,mkdirat:delay_exit=400000 \
            'os.symlink("moved", "u/out")' "4 write fault, 0"
        held_up "a pipe there" inject=mkdir,mkdirat:delay_exit=400000 'os.mkfifo("u/out")' "4 read fault, 0"
        # (a folder of another user gets no file)
        held_up "another folder there" inject=mkdir,mkdirat:delay_exit=400000 'os.mkdir("u/out")' "4 write fault, 0"
        held_up "another folder there with links" inject=mkdir,mkdirat:delay_exit=400000 'os.mkdir("u/out")
os.symlink(sys.argv[1] + "/HANOI", "u/out/HANOI")
os.symlink(sys.argv[1] + "/NEW", "u/out/LIST")' "4 write fault, 0"
        # (after the folder was opened and compared, each file is held up)
        slow_files() {
            outside
            (
                for ((n = 0; n < 200 && $(ls u/out 2>/dev/null | wc -l) == 0; n++)); do sleep 0.02; done
                other sh -c "mv u/out u/moved && ln -s '$scratch/etc' u/out"
            ) &
            slow=(strace -o trace -e trace=openat -e inject=openat:delay_exit=100000)
            said=$(to_folder $command)
            wait $!
            slow=()
            comes "$command, a link for the new folder, between two files" "0 , $all, unharmed" \
                "$said, $(LC_ALL=C ls u/moved | comm -12 - names | wc -l), $(unharmed && echo unharmed)"
        }
        slow_files
    done

    # A folder that others may write: links, pipes and files of theirs at the names of the files are not followed, opened
    # or replaced. Each such file is named, and LIST has the others.
    for deed in "ln -s '$scratch/etc/HANOI' u/out/HANOI" "ln -s '$scratch/etc/NEW' u/out/HANOI" "mkfifo u/out/HANOI" \
        "echo mine >u/out/HANOI" "mkdir u/out/HANOI"; do
        outside
        (
            for ((n = 0; n < 200 && $(ls -d u/out 2>/dev/null | wc -l) == 0; n++)); do sleep 0.02; done
            other sh -c "$deed"
        ) &
        slow=(strace -o trace -e trace=mkdir,mkdirat -e inject=mkdir,mkdirat:delay_exit=400000)
        said=$(umask 0 && to_folder export)
        wait $!
        slow=()
        comes "export, in a folder that all may write: ${deed%% *} at the name of a file" \
            "4 write fault, pmach: u/out/HANOI: it exists already, 0, $(($(wc -l <names) - 2)), unharmed" \
            "$said, $(sed -n 2p err), $(grep -c '^HANOI' u/out/LIST), $(tail -n +2 u/out/LIST | wc -l), $(unharmed && echo unharmed)"
    done

    # Killed at each call that opens or writes a file: if LIST has bytes, the folder has all files, each of them whole.
    "$pmach" files --image base export whole
    for command in export salvage; do
        early=0 wrong=0
        for call in openat write fsync close; do
            for ((n = 1; n < 99; n++)); do
                rm -rf u
                mkdir u
                slow=(strace -o trace -e "trace=$call" -e "inject=$call:signal=KILL:when=$n")
                said=$(to_folder $command 2>/dev/null)
                slow=()
                [ "${said%% *}" != 0 ] || break
                early=$((early + 1))
                [ ! -s u/out/LIST ] || diff -rq -x LIST whole u/out >/dev/null || wrong=$((wrong + 1))
            done
        done
        comes "$command, killed at $early calls: LIST with a file that is missing or cut" 0 "$wrong"
    done
fi

# No folder by number, a parent that may not be written, and paths at which something exists.
if has "a new folder without /proc" unshare; then
    for command in export salvage; do
        outside
        slow=(unshare -m sh -c 'mount -t tmpfs none /proc && exec "$@"' sh)
        said=$(to_folder $command)
        slow=()
        comes "$command without /proc: no file, and no other folder" "4 write fault, 0, unharmed" \
            "$said, $(ls -A u/out | wc -l), $(unharmed && echo unharmed)"
    done
fi
outside
chmod 755 . etc
said=$(within 9 setpriv --reuid 1234 --regid 1234 --clear-groups "$pmach" files --image base export etc/out)
comes "export into a folder that the user may not write" "4 write fault, unharmed" "$said, $(unharmed && echo unharmed)"
said=$(within 9 setpriv --reuid 1234 --regid 1234 --clear-groups "$pmach" files --image base salvage etc/out/)
comes "salvage into a folder that the user may not write" "4 write fault, unharmed" "$said, $(unharmed && echo unharmed)"
for deed in "mkdir u/out" "echo mine >u/out" "mkfifo u/out" "ln -s ../etc u/out" "ln -s ../etc/none u/out"; do
    for command in export salvage; do
        outside
        sh -c "$deed"
        before=$(ls -lR u etc | cksum)
        said=$(to_folder $command)
        comes "$command, after: $deed" "refused, same" \
            "$([[ $said = "1 error: the folder for the files exists"* || $said = "4 write fault" ]] && echo refused || echo "$said"), $([ "$(ls -lR u etc | cksum)" = "$before" ] && echo same)"
    done
done

# A directory of pages with links, pipes or a mark of somebody else is refused, and nothing is written through it.
if has "pages through links" python3; then
    for what in "ln -s ../secret u/index.html" "ln secret u/index.html" "mkfifo u/index.html" "mkdir u/index.html"; do
        rm -rf u
        mkdir u
        echo "root file" >secret
        $what
        : >u/.pmach-site
        chown -hR 1234:1234 u
        chown 0:0 secret
        said=$(within 60 "$here/examples/site/site.sh" base u)
        comes "site.sh, the directory of another user with: $what" "1, root file" "${said%% *}, $(cat secret)"
    done
    for what in "ln -s ../secret u/.pmach-site" "mkfifo u/.pmach-site" "mkdir u/.pmach-site"; do
        rm -rf u
        mkdir u
        echo "root file" >secret
        $what
        said=$(within 60 "$here/examples/site/site.sh" base u)
        comes "site.sh, a mark that is no regular file: $what" "1, root file" "${said%% *}, $(cat secret)"
    done
    rm -rf u
    "$here/examples/site/site.sh" base u >/dev/null
    ln -sf ../secret u/index.html
    said=$(within 60 "$here/examples/site/site.sh" base u)
    comes "site.sh replaces a link in its own directory" "0, root file, page" \
        "${said%% *}, $(cat secret), $(head -c 9 u/index.html | grep -q '<!DOCTYPE' && [ ! -L u/index.html ] && echo page)"
    echo mine >u/mine
    said=$(within 60 "$here/examples/site/site.sh" base u)
    comes "site.sh, a file of the user among the pages" "1, mine" "${said%% *}, $(cat u/mine)"
    rm u/mine
    before=$(cat u/*.html | cksum)
    for ((n = 1; n < 9; n++)); do
        (timeout -s KILL "0.$n" "$here/examples/site/site.sh" base u >/dev/null 2>&1) 2>/dev/null
    done
    comes "site.sh, killed at eight times: all pages are there" "$before" "$(cat u/*.html | cksum)"
    rm -rf u u.new-*
    "$pmach" files --image base get OK >code
    printf '\0\0' | dd of=code bs=1 seek=536 conv=notrunc 2>/dev/null
    "$pmach" files --image n.img new N 40
    "$pmach" files --image n.img put NAT.CODE code <code
    said=$(within 60 "$here/examples/site/site.sh" n.img u)
    comes "site.sh, a code file with a procedure without a table" "0, 2" "${said%% *}, $(ls u/*.html | wc -l)"
fi

# A file of a directory that import reads is exchanged all the time for a link to a file of root's.
if has "files that are exchanged" python3; then
    rm -rf fo n.img
    mkdir fo
    chown 1234:1234 fo
    echo 'TOP SECRET OF ROOT' >secret
    chmod 600 secret
    { echo "volume W 200 000-00-00" && for ((n = 1; n <= 60; n++)); do printf 'A\tF%d\tdata\t000-00-00\tbytes\t%d\n' $n $n; done; } >fo/LIST
    cat >exchange.py <<'END'
import ctypes, os
os.chdir("fo")
open("A", "w").write("plain\n")
os.symlink("../secret", "S")
call = ctypes.CDLL(None).renameat2
while True:
    call(-100, b"A", -100, b"S", 2)
END
    "$pmach" files --image n.img new W 200
    setpriv --reuid 1234 --regid 1234 --clear-groups "$python" exchange.py &
    for ((try = 0; try < 20; try++)); do
        "$pmach" files --image n.img new W 200
        within 60 "$pmach" files --image n.img import fo >/dev/null
        grep -aq 'TOP SECRET' n.img && break
    done
    { kill $! && wait $!; } 2>/dev/null
    comes "import reads no file of root's through a link, 20 times" "20, 0" "$try, $(grep -ac 'TOP SECRET' n.img)"
    rm -rf fo
    mkdir fo
    mkfifo fo/A
    printf 'volume W 60 000-00-00\nA\tA\tdata\t000-00-00\tbytes\t1\n' >fo/LIST
    said=$(within 9 "$pmach" files --image n.img import fo)
    comes "import, a pipe in place of a file" "4 read fault" "$said"
    echo x >fo/B
    printf 'volume W 60 000-00-00\nB\tB%%00C\tdata\t000-00-00\tbytes\t1\n' >fo/LIST
    said=$(within 9 "$pmach" files --image n.img import fo)
    comes "import, a name with byte 0" "2 refused import 1, 0" "$said, $("$pmach" files --image n.img list | grep -c '^B ')"
    mkfifo fifo
    rm fo/LIST
    ln -s ../fifo fo/LIST
    said=$(within 9 "$pmach" files --image n.img import fo)
    comes "import, a link to a pipe in place of LIST" "4 read fault" "$said"
    rm fo/LIST
    mkfifo fo/LIST
    said=$(within 9 "$pmach" files --image n.img import fo)
    comes "import, a pipe in place of LIST" "4 read fault" "$said"
    said=$(within 9 "$pmach" files --image n.img import fifo)
    comes "import, a pipe in place of the folder" "4 read fault" "$said"
    rm fifo
fi

# No temporary directory, and a device that is full: nothing is written elsewhere, and no file is cut with status 0.
before=$(ls -A / | cksum)
rm -rf fo new
"$pmach" files --image base export fo
"$pmach" files --image n.img new W 200
for words in "convert base" "convert base new" "files --image n.img import fo"; do
    # shellcheck disable=SC2086 # several words
    said=$(TMPDIR=$scratch/none within 9 "$pmach" $words)
    comes "$words without a temporary directory" "0, same" "${said%% *}, $([ "$(ls -A / | cksum)" = "$before" ] && echo same)"
done
comes "and the new files are whole" "$(cksum <base), same" \
    "$(cksum <new), $(cmp -s <("$pmach" files --image n.img list | cut -c1-20 | sed '1d;$d') <("$pmach" files --image base list | cut -c1-20 | sed '1d;$d') && echo same)"
mkdir -p tm
if mount -t tmpfs -o size=880k tmpfs tm 2>/dev/null; then
    mounted=$scratch/tm
    "$pmach" files --image v.po new V 280
    "$here/examples/dos-order.sh" <v.po >v.dsk
    cut=0
    for size in 20 60 100 120 136 140 144 160 200 400; do
        mount -o "remount,size=${size}k" tm
        within 30 "$pmach" convert --back v.dsk v.po tm/NEW >said
        # (with status 0 the new file is whole; else there is none, and no other file)
        case $(cut -d' ' -f1 said) in
            0) [ "$(stat -c %s tm/NEW)" = 143360 ] && [ "$(ls -A tm)" = NEW ] ;;
            4) [ -z "$(ls -A tm)" ] ;;
            *) false ;;
        esac || cut=$((cut + 1))
        rm -rf tm/*
    done
    comes "convert --back with ten sizes of a full device: files cut, or other files left" 0 "$cut"
    cut=0
    for size in 20 60 100 120 136 140 144 160 200 400; do
        mount -o "remount,size=1m" tm
        "$pmach" files --image tm/i.img new I 60
        old=$(cksum <tm/i.img)
        mount -o "remount,size=${size}k" tm 2>/dev/null
        within 30 "$pmach" files --image tm/i.img import fo >said
        case $(cut -d' ' -f1 said) in
            0) [ "$("$pmach" files --image tm/i.img list | wc -l)" = $((1 + $(wc -l <fo/LIST))) ] ;;
            4) [ "$(cksum <tm/i.img)" = "$old" ] ;;
            *) false ;;
        esac && [ "$(ls -A tm)" = i.img ] || cut=$((cut + 1))
        rm -rf tm/*
    done
    comes "import with ten sizes of a full device: images that are neither the old one nor the new one" 0 "$cut"
    "$pmach" files --image t.img new T 1000
    awk 'BEGIN { for (n = 0; n < 20000; n++) print "                    line" n }' | "$pmach" files --image t.img puttext A.TEXT
    echo small | "$pmach" files --image t.img put B data
    cut=0
    for size in 300 400 500 600 700 800 900; do
        mount -o "remount,size=${size}k" tm
        within 30 "$pmach" files --image t.img export --text tm/out >said
        # (what could not be written is named and is not there, and LIST, if there is space for it, has the others)
        case $(cut -d' ' -f1 said) in
            0) [ "$(grep -c . tm/out/A.TEXT)" = 20000 ] && [ "$(wc -l <tm/out/LIST)" = 3 ] ;;
            4)
                for name in A.TEXT B LIST; do
                    [ -e "tm/out/$name" ] && grep -q "^pmach: tm/out/$name: " err && break
                    [ -e "tm/out/$name" ] || [ ! -e tm/out ] || grep -q "^pmach: tm/out/$name: no space left" err || break
                done && { [ ! -e tm/out/A.TEXT ] || [ "$(grep -c . tm/out/A.TEXT)" = 20000 ]; } &&
                    { [ ! -e tm/out/LIST ] || [ "$(tail -n +2 tm/out/LIST | cut -f 1)" = "$(LC_ALL=C ls tm/out | grep -vx LIST)" ]; }
                ;;
            *) false ;;
        esac || cut=$((cut + 1))
        rm -rf tm/*
    done
    comes "export --text with seven sizes of a full device: files cut, or LIST wrong" 0 "$cut"
    umount tm
    mounted=
else
    echo "left out: full devices: no mount"
    left=$((left + 1))
fi

# `bash pmach` runs the program of the PATH, and nothing of a stranger's directory.
rm -rf stranger
mkdir -p stranger/crates/pmach/out stranger/script
printf '#!/bin/sh\necho stranger\n' >stranger/crates/pmach/out/pmach
chmod 755 stranger/crates/pmach/out/pmach
"$here/pmach" --version >/dev/null 2>&1 # the first use builds the program, and reports how far it is
said=$(cd stranger && PATH=$(dirname "$(readlink -f "$here/pmach")"):$PATH bash pmach --version 2>&1)
comes "bash pmach in a stranger's directory" pmach "${said%% *}"

# Control characters of a text do not reach a terminal, and those of a path do not in the question before `new`.
if has "control characters on a terminal" python3; then
    rm -f t.img
    "$pmach" files --image t.img new T 50
    printf 'A\033]0;EVIL\007B\tC\n\302\233X\n' | "$pmach" files --image t.img puttext T.TEXT
    said=$(python3 -c 'import pty, sys; pty.spawn(sys.argv[1:])' "$pmach" files --image t.img gettext T.TEXT </dev/null | od -An -c | tr -s ' ' | tr -d '\n')
    comes "gettext on a terminal" ' A ? ] 0 ; E V I L ? B \t C \r \n 302 ? X \r \n' "$said"
    said=$("$pmach" files --image t.img gettext T.TEXT | od -An -c | tr -s ' ' | tr -d '\n')
    comes "gettext in a pipe" ' A 033 ] 0 ; E V I L \a B \t C \n 302 233 X \n' "$said"
    path=$(printf 'a\302\2330m\033b')
    cp t.img "$path"
    said=$(echo n | "$here/script/ask.sh" files --image "$path" new X 50 2>&1 | LC_ALL=C grep -c $'[\233\033]')
    comes "a path with control characters in the question before new" 0 "$said"
fi

# Entries that share all blocks of an image: the copies have at most 65,535 blocks, and with more no folder is created.
if has "entries that share all blocks" python3; then
    for blocks in 200 1000; do
        rm -rf shared.img shared
        python3 - $blocks <<'PY'
import struct, sys
blocks = int(sys.argv[1])
image = bytearray(512 * blocks)
entries = struct.pack("<HHHB7sHHHH4x", 0, 6, 0, 1, b"S", blocks, 77, 0, 0)
for n in range(77):
    name = b"F%d" % n
    entries += struct.pack("<HHHB15sHH", 6, blocks, 3, len(name), name, 512, 0)
image[1024:1024 + len(entries)] = entries
open("shared.img", "wb").write(image)
PY
        said=$(within 60 "$pmach" files --image shared.img salvage shared/)
        if [ $blocks = 200 ]; then
            comes "salvage of 77 entries over all 200 blocks, to a folder" "0 , $((77 * 194 * 512))" "$said, $(cat shared/F* | wc -c)"
        else
            comes "salvage of 77 entries over all 1000 blocks, to a folder" "2 refused volume 7, none" \
                "$said, $([ -e shared ] && echo made || echo none)"
        fi
    done
fi

# A signal leaves no file in the temporary directory.
for signal in TERM HUP INT; do
    for script in dos-order.sh system/disk.sh; do
        rm -rf tmp pipe
        mkdir tmp
        mkfifo pipe
        (exec 9<>pipe && TMPDIR=$PWD/tmp timeout -s $signal 0.5 "$here/examples/$script" $([ $script = dos-order.sh ] || echo ended.img) <pipe) >/dev/null 2>&1
        comes "$script ended by $signal: files left" 0 "$(find tmp -type f | wc -l)"
    done
done

# A small code file does not make `dis` use hundreds of megabytes: 250 procedures that share 60,000 bytes, in 16 slots.
if has "the memory of dis" python3; then
    python3 - <<'PY'
import struct
size, count = 65530, 250
code = bytearray([0xD7] * size)
code[size - 2:] = bytes([1, count])
places = [size - 14 - 2 * count - 12 * k for k in range(count)]
for k, place in enumerate(places):
    code[place:place + 2] = bytes([k % 250 + 1, 0])
    struct.pack_into("<HHHH", code, place - 8, 0, 0, place - 4 - (places[-1] - 20), place - 2)
    struct.pack_into("<H", code, size - 4 - 2 * k, size - 4 - 2 * k - place)
head = bytearray(512)
for slot in range(16):
    struct.pack_into("<HH", head, 4 * slot, 1, size)
    head[64 + 8 * slot:72 + 8 * slot] = b"HOSTILE "
open("hostile.code", "wb").write(head + code)
PY
    for option in '' --names --list --statements --blocks; do
        # shellcheck disable=SC2086 # an option or none
        said=$(python3 - "$pmach" $option <<'PY'
import resource, subprocess, sys
run = subprocess.Popen(["timeout", "20", sys.argv[1], "dis", *sys.argv[2:], "hostile.code"], stdout=subprocess.PIPE)
for _ in range(200):
    if not run.stdout.read(65536):
        break
run.kill()
run.wait()
print("less" if resource.getrusage(resource.RUSAGE_CHILDREN).ru_maxrss < 65536 else resource.getrusage(resource.RUSAGE_CHILDREN).ru_maxrss)
PY
        )
        comes "dis $option of a hostile code file: less than 64 MB" less "$said"
    done
fi

# The reader of a small listing ends early: the whole listing fits into the pipe, so that `dis` has written it by then.
"$pmach" asm "$here/examples/hanoi.text" -o small.code
for option in '' --names --list --statements --indent --blocks; do
    # shellcheck disable=SC2086 # an option or none
    said=$("$pmach" dis $option small.code 2>err | head -1 | wc -l)
    comes "dis $option of a small file into head -1: lines, and messages" "1, " "$said, $(cat err)"
done

# LIST with hostile names: each line is refused or cannot be read, nothing outside the folder is read, and the message has
# no control character.
rm -rf fo n.img
mkdir -p fo/sub
echo 'TOP SECRET OF ROOT' >secret
cp secret fo/sub/S
echo hi >fo/A
ln -s "$scratch/secret" fo/LINK
mkfifo fo/PIPE
mknod fo/ZERO c 1 5
mknod fo/NULL c 1 3
mknod fo/DISK b 7 0
python3 -c 'import socket; socket.socket(socket.AF_UNIX).bind("fo/SOCKET")'
long=$(head -c 5000 /dev/zero | tr '\0' x)
{
    echo 'volume W 60 000-00-00'
    for name in .. . ../secret sub/S "$scratch/secret" /proc/self/fd/0 fo/../../secret LINK PIPE ZERO NULL DISK SOCKET sub "$long" \
        "${long:0:256}" '' ' ' '$(id>PWN)' '`id>PWN`' '-rf' '%2e%2e' '..%2Fsecret' $'A\033]0;EVIL\007' $'A\302\233' $'A\377' $'A\r'; do
        printf '%s\tX\tdata\t000-00-00\tbytes\t1\n' "$name"
    done
    printf 'A\0B\tN\tdata\t000-00-00\tbytes\t1\n'
    for name in .. . A/B '' ABCDEFGHIJKLMNOP 'A%00' 'A%0A' '%' 'A B'; do
        printf 'A\t%s\tdata\t000-00-00\tbytes\t1\n' "$name"
    done
} >fo/LIST
for deed in import "import --dry-run"; do
    "$pmach" files --image n.img new W 60
    # shellcheck disable=SC2086 # a verb and an option
    said=$(within 60 "$pmach" files --image n.img $deed fo)
    comes "$deed of a LIST with hostile names: nothing is run, nothing outside is read, no control character" \
        "4 read fault, no PWN, 0, 0" "$said, $(ls PWN 2>/dev/null || echo no PWN), $(cat n.img err | grep -ac 'TOP SECRET'), $(tr -d '\n\t' <err | LC_ALL=C tr -cd '\000-\037\177' | wc -c)"
done
"$pmach" files --image n.img new W 60
"$pmach" files --image n.img import fo 2>/dev/null
comes "of its lines only valid names of regular files come in" ".. . A/B %" "$("$pmach" files --image n.img list | sed '1d;$d' | cut -c1-15 | xargs)"
comes "and go out under names that lead nowhere else" "%25 %2E %2E. A%2FB LIST" "$("$pmach" files --image n.img export odd && LC_ALL=C ls odd | xargs)"

# A file of the folder of any length, and a LIST that names it in each line, end within the time limit.
rm -rf fo n.img
mkdir fo
truncate -s 1T fo/A
printf 'volume W 60 000-00-00\nA\tA\tdata\t000-00-00\tbytes\t1\n' >fo/LIST
"$pmach" files --image n.img new W 60
comes "import of a file of 1 TB" "4 read fault, pmach: fo/A: more than 33,554,432 bytes" "$(within 60 "$pmach" files --image n.img import fo), $(sed -n 2p err)"
truncate -s 1T fo/LIST
comes "import of a LIST of 1 TB" "4 read fault" "$(within 60 "$pmach" files --image n.img import fo)"
truncate -s 1T long.img
comes "convert of an image of 1 TB" "4 read fault, no new" "$(within 60 "$pmach" convert long.img new1), $(ls new1 2>/dev/null || echo no new)"
for device in /dev/zero /dev/urandom; do
    comes "convert of $device" "4 read fault, no new" "$(within 60 "$pmach" convert $device new1), $(ls new1 2>/dev/null || echo no new)"
done
comes "convert of /dev/null" "2 refused convert 1" "$(within 60 "$pmach" convert /dev/null new1)"
rm -f long.img

# The folder of import, or its LIST, is exchanged all the time for one of root's.
if has "a folder that is exchanged" "${python:-python3}"; then
    cat >exchange.py <<'PY'
import ctypes, os, sys
call = ctypes.CDLL(None).renameat2
one, other = os.fsencode(sys.argv[1]), os.fsencode(sys.argv[2])
while True:
    call(-100, one, -100, other, 2)
PY
    # exchanged_all_the_time ONE OTHER COMMAND..: the command, 20 times; how often it did not end within its time
    exchanged_all_the_time() {
        other "$python" exchange.py "$1" "$2" &
        late=0
        for ((try = 0; try < 20; try++)); do
            said=$(within 60 "${@:3}")
            [ "${said%% *}" != 124 ] || late=$((late + 1))
            cat err >>all.err
            again
        done
        { kill $! && wait $!; } 2>/dev/null
    }
    for what in folder LIST "a file for a pipe"; do
        rm -rf root u n.img all.err
        mkdir -p root u/fo
        chmod 755 .
        echo 'TOP SECRET OF ROOT' | tee root/A >root/secret
        printf 'volume W 60 000-00-00\nA\tA\tdata\t000-00-00\tbytes\t1\n' | tee root/LIST >u/fo/LIST
        chmod 700 root
        echo hi >u/fo/A
        case $what in
            folder) ln -s ../root u/other && one=u/fo two=u/other ;;
            LIST) ln -s "$scratch/root/secret" u/fo/other && one=u/fo/LIST two=u/fo/other ;;
            *) mkfifo u/fo/other && one=u/fo/A two=u/fo/other ;;
        esac
        chown -hR 1234:1234 u
        "$pmach" files --image n.img new W 60
        found=0
        again() {
            grep -aq 'TOP SECRET' n.img && found=$((found + 1))
            "$pmach" files --image n.img new W 60
        }
        exchanged_all_the_time $one $two "$pmach" files --image n.img import u/fo
        comes "import, 20 times while $what is exchanged: secrets in the image, secrets in messages, late" "0, 0, 0" \
            "$found, $(grep -c 'TOP SECRET' all.err), $late"
    done
    for command in export salvage convert "salvage to a file"; do
        rm -rf etc u
        mkdir etc u
        echo "root file" >etc/HANOI
        ln -s ../etc u/other
        chown -h 1234:1234 u u/other
        harmed=0
        again() {
            [ "$(ls etc)" = HANOI ] && [ "$(cat etc/HANOI)" = "root file" ] || harmed=$((harmed + 1))
            find u etc -mindepth 1 ! -name other ! -path etc/HANOI -delete 2>/dev/null
            rm -rf u/out
        }
        case $command in
            export) exchanged_all_the_time u/out u/other "$pmach" files --image base export u/out ;;
            salvage) exchanged_all_the_time u/out u/other "$pmach" files --image base salvage u/out/ ;;
            convert) exchanged_all_the_time u/out u/other "$pmach" convert base u/out ;;
            *) exchanged_all_the_time u/out u/other "$pmach" files --image base salvage u/out ;;
        esac
        comes "$command, 20 times while the new name is exchanged for a link all the time: harmed, late" "0, 0" "$harmed, $late"
    done
fi

# Each limit on the size of files, with the signal ignored or not: nothing is cut with status 0, and the image is the old
# one or the new one.
rm -rf fo whole
"$pmach" files --image base export whole
"$pmach" files --image base export fo
for blocks in 0 1 2 3 4 8 16 20 30 39; do
    for ignored in yes no; do
        limited() {
            # (the inner shell turns the signal into a status)
            bash -c '[ "$1" = no ] || trap "" XFSZ; ulimit -c 0; ulimit -f "$0"; timeout 60 "${@:2}"; exit $?' \
                $blocks $ignored "$pmach" "$@" >/dev/null 2>&1
        }
        rm -rf ex co n.img sa
        "$pmach" files --image n.img new W 200
        old=$(cksum <n.img)
        wrong=''
        limited files --image base export ex
        status=$?
        [ $status != 0 ] || diff -rq whole ex >/dev/null || wrong="$wrong export"
        [ $ignored = no ] || for file in ex/*; do cmp -s "$file" "whole/${file##*/}" || [ "$file" = ex/LIST ] || [ "$file" = 'ex/*' ] || wrong="$wrong $file"; done
        [ ! -s ex/LIST ] || [ "$(tail -n +2 ex/LIST | cut -f 1)" = "$(LC_ALL=C ls ex | grep -vx LIST)" ] || [ "$(tail -n +2 ex/LIST | wc -l)" = "$(ls ex | grep -cvx LIST)" ] || wrong="$wrong LIST"
        limited convert base co
        status=$?
        if [ -e co ]; then cmp -s base co || wrong="$wrong convert"; elif [ $status = 0 ]; then wrong="$wrong no-convert"; fi
        limited files --image base salvage sa
        status=$?
        if [ $status = 0 ]; then "$pmach" files --image sa list >/dev/null 2>&1 || wrong="$wrong salvage"; else [ ! -e sa ] || wrong="$wrong salvage-left"; fi
        limited files --image n.img import fo
        status=$?
        if [ $status = 0 ]; then [ "$("$pmach" files --image n.img list | wc -l)" = $((1 + $(wc -l <fo/LIST))) ] || wrong="$wrong import"; else [ "$(cksum <n.img)" = "$old" ] || wrong="$wrong image"; fi
        [ -z "$wrong" ] || break 2
        rm -f ./*.pmach-new
    done
done
comes "ten limits on the size of files, export, convert, salvage, import" "" "$wrong"

# Folders that are sticky, append-only or on another device.
rm -rf st
mkdir st
chmod 1777 st
comes "export into a sticky folder of root, as another user" "0 , same" \
    "$(within 60 setpriv --reuid 1234 --regid 1234 --clear-groups "$pmach" files --image base export st/out), $(diff -rq whole st/out && echo same)"
: >st/image.pmach-new
cp base st/image
chmod 666 st/image
was=$(cksum <st/image)
comes "the temporary name is root's, in a sticky folder" "4 write fault, same" \
    "$(within 60 setpriv --reuid 1234 --regid 1234 --clear-groups "$pmach" files --image st/image date 84 1 1), $([ "$(cksum <st/image)" = "$was" ] && echo same)"
rm -rf ap
mkdir ap
cp base ap/image
if chattr +a ap 2>/dev/null; then
    comes "export into an append-only folder" "0 , same" "$(within 60 "$pmach" files --image base export ap/out), $(diff -rq whole ap/out && echo same)"
    comes "convert into an append-only folder: status, and whether NEW is whole" "0, same" \
        "$(said=$(within 60 "$pmach" convert base ap/new) && echo "${said%% *}"), $(cmp base ap/new && echo same)"
    comes "import into an image in an append-only folder" "0" \
        "$(said=$(within 60 "$pmach" files --image ap/image import fo) && echo "${said%% *}")"
    chattr -a ap
else
    echo "left out: append-only folders: no chattr"
    left=$((left + 1))
fi
rm -rf ap
mkdir -p tm
if mount -t tmpfs -o size=1m tmpfs tm 2>/dev/null; then
    mounted=$scratch/tm
    comes "export to another device" "0 , same" "$(within 60 "$pmach" files --image base export tm/out), $(diff -rq whole tm/out && echo same)"
    "$pmach" files --image n.img new W 200
    comes "import from another device" "0 " "$(within 60 "$pmach" files --image n.img import tm/out)"
    ln -s tm/new newlink
    comes "convert through a link to another device" "0 , same" "$(within 60 "$pmach" convert base newlink), $(cmp base tm/new && echo same)"
    umount tm
    mounted=
    rm -f newlink
    mount -t tmpfs -o size=1m,nr_inodes=4 tmpfs tm && mounted=$scratch/tm
    within 60 "$pmach" files --image base export tm/out >said
    comes "export to a device with two free files: status, and whether each missing file is named" "4, 7" "$(cut -d' ' -f1 said), $(grep -c '^pmach: tm/out/' err)"
    umount tm
    mounted=
fi

# Installation: no file outside PREFIX is removed through a link or by the list of another user, and what --install left
# when it was killed goes with --uninstall.
rm -rf p victim
mkdir -p p/lib/pmach victim
echo x >victim/passwd
ln -s ../victim p/etc
printf 'etc/passwd\nlib/pmach/installed\n' >p/lib/pmach/installed
comes "--uninstall through a link" "70, x" "$(said=$(within 60 "$here/pmach" --uninstall p); echo "${said%% *}"), $(cat victim/passwd 2>&1)"
chown -hR 1234:1234 p
comes "--uninstall by the list of another user" "1, x" "$(said=$(within 60 "$here/pmach" --uninstall p); echo "${said%% *}"), $(cat victim/passwd 2>&1)"
chown -hR 0:0 p
rm p/etc
for path in ../victim/passwd "$scratch/victim/passwd" lib/../../victim/passwd; do
    printf '%s\n' "$path" >p/lib/pmach/installed
    comes "--uninstall of the path ${path#"$scratch"}" "refused, x" \
        "$(said=$(within 60 "$here/pmach" --uninstall p); [ "${said%% *}" != 0 ] && echo refused || { [ "${path#/}" != "$path" ] && echo refused; }), $(cat victim/passwd 2>&1)"
done
rm p/lib/pmach/installed
for deed in "ln -s ../../../victim/passwd p/lib/pmach/installed" "mkfifo p/lib/pmach/installed" "mkdir p/lib/pmach/installed"; do
    $deed
    comes "--uninstall, a list that is no regular file: ${deed%% *}" "1, x" "$(said=$(within 60 "$here/pmach" --uninstall p); echo "${said%% *}"), $(cat victim/passwd 2>&1)"
    rm -rf p/lib/pmach/installed
done
rm -rf p
here_built=$(PMACH='' "$here/pmach" --version 2>/dev/null)
stays=0
for n in 1 2 3 4 5 6 7 8; do
    { timeout -s KILL "0.$n" "$here/pmach" --install p; } >/dev/null 2>&1
    [ ! -f p/lib/pmach/installed ] || "$here/pmach" --uninstall p >/dev/null 2>&1
    [ ! -e p ] || stays=$((stays + $(find p ! -type d | grep -cv 'lib/pmach/installed.new')))
    rm -rf p
done
comes "--install killed at eight times, then --uninstall: files left ($here_built)" 0 "$stays"

# Pages: without a temporary directory, on a full device, of a pipe, ended by a signal, and of hostile texts, code and programs.
if has "pages of hostile disks" python3; then
    site=$here/examples/site/site.sh
    rm -rf u pipe hostile.img
    mkfifo pipe
    comes "site.sh of a pipe" "1 site.sh: pipe is not a file, none" "$(within 60 "$site" pipe u), $(ls -d u u.new* 2>/dev/null || echo none)"
    said=$(TMPDIR=$scratch/none within 60 "$site" base u)
    comes "site.sh without the temporary directory" "0, 9" "${said%% *}, $(ls u | wc -l)"
    before=$(cat u/*.html | cksum)
    for signal in TERM HUP INT; do
        (trap - INT && exec timeout -s $signal 0.5 "$site" base u) >/dev/null 2>&1
        comes "site.sh ended by $signal: the pages, and what is left" "$before, u" "$(cat u/*.html | cksum), $(ls -d u u.new-* 2>/dev/null | xargs)"
    done
    mkdir -p tm
    if mount -t tmpfs -o size=2m tmpfs tm 2>/dev/null; then
        mounted=$scratch/tm
        wrong=0
        for size in 8 40 60 80 100 120 140 200; do
            mount -o remount,size=2m tm
            "$site" base tm/u >/dev/null
            mount -o "remount,size=${size}k" tm 2>/dev/null
            said=$(within 60 "$site" base tm/u)
            [ "$(cat tm/u/*.html | cksum) $(ls tm)" = "$before u" ] && [[ $said = [01]\ * ]] || wrong=$((wrong + 1))
            rm -rf tm/*
            said=$(within 60 "$site" base tm/u)
            case ${said%% *} in
                0) [ "$(cat tm/u/*.html | cksum) $(ls tm)" = "$before u" ] ;;
                1) [ -z "$(ls tm)" ] ;;
                *) false ;;
            esac || wrong=$((wrong + 1))
            rm -rf tm/*
        done
        umount tm
        mounted=
        comes "site.sh with eight sizes of a full device: pages cut, lost or left" 0 "$wrong"
    fi
    # work COMMAND..: its status, and whether it took less than 20 seconds of processor time and 400 MB
    work() {
        python3 - "$@" <<'PY'
import resource, subprocess, sys
status = subprocess.run(["timeout", "600", *sys.argv[1:]], stdout=subprocess.DEVNULL, stderr=subprocess.DEVNULL).returncode
used = resource.getrusage(resource.RUSAGE_CHILDREN)
time, memory = used.ru_utime + used.ru_stime, used.ru_maxrss
print(status, "within" if time < 20 and memory < 400000 else "%.1f s, %d MB" % (time, memory / 1000))
PY
    }
    # (line ends with 223 spaces each, and one line without an end)
    "$pmach" files --image hostile.img new H 400
    python3 -c 'import sys; sys.stdout.buffer.write(bytes(1024) + (b"\x10\xff\r" * 341 + b"\0") * 100)' | "$pmach" files --image hostile.img put A.TEXT text
    comes "site.sh of a text that is 75 times as long as its file" "0 within" "$(work "$site" hostile.img t)"
    printf '%s\n' ".SEG 1 LOUD" ".PROC 1 0 0 0" "again: SLDC 1" "LDCI 1024" "SLDC 0" "LDCI 30000" "SLDC 0" "SLDC 0" "CSP 6" "UJP ^0" \
        ".EXIT" "RBP 0" ".JUMP again" ".END" | "$pmach" asm >loud 2>err || cat err
    "$pmach" files --image hostile.img put LOUD code <loud
    comes "site.sh of a program that writes without an end" "0 within, 1" \
        "$(work "$site" hostile.img t --run LOUD), $(grep -c 'The first 65536 bytes' t/run.html)"
    python3 - <<'PY'
import struct
def code(equal, slots):
    size, count = 65530, 250
    segment = bytearray([0xD7] * size)
    segment[size - 2:] = bytes([1, count])
    places = [size - 14 - 2 * count - 12 * k for k in range(count)]
    for k, place in enumerate(places):
        segment[place:place + 2] = bytes([k % 250 + 1, 0])
        struct.pack_into("<HHHH", segment, place - 8, 0, 0, place - 4, place - 2)
        struct.pack_into("<H", segment, size - 4 - 2 * k, size - 4 - 2 * k - (places[0] if equal else place))
    head = bytearray(512)
    for slot in range(slots):
        struct.pack_into("<HH", head, 4 * slot, 1 + (0 if equal else slot), size - (0 if equal else 512 * slot))
        head[64 + 8 * slot:72 + 8 * slot] = b"HOSTILE "
    return head + segment
for equal in (True, False):
    for slots in (1, 16):
        open("code.%d.%d" % (equal, slots), "wb").write(code(equal, slots))
PY
    for kind in 1.1 1.16 0.1 0.16; do
        rm -rf t hostile.img
        "$pmach" files --image hostile.img new H 400
        "$pmach" files --image hostile.img put C code <code.$kind
        comes "site.sh of 64 KB of hostile code, equal tables or not and slots: $kind" "0 within" "$(work "$site" hostile.img t)"
    done
fi

echo "$passed passed, $failed failed, $left left out"
[ $failed = 0 ]
