#!/bin/sh
# Builds the C and Python examples for the library, runs them and compares their output: examples/library/try.sh
# Variables: LIBPM_C names an existing libpm_c.a (default: `rt lib` builds one, and checks every proof first). HEAP names
# liblibc_c.a of the kit (default: the one of the kit that rt belongs to). CC is the C compiler. If PMACH is set, the
# library is also compared with this program.
. "$(dirname "$(readlink -f "$0")")/../words.sh"
set -eu
here=$(dirname "$(readlink -f "$0")")
made=$(mktemp -d)
trap 'rm -rf "$made"' EXIT
cc=${CC:-cc}
if [ -z "${LIBPM_C:-}" ]; then
    (cd "$here/../../crates/pm_c" && rt lib) >&2
    LIBPM_C=$here/../../crates/pm_c/out/libpm_c.a
fi
heap=${HEAP:-$(dirname "$(readlink -f "$(command -v rt)")")/../c/liblibc_c.a}

echo "library: $LIBPM_C"

same() {
    if diff "$made/wanted" "$made/said"; then
        echo "$1: as expected"
    else
        echo "$1: NOT AS EXPECTED"
        exit 1
    fi
}

$cc -std=c99 -Wall -Wextra -Werror -O1 -I"$here" "$here/machine.c" "$LIBPM_C" "$heap" -o "$made/machine"

# ECHO executes 13 steps for each key up to the full stop, and then a NOP and a RBP.
cat >"$made/wanted" <<'END'
code 1024 as expected
OWN:
ECHO            code     6     2 512 000-00-00
files 1 free 32 largest 32
HI.
status 2 steps 41
disk the same
freed
END
"$made/machine" "$here/../echo.text" ECHO HI. >"$made/said"
same 'C, with keys'

# the moves and the number of steps are those in README.md
cat >"$made/wanted" <<'END'
code 1024 as expected
OWN:
HANOI           code     6     2 512 000-00-00
files 1 free 32 largest 32
1>3 1>2 3>2 1>3 2>1 2>3 1>3 
status 2 steps 402
disk the same
freed
END
"$made/machine" "$here/../hanoi.text" HANOI '' >"$made/said"
same 'C'

$cc -shared -o "$made/pm_c.so" -Wl,--whole-archive "$LIBPM_C" -Wl,--no-whole-archive "$heap"

# the first example in C, and in Python
cat >"$made/wanted" <<'END'
00000000 01024 65492 65492 65492 01028 65492 SLDC 2
00000001 01025 65490 65492 65492 01028 00002 SLDC 3
00000002 01026 65488 65492 65492 01028 00003 ADI
00000003 01027 65490 65492 65492 01028 00005 XIT
2: the program has ended, or the job is refused
END
$cc -std=c99 -Wall -Wextra -Werror -I"$here" "$here/first.c" "$LIBPM_C" "$heap" -o "$made/first"
"$made/first" >"$made/said"
same 'first steps in C'
python3 "$here/first.py" "$made/pm_c.so" >"$made/said"
same 'first steps in Python'

# the trace and the session are those in README.md
cat >"$made/wanted" <<'END'
2 b'refused asm 2 1'
2 b'refused code 1'
2 b'refused hex 1'
0 00000000 01024 65492 65492 65492 01028 65492 SLDC 2
00000001 01025 65490 65492 65492 01028 00002 SLDC 3
00000002 01026 65488 65492 65492 01028 00003 ADI
00000003 01027 65490 65492 65492 01028 00005 XIT
ended 4
00000000 01024 65492 65492 65492 01028 65492 SLDC 2
00000001 01025 65490 65492 65492 01028 00002 SLDC 3
00000002 01026 65488 65492 65492 01028 00003 ADI
00000003 01027 65490 65492 65492 01028 00005 XIT
ended 4
0
ok
break 1
65424 65458 65492
65458 65492 65458
1 1 0, 2 1 0, 1 1 3
15 1 0 2 1 0 RBP 0
2 1 0, ?, ''
502 ok
37 lines
16 1 65490 SLDC 3 503
0 1 0 0 2 0 2 3 0 506 0
1 1 1 0 0 0
2 1 2 0 0 4
3 1 3 0 0 8
8 the handle has no machine
404 an entry of the directory is damaged
502 not set
602 the line has an unknown mnemonic, directive or type keyword
1 14 b''
2 b'refused filer 1 11'
END
python3 "$here/machine.py" "$made/pm_c.so" >"$made/said"
same 'Python'

if [ -n "${PMACH:-}" ]; then
    python3 "$here/machine.py" "$made/pm_c.so" "$PMACH"
fi
