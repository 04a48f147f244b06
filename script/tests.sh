#!/bin/sh
# `tests.sh [NAME ..]` runs the tests of the gate without proofs: every `#[test]` function, and every program of the gate,
# which reads its `stdin` and data/ and has to write exactly its `stdout`. All of them are one program, which is built
# first if a source is newer. Each test runs in its own process and directory. With names, only the tests run whose names
# contain one of them. `tests.sh --list` prints the names.
#
# The last line is `N passed, N failed`. Status 1: a test failed, or no test has such a name; 70: the build failed.
script=$(dirname "$(readlink -f "$0")")
here=$(dirname "$script")
program=$here/out/unproved/tests
[ -x "$program" ] && [ -z "$(find "$here/crates" -name '*.rt' -newer "$program" -print -quit)" ] || "$script/build.sh" --tests || exit
process=''
scratch=$(mktemp -d "${TMPDIR:-/tmp}/pmach-tests.XXXXXX") || exit 70
end() {
    trap '' HUP INT TERM
    [ -z "$process" ] || { kill "$process" && wait "$process"; } 2>/dev/null
    rm -rf "$scratch"
}
trap end EXIT
trap 'exit 130' INT
trap 'exit 143' HUP TERM

# The names of all tests, those that take longest first.
names() {
    { printf '%s\n' test_cases test_trials && "$program" --list | sed -n 's|: test$||p'; } | awk '!seen[$0]++'
}

# Whether a name contains one of the words; without words, true.
is_wanted() {
    tested=$1
    shift
    [ $# != 0 ] || return 0
    for word; do
        case $tested in *"$word"*) return 0 ;; esac
    done
    return 1
}

# Splits the scripts of test_trials, which take longest, into parts of $scratch/trials that can run at the same time. A part
# begins at a line `disk`, which removes all files: in large.trial, where a few lines take up to 17 s, at each of them. It
# repeats the setting `terminal`, which is not a file. The scripts are `stdin` and, after it, those that its last lines name.
split_trials() {
    mkdir "$scratch/trials" && (cd "$here/crates/test_trials" && awk -v folder="$scratch/trials" '
        BEGIN { terminal = "terminal off" }
        FNR == 1 || $0 == "disk" && size > (FILENAME ~ /large/ ? 0 : 40000) {
            if (file) close(file)
            file = sprintf("%s/%02d", folder, ++count)
            size = 0
            print terminal >file
        }
        $1 == "script" { ARGV[ARGC++] = "data/" $2; next }
        $1 == "terminal" { terminal = $0 }
        { print >file; size += length($0) + ($1 == "include" ? 5000 : 0) }' stdin)
}

# What the parts of test_trials wrote, as one process would have written it: the counts at their ends are added.
join_trials() {
    for part in "$scratch/trials"/*; do cat "$scratch/test_trials.${part##*/}.out"; done | awk '
        /^command lines: [0-9]+$/ { count += $3; next }
        /^test result: ok$/ || /^$/ { next }
        { print }
        END { printf "command lines: %d\n\ntest result: ok\n", count }'
}

if [ "${1-}" = --list ]; then
    names
    exit
fi
names >"$scratch/names" || exit 70
for word; do
    grep -qF -- "$word" "$scratch/names" && continue
    echo "pmach: no test has '$word' in its name; list all names with: pmach --test --list" >&2
    exit 1
done
mkdir "$scratch/bin" "$scratch/rooms" && cp "$program" "$scratch/bin/tests" && split_trials &&
    chmod 755 "$scratch" "$scratch/bin" "$scratch/rooms" || exit 70
while IFS= read -r name; do
    is_wanted "$name" "$@" || continue
    if [ "$name" = test_trials ]; then
        # (the last parts, of data/, take longest)
        for part in "$scratch/trials"/*; do echo "test_trials ${part##*/}"; done | sort -r
    else
        echo "$name"
    fi
done <"$scratch/names" >"$scratch/jobs"
# As in the gate, root runs them as nobody: in some cases a file may not be read.
nobody=''
[ "$(id -u)" != 0 ] || nobody='setpriv --reuid=65534 --regid=65534 --clear-groups --no-new-privs'
export here scratch nobody
timeout 0 xargs -P "$(nproc)" -L 1 "$script/one_test.sh" <"$scratch/jobs" &
process=$!
wait "$process"
process=''
if is_wanted test_trials "$@" && grep -q . "$scratch/trials.said" 2>/dev/null; then
    join_trials >"$scratch/test_trials.out"
    "$script/one_test.sh" --judge test_trials "$(awk '{ sum += $2 } END { print sum }' "$scratch/trials.said")" || exit 70
fi
failed=$(grep -c '^FAILED ' "$scratch/said")
echo "$(grep -c '^ok ' "$scratch/said") passed, $failed failed"
[ "$failed" = 0 ]
