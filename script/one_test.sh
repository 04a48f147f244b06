#!/bin/sh
# shellcheck disable=SC2154 # tests.sh exports them
# Runs one test for tests.sh, which exports `here`, `scratch` and `nobody`:
#
#     one_test.sh NAME                     runs a test, compares what it wrote with its `stdout`, and reports it
#     one_test.sh test_trials PART         runs one part of the scripts of test_trials
#     one_test.sh --judge NAME SECONDS     compares and reports a test whose parts have run
#
# A report is a line `ok NAME` or `FAILED NAME` with the reason, which `$scratch/said` collects too.

# report STATUS SECONDS: compares what `name` wrote with what it has to write, after which the program reports its result.
report() {
    { [ ! -f "$here/crates/$name/stdout" ] || cat "$here/crates/$name/stdout"; printf '\ntest result: ok\n'; } >"$scratch/$name.wanted"
    if [ "$1" = 0 ] && cmp -s "$scratch/$name.out" "$scratch/$name.wanted"; then
        echo "ok $name ($2 s)" | tee -a "$scratch/said"
        return
    fi
    {
        echo "FAILED $name: status $1 $(tail -n 1 "$scratch/$name.err" 2>/dev/null)"
        diff "$scratch/$name.wanted" "$scratch/$name.out" | head -n 10 | sed 's/^/    /'
    } | tee -a "$scratch/said"
}

if [ "$1" = --judge ]; then
    name=$2
    cat "$scratch/trials.failed" >"$scratch/$name.err" 2>/dev/null
    status=0
    [ ! -s "$scratch/trials.failed" ] || status=1
    report "$status" "$3"
    exit
fi
name=$1 part=${2-}
label=$name${part:+.$part} crate=$here/crates/$name room=$scratch/rooms/$name${part:+.$part}
mkdir "$room" || exit
[ ! -d "$crate/data" ] || cp -R "$crate/data/." "$room/" || exit
given=/dev/null
[ ! -f "$crate/stdin" ] || given=$crate/stdin
[ -z "$part" ] || given=$scratch/trials/$part
[ -z "$nobody" ] || chown -R 65534:65534 "$room"
began=$(date +%s)
(cd "$room" && umask 022 && exec timeout 600 $nobody "$scratch/bin/tests" "$name" <"$given" >"$scratch/$label.out" 2>"$scratch/$label.err")
status=$?
seconds=$(($(date +%s) - began))
if [ -z "$part" ]; then
    report "$status" "$seconds"
else
    echo "$part $seconds" >>"$scratch/trials.said"
    [ "$status" = 0 ] || echo "part $part: status $status $(tail -n 1 "$scratch/$label.err")" >>"$scratch/trials.failed"
fi
rm -rf "$room"
