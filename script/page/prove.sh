#!/bin/sh
# `prove.sh KIT`, in the directory of a build: `rt ci` proves the crates of its directory repository, or takes their proofs
# from its cache. Then the kit's `rattle build` proves pm_c over the proved libraries below it, and makes a static library,
# with the toolchain of the directory of the build. There `clang` is script/page/clang.
kit=$1
work=$PWD
(cd repository && rt ci) || exit
cd repository/crates/pm_c && mkdir -p out || exit
set -- build --crate-name pm_c src/lib.rt --extern "std=$kit/rlibs/std.rlib" -L "dependency=$kit/rlibs"
for crate in $(sed -n 's/^pm_c staticlib://p' "$work/crates.txt"); do
    set -- "$@" --extern "$crate=$work/repository/crates/$crate/out/rlib/$crate.rlib"
done
for crate in $(sed -n '/^pm_c[ :]/!s/[: ].*//p' "$work/crates.txt"); do
    set -- "$@" -L "dependency=$work/repository/crates/$crate/out/rlib"
done
[ "$(nproc)" -lt 4 ] && jobs=1 || jobs=2
TMPDIR=$work exec "$kit/bin/rattle" "$@" --antt-project "$kit/rattle/logic/antt-project.json" --logic-built "$kit/logic_built" \
    --jobs "$jobs" --links pm_c= --crate-type staticlib --toolchain "$work/toolchain" --backend llvm -o out/libpm_c.a
