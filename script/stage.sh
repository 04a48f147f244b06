#!/bin/sh
# `stage.sh DIRECTORY` makes one crate of all tests of the gate, each of their crates a module of it: of each program of
# the gate except pmach, and of each crate with `#[test]` functions. Its tests are the `#[test]` functions of these crates,
# and for each program a test with the name of its crate that does what the program does. The file `line` is its line of
# crates.txt.
script=$(dirname "$(readlink -f "$0")")
here=$(dirname "$script")
folder=$1
mkdir -p "$folder/src" || exit
programs=$(cd "$here/crates" && ls -d -- */src/main.rt | sed 's|/.*||; /^pmach$/d') || exit
tested=$(cd "$here/crates" && grep -rl --include='*.rt' '^ *#\[test\]' . | sed 's|^./||; s|/.*||' | sort -u) || exit
crates=$(printf '%s\n' $programs $tested | sort -u)

for crate in $crates; do
    mkdir "$folder/src/the_$crate" || exit
    (cd "$here/crates/$crate/src" && find . -name '*.rt') | while IFS= read -r file; do
        case $file in
            ./main.rt | ./lib.rt) to=$folder/src/the_$crate.rt ;;
            *) to=$folder/src/the_$crate/$file && mkdir -p "${to%/*}" ;;
        esac
        # Paths from the root of the crate get the name of its module, except those of definitions and lemmas.
        sed -e '/^#!\[tactic(auto)\]$/d' -e "s/\([^a-z_]\)crate::/\1crate::the_$crate::/g" \
            -e "s/crate::the_$crate::\(proofs\|specs\)::/crate::\1::/g" -e 's/^fn main(/pub fn main(/' \
            "$here/crates/$crate/src/$file" >"$to" || exit
    done || exit
done
{
    echo '#![tactic(auto)]'
    for crate in $crates; do echo "mod the_$crate;"; done
    for crate in $programs; do
        printf '#[test]\nfn %s(rt: HostRuntime) -> std::io::Result<()> {\n    the_%s::main(rt)\n}\n' "$crate" "$crate"
    done
} >"$folder/src/lib.rt" || exit
uses=$(for crate in $crates; do sed -n "s/^$crate\( staticlib\)\{0,1\}: *//p" "$here/crates.txt"; done | tr ' ' '\n' | sort -u)
echo "tests:" $uses >"$folder/line"
