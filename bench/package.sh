#!/bin/bash
# `package.sh CLONE [DEBIAN]` tries the packages that `pmach --package` makes in a clone where the program is built: the same
# bytes from a second clone at another path, the archive where it is unpacked, the Debian package in a new Debian (the
# directory DEBIAN, made by debootstrap; as root), and lintian if it is installed. Run manually; not part of the gate. The
# clone must have no uncommitted changes.
clone=$(readlink -f "$1") debian=${2:-}
scratch=$(mktemp -d)
trap 'rm -rf "$scratch"' EXIT
passed=0
failed=0

# result NAME STATUS: the test passed if the status is 0
result() {
    if [ "$2" = 0 ]; then
        passed=$((passed + 1)) && echo "passed: $1"
    else
        failed=$((failed + 1)) && echo "FAILED: $1"
    fi
}

"$clone/pmach" --package "$scratch/a directory" >"$scratch/names" 2>"$scratch/err"
[ $? = 0 ] && [ ! -s "$scratch/err" ] && [ "$(wc -l <"$scratch/names")" = 2 ] && [ "$(ls "$scratch/a directory" | wc -l)" = 2 ]
result "--package prints the paths of two packages" $?
archive=$(sed -n 1p "$scratch/names") package=$(sed -n 2p "$scratch/names")
state=unproved
[ ! -x "$clone/crates/pmach/out/pmach" ] || state=proved
case $archive in *+unproved*) [ "$state" = unproved ] ;; *) [ "$state" = proved ] ;; esac
result "their version says whether the program is proved" $?

# a second clone at another path, with the same program
git clone -q "$clone" "$scratch/second/clone" 2>/dev/null
for made in crates/pmach/out/pmach out/unproved/pmach; do
    [ ! -x "$clone/$made" ] || { mkdir -p "$scratch/second/clone/$(dirname $made)" && cp "$clone/$made" "$scratch/second/clone/$made"; }
done
(cd / && umask 077 && TZ=Asia/Tokyo "$scratch/second/clone/pmach" --package "$scratch/other" >/dev/null 2>&1)
cmp -s "$archive" "$scratch/other/$(basename "$archive")" && cmp -s "$package" "$scratch/other/$(basename "$package")"
result "a second clone at another path gives the same bytes" $?

# the archive, where it is unpacked
mkdir "$scratch/unpacked" && tar -C "$scratch/unpacked" -xzf "$archive"
front=$(echo "$scratch/unpacked"/*/bin/pmach)
[ "$(echo 02 03 82 D6 | env -i PATH=/usr/bin:/bin "$front" raw 2>&1 | tail -n 1)" = "ended 4" ]
result "the archive's program runs where it is unpacked" $?
for option in --prove --install --uninstall; do
    env -i PATH=/usr/bin:/bin "$front" $option "$scratch/prefix" >"$scratch/out" 2>"$scratch/err"
    [ $? = 70 ] && [ ! -s "$scratch/out" ] && grep -q "delete the directory" "$scratch/err" && [ ! -e "$scratch/prefix" ]
    result "$option of the unpacked program says what removes it" $?
done
for option in --test --package --library --page; do
    env -i PATH=/usr/bin:/bin "$front" $option >"$scratch/out" 2>"$scratch/err"
    [ $? = 70 ] && [ ! -s "$scratch/out" ] && grep -q "only in a clone" "$scratch/err"
    result "$option of the unpacked program says that it needs a clone" $?
done

# refusals
"$clone/pmach" --package one two >"$scratch/out" 2>"$scratch/err"
[ $? = 1 ] && [ ! -s "$scratch/out" ] && grep -q "at most one argument" "$scratch/err"
result "two arguments: status 1" $?
: >"$scratch/file"
"$clone/pmach" --package "$scratch/file" >"$scratch/out" 2>"$scratch/err"
[ $? = 70 ] && [ ! -s "$scratch/out" ]
result "a file in place of the directory: status 70" $?
mkdir "$scratch/bin" && for tool in sh bash dirname readlink git tar gzip strip md5sum xargs mkdir mktemp rm cat; do ln -s "$(command -v $tool)" "$scratch/bin/"; done
PATH=$scratch/bin "$clone/pmach" --package "$scratch/none" >"$scratch/out" 2>"$scratch/err"
[ $? = 70 ] && [ "$(wc -l <"$scratch/err")" = 1 ] && grep -q "requires dpkg-deb" "$scratch/err" && [ ! -e "$scratch/none" ]
result "a tool that is missing is named" $?

if command -v lintian >/dev/null; then
    lintian --no-tag-display-limit --allow-root "$package" >"$scratch/lintian" 2>&1
    ! grep -q '^[EW]:' "$scratch/lintian"
    result "lintian has no error and no warning" $?
    grep '^[EW]:' "$scratch/lintian"
fi

if [ -n "$debian" ] && [ "$(id -u)" = 0 ]; then
    (cd "$debian" && find . -xdev ! -path './proc/*' ! -path './sys/*' ! -path './var/*' ! -path './tmp/*' | sort) >"$scratch/before"
    cp "$package" "$debian/tmp/pmach.deb"
    chroot "$debian" dpkg -i /tmp/pmach.deb >"$scratch/log" 2>&1
    result "dpkg installs the package in a new Debian" $?
    chroot "$debian" sh -c 'echo 02 03 82 D6 | pmach raw' >"$scratch/out" 2>&1
    [ "$(tail -n 1 "$scratch/out")" = "ended 4" ]
    result "the program runs there" $?
    chroot "$debian" pmach --version >"$scratch/out" 2>&1
    case $state in proved) grep -qx "pmach [0-9.]* (proved)" "$scratch/out" ;; *) grep -qx "pmach [0-9.]* (not proved)" "$scratch/out" ;; esac
    result "--version says whether it is proved" $?
    chroot "$debian" pmach --uninstall /usr >"$scratch/out" 2>"$scratch/err"
    [ $? = 70 ] && grep -q "apt remove pmach" "$scratch/err" && [ -x "$debian/usr/bin/pmach" ]
    result "--uninstall names the package manager, and removes nothing" $?
    chroot "$debian" sh -c 'cp -r /usr/share/doc/pmach/examples /tmp/examples && cd /tmp && /usr/share/doc/pmach/examples/disk.sh kept.img && pmach run --d4 kept.img HANOI' >"$scratch/out" 2>&1
    grep -q "ended 402" "$scratch/out"
    result "an example makes a disk, and its program runs" $?
    chroot "$debian" sh -c 'rm -rf /tmp/examples /tmp/kept.img'
    [ -z "$(chroot "$debian" dpkg -V pmach)" ]
    result "dpkg finds every file as it was packed" $?
    chroot "$debian" dpkg -r pmach >"$scratch/log" 2>&1
    (cd "$debian" && find . -xdev ! -path './proc/*' ! -path './sys/*' ! -path './var/*' ! -path './tmp/*' | sort) >"$scratch/after"
    cmp -s "$scratch/before" "$scratch/after"
    result "after its removal no file is left" $?
fi

echo "$passed passed, $failed failed"
[ "$failed" = 0 ]
