#!/bin/sh
# `package.sh [FOLDER]` makes two packages of the program that is built, the proved one if there is one. FOLDER is
# out/packages if it is not given.
#
#     pmach-VERSION-linux-x86_64.tar.gz   runs in the directory where it is unpacked: pmach-VERSION/bin/pmach
#     pmach_VERSION_amd64.deb             for Debian and Ubuntu: apt install ./pmach_VERSION_amd64.deb
#
# VERSION is the program's, with the date and the name of the last commit, `+changed` if files of the clone differ from it,
# and `+unproved` if the program is not proved. The bytes of a package depend only on the files and on SOURCE_DATE_EPOCH,
# by default the time of the last commit. Status 1: invalid command line; 70: the packages could not be made.
script=$(dirname "$(readlink -f "$0")")
here=$(dirname "$script")
umask 022
export LC_ALL=C TZ=UTC

fail() {
    echo "pmach: $1" >&2
    exit 70
}

[ $# -le 1 ] || { echo "pmach: --package takes at most one argument, the directory of the packages" >&2 && exit 1; }
for tool in git tar gzip dpkg-deb strip md5sum xargs; do
    command -v "$tool" >/dev/null || fail "--package requires $tool, which is not on the PATH"
done
git -C "$here" rev-parse --verify -q HEAD >/dev/null 2>&1 || fail "--package requires a git clone, whose last commit names the version"
target=${1:-$here/out/packages}
mkdir -p -- "$target" && out=$(cd -- "$target" && pwd) || fail "the directory $target cannot be created"
scratch=$(mktemp -d "${TMPDIR:-/tmp}/pmach-package.XXXXXX") || exit 70
trap 'rm -rf "$scratch"' EXIT
trap 'exit 130' INT
trap 'exit 143' HUP TERM

SOURCE_DATE_EPOCH=${SOURCE_DATE_EPOCH:-$(git -C "$here" log -1 --format=%ct)}
export SOURCE_DATE_EPOCH
usr=$scratch/deb/usr
if ! "$here/pmach" --install "$usr" >"$scratch/report" 2>&1; then
    cat "$scratch/report" >&2
    fail "the program could not be installed into the package"
fi
program=$(find "$usr/lib/pmach" -path '*proved/pmach') && state=$(basename "$(dirname "$program")")
strip --strip-unneeded -R .comment -R .note "$program" || fail "the program could not be stripped"
# A package manager installs and removes a package, so --install and its list are not in it.
rm "$usr/lib/pmach/installed" "$usr/lib/pmach/install.sh" || fail "the installation is not complete"
[ ! -f "$usr/lib/pmach/not-proved.txt" ] ||
    echo "pmach: this program was built without a proof; a failed run-time check ends it with a signal" >"$usr/lib/pmach/not-proved.txt"
[ ! -f "$usr/lib/pkgconfig/pmach.pc" ] || sed -i 's|^prefix=.*|prefix=${pcfiledir}/../..|' "$usr/lib/pkgconfig/pmach.pc"
version=$("$script/version.sh" "$("$program" --version | sed 's/.* //')")
[ "$state" = proved ] || version=$version+unproved

# archive NAME: writes the directory `usr` as an archive, in which its name is NAME, to standard output.
archive() {
    tar -C "$scratch/deb" --sort=name --format=ustar --mtime="@$SOURCE_DATE_EPOCH" --owner=0 --group=0 --numeric-owner \
        --transform "s|^usr|$1|" -cf "$scratch/tar" usr && gzip -9n <"$scratch/tar"
}
cat >"$usr/lib/pmach/packaged" <<END
pmach: this program comes from an archive: to remove it, delete the directory into which the archive was unpacked.
pmach: --install, --uninstall and --prove work only in a clone of the repository.
END
archive "pmach-$version" >"$scratch/pmach.tar.gz" || fail "tar or gzip could not make pmach-$version-linux-x86_64.tar.gz; their message is above"

# What Debian requires: compressed pages, its directory of completions for zsh, a changelog and a copyright file.
cat >"$usr/lib/pmach/packaged" <<END
pmach: this program comes from a Debian package: install and remove it with apt or dpkg, as in: apt remove pmach
pmach: --install, --uninstall and --prove work only in a clone of the repository.
END
doc=$usr/share/doc/pmach
gzip -9n "$usr/share/man/man1/pmach.1" && mv "$usr/share/zsh/site-functions" "$usr/share/zsh/vendor-completions" || fail "the pages are not complete"
author=$(git -C "$here" log -1 --format='%an <%ae>')
printf 'pmach (%s) unstable; urgency=low\n\n  * Build of commit %s.\n\n -- %s  %s\n' "$version" \
    "$(git -C "$here" rev-parse --short=8 HEAD)" "$author" "$(date -R -d "@$SOURCE_DATE_EPOCH")" | gzip -9n >"$doc/changelog.gz"
licence=$(find "$here" -maxdepth 1 \( -iname 'licen[cs]e*' -o -iname 'copying*' \) | sort | head -n 1)
{
    printf 'Format: https://www.debian.org/doc/packaging-manuals/copyright-format/1.0/\nUpstream-Name: pmach\n\n'
    printf 'Files: *\nCopyright: %s\nLicense: ' "$(git -C "$here" log --format='%ad %an' --date=format:%Y | sort -u | head -n 1)"
    if [ -n "$licence" ]; then
        echo see-below
        sed 's/^$/./; s/^/ /' "$licence"
    else
        printf 'none\n No licence has been chosen for this program yet. Until its authors choose one,\n'
        printf ' copyright law alone says who may use, copy or change it.\n'
    fi
} >"$doc/copyright"
mkdir "$scratch/deb/DEBIAN"
cat >"$scratch/deb/DEBIAN/control" <<END
Package: pmach
Version: $version
Section: misc
Priority: optional
Architecture: amd64
Maintainer: $author
Depends: libc6 (>= 2.34)
Suggests: rlwrap
Installed-Size: $(du -sk --apparent-size "$usr" | cut -f1)
Description: p-machine of UCSD Pascal version II, and its disk images
 pmach is the 16-bit stack machine of the UCSD p-System II.0 and of Apple Pascal
 1.1. It runs, traces, debugs, assembles and disassembles programs, and lists,
 reads, writes, checks and salvages disk images of the p-System.
 .
 This build of the program is $(echo "$state" | sed "s/^unproved$/not proved/").
END
(cd "$scratch/deb" && find usr -type f | sort | xargs -d '\n' md5sum) >"$scratch/md5sums" &&
    mv "$scratch/md5sums" "$scratch/deb/DEBIAN/" || fail "the checksums could not be made"
find "$scratch/deb" -depth -exec touch -h -d "@$SOURCE_DATE_EPOCH" {} +
dpkg-deb --root-owner-group -Zxz --build "$scratch/deb" "$scratch/pmach.deb" >/dev/null || fail "dpkg-deb failed"
# publish MADE NAME: copies a package into the directory, by a rename, and prints its path.
publish() {
    if ! cp "$1" "$out/$2.$$" || ! mv -f "$out/$2.$$" "$out/$2"; then
        rm -f "$out/$2.$$"
        fail "$out/$2 could not be written"
    fi
    echo "$out/$2"
}
publish "$scratch/pmach.tar.gz" "pmach-$version-linux-x86_64.tar.gz"
publish "$scratch/pmach.deb" "pmach_${version}_amd64.deb"
