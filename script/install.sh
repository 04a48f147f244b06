#!/bin/sh
# `install.sh --install PREFIX` installs the program (the proved one if it has been built), the scripts of this folder, the
# man page, the completions, the examples and the pages below PREFIX, where they need no clone. Each file is put in place
# by a rename. If the library has been built, proved or not, it is installed too, with its header and a file for
# pkg-config, and so is the page for a browser, the proved one if it has been built. `install.sh --uninstall PREFIX` removes these files and no others.
# PREFIX/lib/pmach/installed lists them.
# Status 1: invalid command line, or a file exists that --install did not install; nothing was changed. Status 70: failed.
script=$(dirname "$(readlink -f "$0")")
here=$(dirname "$script")
umask 022
export LC_ALL=C

# stop STATUS TEXT..: prints the reason and ends.
stop() {
    status=$1
    shift
    echo "pmach: $*" >&2
    exit "$status"
}

# All files that are copied: each with its source and its path below PREFIX.
files() {
    echo "pmach bin/pmach"
    for part in ask console debugger files install resume watched words; do
        echo "script/$part.sh lib/pmach/$part.sh"
    done
    echo "$program lib/pmach/$which/pmach"
    [ -z "$library" ] || echo "examples/library/pmach.h include/pmach.h"
    page=out/proved/pmach.html
    [ -f "$here/$page" ] || page=out/unproved/pmach.html
    [ ! -f "$here/$page" ] || echo "$page share/doc/pmach/pmach.html"
    (cd "$here" && find share -type f) | sed 's/.*/& &/'
    (cd "$here" && find README.md INDEX.md docs examples -type f ! -name '*.pyc') | sed 's|.*|& share/doc/pmach/&|'
}

# The files that are generated: the sentence for an unproved program, the link by which the examples find the program, and
# the library with its file for pkg-config.
others() {
    [ "$which" = proved ] || echo lib/pmach/not-proved.txt
    echo share/doc/pmach/pmach
    [ -z "$library" ] || printf '%s\n' lib/libpm_c.a lib/pkgconfig/pmach.pc
}

# The folders above the paths on standard input, parents first.
folders() {
    while IFS= read -r path; do
        while [ "${path%/*}" != "$path" ]; do
            path=${path%/*}
            echo "$path"
        done
    done | sort -u
}

# The first path of the list that exists and was not installed by an earlier --install.
in_the_way() {
    while IFS= read -r path; do
        [ -e "$prefix/$path" ] || [ -L "$prefix/$path" ] || continue
        grep -qxF "$path" "$list" 2>/dev/null || { echo "$path" && return; }
    done <"$scratch/new"
}

# put TARGET COMMAND..: the command writes a temporary file next to the target, which then replaces the target.
put() {
    target=$prefix/$1
    shift
    "$@" "$target.new$$" && mv -fT "$target.new$$" "$target" && return
    rm -f "$target.new$$"
    stop 70 "cannot write $target; 'pmach --uninstall $prefix' removes what was installed"
}

# parent PATH: the folder of a path, from the root and without links; nothing if there is no such folder.
parent() { (cd -P "$(dirname "$prefix/$1")" 2>/dev/null && pwd); }

# Removes each path on standard input, with what a stopped --install left beside it, and the folders that --install created
# if they are empty. A path that leads through a link is not followed: it is named, and the others are removed.
take_away() {
    links=no
    while IFS= read -r path; do
        case /$path/ in
            //* | */../*) stop 70 "$list names $path, which is not below $prefix" ;;
        esac
        folder=$(parent "$path")
        [ -n "$folder" ] || continue
        if [ "$folder" != "$(dirname "$prefix/$path")" ]; then
            echo "pmach: not removed: $prefix/$path leads through a link to $folder" >&2
            links=yes
            continue
        fi
        case $path in
            */) [ -L "$prefix/${path%/}" ] || rmdir "$prefix/$path" 2>/dev/null ;;
            *) rm -f "$prefix/$path" "$prefix/$path".new[0-9]* || stop 70 "cannot remove $prefix/$path" ;;
        esac
    done
    [ "$links" = no ] || return 70
}

# copy SOURCE TARGET: a copy that everybody can read, and execute if the source is executable.
copy() {
    mode=644
    [ ! -x "$1" ] || mode=755
    install -m "$mode" "$1" "$2"
}

# The sentence for an installed program that is not proved.
write_not_proved() {
    echo "pmach: not proved: an internal error would stop this build with a signal. To replace it by the proved program," \
        "run 'pmach --prove' and then 'pmach --install PREFIX' in a clone" >"$1"
}

# The library, joined with the allocator that it calls: a library of the kit, separate from the one that rt builds.
write_library() {
    [ "$made" = proved ] || { copy "$here/$library" "$1" && return; }
    kit=$(dirname "$(rt doc </dev/null)") &&
        printf '%s\n' "CREATE $1" "ADDLIB $here/$library" "ADDLIB $kit/c/liblibc_c.a" SAVE END | "$kit/toolchain/bin/llvm-ar" -M
}

# The file for pkg-config.
write_config() {
    version=$(sed -n 's/^#define PMACH_VERSION_TEXT "\(.*\)"/\1/p' "$here/examples/library/pmach.h")
    printf '%s\n' "prefix=$prefix" "Name: pmach" "Description: the p-machine of UCSD Pascal version II, $made" \
        "Version: $version" 'Cflags: -I"${prefix}/include"' 'Libs: -L"${prefix}/lib" -lpm_c' >"$1"
}

# Chooses the program to install: the proved one if it has been built, otherwise the unproved one, which is built if
# needed. Chooses the library too, if one has been built.
choose() {
    library=crates/pm_c/out/libpm_c.a made=proved
    [ -f "$here/$library" ] || library=out/unproved/libpm_c.a made='not proved'
    [ -f "$here/$library" ] || library=''
    program=crates/pmach/out/pmach which=proved
    [ ! -x "$here/$program" ] || return 0
    program=out/unproved/pmach which=unproved
    [ -x "$here/$program" ] && [ -z "$(find "$here/crates" -name '*.rt' -newer "$here/$program" -print -quit)" ] ||
        "$script/build.sh" --build
}

# Writes the list: the files, and then the folders that this or an earlier --install created.
write_list() {
    mkdir -p "$prefix/lib/pmach" || stop 70 "cannot create $prefix/lib/pmach"
    cat "$@" >"$scratch/list" && put lib/pmach/installed copy "$scratch/list"
}

put_all() {
    [ -d "$here/crates/pmach" ] || stop 70 "--install works only in a clone of the repository"
    choose || exit
    mkdir -p "$prefix" && prefix=$(cd -P "$prefix" && pwd) || stop 70 "cannot create $prefix"
    list=$prefix/lib/pmach/installed
    { files | sed 's/.* //' && others && echo lib/pmach/installed; } | sort >"$scratch/new" || exit 70
    path=$(in_the_way)
    [ -z "$path" ] || stop 1 "$prefix/$path exists and was not installed by --install; nothing was changed"
    grep -v '/$' "$list" 2>/dev/null | sort >"$scratch/old"
    grep '/$' "$list" 2>/dev/null | sort >"$scratch/old-folders"
    folders <"$scratch/new" | while IFS= read -r folder; do
        [ -d "$prefix/$folder" ] && ! grep -qxF "$folder/" "$scratch/old-folders" || echo "$folder/"
    done | sort >"$scratch/folders"
    # The list comes first, together with the old one, so that an interrupted --install can be removed.
    sort -u "$scratch/new" "$scratch/old" >"$scratch/files"
    sort -ru "$scratch/folders" "$scratch/old-folders" >"$scratch/both"
    write_list "$scratch/files" "$scratch/both"
    files | while read -r source target; do
        mkdir -p "$prefix/${target%/*}" && put "$target" copy "$here/$source"
    done || exit
    [ "$which" = proved ] || put lib/pmach/not-proved.txt write_not_proved
    put share/doc/pmach/pmach ln -s ../../../bin/pmach
    [ -z "$library" ] || {
        mkdir -p "$prefix/lib/pkgconfig" && put lib/libpm_c.a write_library && put lib/pkgconfig/pmach.pc write_config
    }
    comm -13 "$scratch/new" "$scratch/old" | take_away || exit
    comm -13 "$scratch/folders" "$scratch/old-folders" | sort -r | take_away
    sort -r "$scratch/folders" >"$scratch/both"
    write_list "$scratch/new" "$scratch/both"
    case $which in
        proved) echo "pmach: the proved program is installed as $prefix/bin/pmach" ;;
        *) echo "pmach: an unproved program is installed as $prefix/bin/pmach; for the proved one run 'pmach --prove' and --install again" ;;
    esac
}

take_all() {
    folder=$(cd -P "$prefix" 2>/dev/null && pwd) || stop 1 "there is no folder $prefix"
    prefix=$folder
    list=$prefix/lib/pmach/installed
    [ -f "$list" ] && [ ! -L "$list" ] && [ "$(parent lib/pmach/installed)" = "$prefix/lib/pmach" ] ||
        stop 1 "nothing was installed below $prefix by --install"
    [ -O "$list" ] || stop 1 "$list belongs to another user, who has to remove what it lists"
    cp "$list" "$scratch/list" || exit 70
    take_away <"$scratch/list" || exit 70
    echo "pmach: removed from $prefix"
}

[ $# = 2 ] && [ -n "$2" ] || stop 1 "$1 requires one argument: the folder PREFIX"
prefix=$2
scratch=$(mktemp -d) || exit 70
trap 'rm -rf "$scratch"' EXIT
trap 'exit 130' INT
trap 'exit 143' HUP TERM
case $1 in
    --install) put_all ;;
    *) take_all ;;
esac
