#!/bin/sh
# `version.sh [VERSION]` prints the version of the source: VERSION, by default that of the library's header. In a git clone
# it is followed by the date and the name of the last commit, and by `+changed` if files of the clone differ from it.
here=$(dirname "$(dirname "$(readlink -f "$0")")")
version=${1:-$(sed -n 's/^#define PMACH_VERSION_TEXT "\(.*\)"/\1/p' "$here/examples/library/pmach.h")}
if commit=$(git -C "$here" rev-parse --verify -q --short=8 HEAD 2>/dev/null); then
    time=${SOURCE_DATE_EPOCH:-$(git -C "$here" log -1 --format=%ct)}
    version=$version+git$(TZ=UTC date -d "@$time" +%Y%m%d).$commit
    [ -z "$(git -C "$here" status --porcelain -uno)" ] || version=$version+changed
fi
echo "$version"
