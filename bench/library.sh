#!/bin/sh
# library.sh: makes each call of the library, and refuses each of its allocations (library.c). The variables LIBPM_C, HEAP and CC
# are those of examples/library/try.sh. Run manually; not part of the gate.
set -eu
here=$(dirname "$(readlink -f "$0")")
made=$(mktemp -d)
trap 'rm -rf "$made"' EXIT
heap=${HEAP:-$(dirname "$(readlink -f "$(command -v rt)")")/../c/liblibc_c.a}
# Each call of the header is made.
for call in $(grep -o '\bpmach_[a-z_]*(' "$here/../examples/library/pmach.h"); do
    grep -qF "$call" "$here/library.c" || { echo "$call..) is not called" && exit 1; }
done
${CC:-cc} -std=c99 -Wall -Wextra -Werror -O1 -I"$here/../examples/library" -Wl,--wrap=malloc -Wl,--wrap=realloc \
    "$here/library.c" "${LIBPM_C:-$here/../crates/pm_c/out/libpm_c.a}" "$heap" -o "$made/library"
echo "the library ${LIBPM_C:-$here/../crates/pm_c/out/libpm_c.a}"
"$made/library" "$here/../examples/hanoi.text"
